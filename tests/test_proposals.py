"""Proposals of the program beside all ways of placing, and what is proposed sent back as a file.

Whether wishes can be placed at all is found by trying every way, at few cycles and slots (tests/models/proposals.py); none of it is the program's own
output. The register of naive.py proposes beside the program in `test_scripts`."""
import json
import random

from tests.drivers.program import ran
from tests.models.proposals import TURNS, Page, Wish, is_chain, there_is_a_way
from tests.runner.case import WHOLE, Case
from tests.runner.parameters import for_values

COUNTS = (8, 10, 12, 16)
SUPPLIERS, VARIANTS, SLOTS = 10, 25, 3
INSTANCES = 5_000 if WHOLE else 500  # for each count of cycles
WISHED, PLACED = "frame,node,channels,repetition", "frame,node,slot,channels,base,repetition"
DONE = {"ok": "done"}


def text(lines):
    return "".join(f"{line}\n" for line in lines)


def said(key, do, **fields):
    return f"{key} {json.dumps({'do': do, **fields}, separators=(',', ':'))}"


class Instance:
    """A node's slots in a variant, some placements in them, and wishes."""

    def __init__(self, dice, cycles, variant, number):
        self.variant, self.supplier, self.key = variant, f"s{number}", f"keyofs{number:02}"
        lanes = [(SLOTS * number + slot, channel) for slot in range(1, dice.randint(1, SLOTS) + 1) for channel in "AB"]
        self.page = Page(cycles, ["n"], {lane: "n" for lane in lanes if dice.random() < 0.85}, {})
        repetitions = [it for it in range(1, cycles + 1) if cycles % it == 0]
        for _ in range(dice.randint(0, 4)):
            self.put(dice, dice.choice(repetitions[1:]))
        kinds = TURNS if dice.random() < 0.3 else (dice.choice(TURNS),)
        self.replaces = dice.random() < 0.3
        names = ("f0", "f1", "f2", "g0", "g1", "g2")
        self.wishes = [Wish(line, dice.choice(names), "n", dice.choice(kinds), dice.choice(repetitions)) for line in range(2, dice.randint(2, 6) + 2)]

    def put(self, dice, repetition):
        """A placement of one of three frames, where there is a place for it."""
        channels = dice.choice(TURNS)
        filled = self.page.filled(self.page.frames)
        free = [
            (slot, channels, base, repetition) for slot in self.page.slots("n", channels) for base in range(repetition)
            if filled.isdisjoint(self.page.cells(slot, channels, base, repetition))
        ]
        if free:
            self.page.frames.setdefault(f"f{dice.randrange(3)}", ("n", []))[1].append(dice.choice(free))

    def setting_up(self):
        for slot, channel in self.page.grants:
            yield said("integrator1", "grant", variant=self.variant, slot=slot, channel=channel, supplier=self.supplier, node="n")
        for frame, (node, placements) in self.page.frames.items():
            yield said(self.key, "add_frame", variant=self.variant, frame=frame, node=node)
            for slot, channels, base, repetition in placements:
                yield said(self.key, "place", variant=self.variant, frame=frame, slot=slot, channels=channels, base=base, repetition=repetition)

    def proposing(self):
        body = text([WISHED, *(f"{it.frame},n,{it.channels},{it.repetition}" for it in self.wishes)])
        return said(self.key, "propose", variant=self.variant, body=body, replace=self.replaces)

    @property
    def beside(self):
        """The cells that are filled beside which the wishes stand."""
        named = {it.frame for it in self.wishes} if self.replaces else ()
        return self.page.filled({frame: it for frame, it in self.page.frames.items() if frame not in named})


class Told:
    """The lines of a proposal, taken apart."""

    def __init__(self, instance, lines):
        self.numbers = {int(line[:4]): int(line[5:7]) for line in lines if line[0] != "L"}
        self.records = {int(line[:4]): line[8:] for line in lines if line[4:8] == " 00 "}
        self.lacks = {line.split()[2]: int(line.split()[3]) for line in lines if line[0] == "L"}
        self.asked = [it for it in instance.wishes if self.numbers[it.line] in (0, 32)]
        self.placed = [it for it in self.asked if it.line in self.records]

    @property
    def is_whole(self):
        return all(number == 0 for number in self.numbers.values())

    def place(self, wish):
        frame, node, slot, channels, base, repetition = self.records[wish.line].split(",")
        return (frame, node, channels, int(repetition)), (int(slot), channels, int(base), int(repetition))


def is_exact(wishes):
    """Whether all are for the same channels, and their repetitions are a chain."""
    return len({it.channels for it in wishes}) == 1 and is_chain(wishes)


class AllWays(Case):
    """What is proposed has free cells of its own; where there is no room, no way of placing gives one; and what is proposed is imported, or replaces, without
    a refusal."""

    def script(self, cycles, dice):
        """A cluster file with the suppliers and their nodes; and instances, each of a supplier in a variant."""
        head = [
            'channels = "AB"', f"static_slots = {SLOTS * SUPPLIERS}", "slot_macroticks = 10", "dynamic_macroticks = 10", "symbol_macroticks = 0",
            "idle_macroticks = 10", f"macroticks_per_cycle = {SLOTS * SUPPLIERS * 10 + 20}", "payload_words = 1", 'integrator = "integrator1"', f"cycles = {cycles}",
            "[suppliers]", *(f's{n} = "keyofs{n:02}"' for n in range(SUPPLIERS)), "---",
            *(said("integrator1", "add_node", supplier=f"s{n}", node="n") for n in range(SUPPLIERS)),
            *(said("integrator1", "open_variant", variant=f"v{n}") for n in range(VARIANTS)),
        ]
        instances = [Instance(dice, cycles, f"v{variant}", n) for variant in range(VARIANTS) for n in range(SUPPLIERS)]
        return [*head, *(line for it in instances for line in it.setting_up())], instances

    def answers(self, lines, count):
        """What the last so many lines are answered; those before them are done."""
        status, written, told = ran(["run"], self.folder, text(lines).encode())
        self.see("the script is answered", (0, b""), (status, told))
        answers = [json.loads(line) for line in written.splitlines()]
        self.see("the rows are there", [], [it for it in answers[:-count] if it != DONE])
        return answers[-count:]

    @for_values(*COUNTS)
    def test_cycles(self, cycles):
        dice = random.Random(cycles)
        for _ in range(INSTANCES // (SUPPLIERS * VARIANTS)):
            lines, instances = self.script(cycles, dice)
            told = self.answers([*lines, *(it.proposing() for it in instances)], len(instances))
            told = [Told(it, answer["lines"]) for it, answer in zip(instances, told)]
            for instance, it in zip(instances, told):
                self.fits(instance, it)
                self.is_certain(instance, it)
            self.is_taken(lines, instances, told)

    def fits(self, instance, told):
        """Each wish that holds a slot has an answer; each place is as wished, in slots that are held, of cells that nothing else fills."""
        page, filled = instance.page, instance.beside
        refused = [it.line for it in instance.wishes if not page.slots("n", it.channels)]
        self.see("a wish without a slot is refused", refused, [line for line, number in told.numbers.items() if number == 21])
        self.see("no other is", len(instance.wishes) - len(refused), len(told.asked))
        for wish in told.placed:
            named, place = told.place(wish)
            self.see("the record is as wished", (wish.frame, "n", wish.channels, wish.repetition), named)
            cells = page.cells(*place)
            self.see("its slot is held", True, place[0] in page.slots("n", wish.channels) and place[2] < wish.repetition)
            self.see("its cells are free", True, filled.isdisjoint(cells))
            filled |= cells

    def is_certain(self, instance, told):
        """Where the wishes are for the same channels and their repetitions are a chain, a wish has no room exactly where it does not fit."""
        if not told.asked or not is_exact(told.asked):
            return
        way = lambda wishes, page=instance.page: there_is_a_way(page, instance.beside, wishes)
        self.see("each has a place exactly where all fit", way(told.asked), len(told.placed) == len(told.asked))
        if instance.replaces:
            return
        before = []
        for wish in sorted(told.asked, key=lambda it: (it.repetition, it.line)):
            has_place = wish in told.placed
            self.see("a wish has a place exactly where it fits with those before it", way([*before, wish]), has_place)
            before += [wish] if has_place else []
        channels = told.asked[0].channels
        if lack := told.lacks.get(channels):
            self.see("with the slots that lack all fit", True, way(told.asked, self.with_slots(instance, channels, lack)))
            self.see("with one fewer they do not", False, way(told.asked, self.with_slots(instance, channels, lack - 1)))

    def with_slots(self, instance, channels, count):
        """The page with so many empty slots more."""
        more = {(1000 + n, channel): "n" for n in range(count) for channel in channels}
        return Page(instance.page.cycles, ["n"], {**instance.page.grants, **more}, instance.page.frames)

    def is_taken(self, lines, instances, told):
        """The file of a proposal is imported, or replaces where each row has a placement, without a refusal."""
        sent, wanted = [], []
        for instance, it in zip(instances, told):
            body = text([PLACED, *it.records.values()])
            if not instance.replaces:
                sent.append(said(instance.key, "import", variant=instance.variant, label=f"proposed_{instance.variant}", body=body))
                wanted.append({"ok": "imported", "rows": len(it.records)})
            elif it.is_whole:
                sent.append(said(instance.key, "replace", variant=instance.variant, body=body))
                wanted.append({"ok": "replaced", "rows": len(it.records)})
        for answer, got in zip(wanted, self.answers([*lines, *sent], len(sent)), strict=True):
            self.see("what is proposed is carried out", answer, got)
