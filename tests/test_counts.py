"""Clusters with other counts of cycles than 64, by `run`.

What is wanted was typed by hand from docs/FORMATS.md, comes from another register, naive.py, or from a plain loop; none of it is the program's own
output."""
import random

from tests.drivers.invocations import Invocation, InvocationCase, answered, faulty
from tests.models import naive
from tests.models.random_scripts import random_script
from tests.models.scripts import CLUSTER, DONE, done, refused, request, script, suppliers
from tests.runner.parameters import for_values

COUNTS = range(8, 65, 2)
PAIRED = (12, 48, 60, 64)
MIXES = {"all": 700, "place": 700, "imports": 400, "revising": 400, "comparing": 400}
SLOTS = 16
OPENED = [('integrator1 {"do":"open_variant","variant":"v1"}', DONE)]
KEY, IN_V1 = "supplier01", dict(variant="v1")
BAD_CYCLES = refused(5, "BadCycles")


def with_cycles(count):
    return {**CLUSTER, "cycles": str(count)}


def taken(cycle, frame="f"):
    return f'{{"channel":"A","cycle":{cycle},"frame":"{frame}","no":25,"refused":"CellTaken"}}'


def opened(slots):
    """The node n1 of s1 holds these slots, and has the frames f and g."""
    yield done("integrator1", "open_variant", **IN_V1)
    yield done("integrator1", "add_node", supplier="s1", node="n1")
    for slot in slots:
        for channel in "AB":
            yield done("integrator1", "grant", **IN_V1, slot=slot, channel=channel, supplier="s1", node="n1")
    for frame in "fg":
        yield done(KEY, "add_frame", **IN_V1, frame=frame, node="n1")


def place(frame, slot, base, repetition, do="place", channels="A"):
    return request(KEY, do, **IN_V1, frame=frame, slot=slot, channels=channels, base=base, repetition=repetition)


def told(query, *lines):
    listed = ",".join(f'"{line}"' for line in lines)
    return request(KEY, query, **IN_V1), f'{{"lines":[{listed}],"ok":"{query}"}}'


# ---- typed by hand

TWELVE = [
    (place("f", 1, 0, 4), DONE),
    (place("g", 1, 2, 6), taken(8)),
    (place("f", 2, 1, 4), DONE),
    (place("g", 2, 2, 6), DONE),
    (place("f", 3, 0, 3), DONE),
    (place("g", 3, 2, 4), taken(6)),
    (place("g", 4, 0, 8), BAD_CYCLES),
    (place("g", 4, 12, 12), BAD_CYCLES),
    (place("g", 4, 0, 24), BAD_CYCLES),
    (place("g", 4, 0, 0), BAD_CYCLES),
    (place("g", 4, 11, 12), DONE),
    told("frames", "FRAME f n1", "AT 0001 A 00 04", "AT 0002 A 01 04", "AT 0003 A 00 03", "FRAME g n1", "AT 0002 A 02 06", "AT 0004 A 11 12"),
]
# f at 100 and 600, g in its second slot at 910, and so the ring of 1000 until it comes again.
TEN = [
    (place("f", 1, 1, 5), DONE),
    told("gaps", "GAP     500 f", "GAP   never g"),
    told("schedule", "01 0001 A f n1", "06 0001 A f n1"),
    (place("f", 1, 0, 4), BAD_CYCLES),
    (place("f", 1, 0, 64), BAD_CYCLES),
    (place("f", 1, 1, 5, "unplace"), DONE),
    told("gaps", "GAP   never f", "GAP   never g"),
    (place("g", 2, 9, 10), DONE),
    told("schedule", "09 0002 A g n1"),
    told("gaps", "GAP   never f", "GAP    1000 g"),
    told("load", *(f"{slot:04} {channel} {'01' if (slot, channel) == (2, 'A') else '00'} 10 n1" for slot in range(1, 5) for channel in "AB")),
    (
        request(KEY, "room", **IN_V1, frame="f", repetition=5),
        '{"lines":["0001 A 05 00 01 02 03 04","0001 AB 05 00 01 02 03 04","0001 B 05 00 01 02 03 04","0002 A 05 00 01 02 03","0002 AB 05 00 01 02 03",'
        '"0002 B 05 00 01 02 03 04","0003 A 05 00 01 02 03 04","0003 AB 05 00 01 02 03 04","0003 B 05 00 01 02 03 04","0004 A 05 00 01 02 03 04",'
        '"0004 AB 05 00 01 02 03 04","0004 B 05 00 01 02 03 04"],"ok":"room"}',
    ),
    (request(KEY, "room", **IN_V1, frame="f", repetition=4), BAD_CYCLES),
    (request(KEY, "room", **IN_V1, frame="f", repetition=64), BAD_CYCLES),
]
FORTY_EIGHT = [
    (place("f", 1, 47, 48), DONE),
    (place("f", 1, 0, 32), BAD_CYCLES),
    (place("f", 1, 48, 48), BAD_CYCLES),
    (place("g", 1, 0, 1), taken(47)),
    told("schedule", "47 0001 A f n1"),
    told("gaps", "GAP    4800 f", "GAP   never g"),
]
FAULTS = [
    *(("BadCycleCount", dict(cycles=value)) for value in ("7", "6", "66", "0", "9", "63", "65", "4294967294", "4294967295")),
    *(("BadField", dict(cycles=value)) for value in ('"8"', "8.0", "true", "-8", "4294967296", "[8]")),
    ("BadSum", dict(cycles="7", macroticks_per_cycle="101")),
    ("BadSum", dict(cycles="66", idle_macroticks="11")),
    ("BadField", dict(cycles='"7"', macroticks_per_cycle="101")),
    ("BadCycleCount", dict(cycles="7", suppliers=suppliers(65))),
    ("BadCycleCount", dict(cycles="7", integrator='"short"')),
    ("Limit", dict(cycles="8", suppliers=suppliers(65))),
]


class CountsByHand(InvocationCase):
    """Placements of 10, 12 and 48 cycles, and which counts a cluster may have, are as worked out by hand."""

    def plan(self, count, pairs):
        self.ends(answered(f"{count} cycles", with_cycles(count), [*opened(range(1, 5)), *pairs]))

    def test_10_cycles(self):
        self.plan(10, TEN)

    def test_12_cycles(self):
        self.plan(12, TWELVE)

    def test_48_cycles(self):
        self.plan(48, FORTY_EIGHT)

    def test_faults(self):
        for word, changes in FAULTS:
            self.ends(faulty(f"{word}: a cluster file with {changes}", script({**CLUSTER, **changes}, []), word))

    def test_good_counts(self):
        for count in "8", "10", "64", "0x10", "+8":
            self.ends(answered(f"cycles = {count}", {**CLUSTER, "cycles": count}, OPENED))


# ---- each count, beside another register


def divisors(count):
    return [it for it in range(1, count + 1) if count % it == 0]


def each_repetition(count):
    """Each repetition up to one more than the count, and larger ones, with the first base, the last one, and the one behind it."""
    for repetition in (*range(count + 2), 2 * count, 64, 128, 4_294_967_295):
        for base in {0, max(repetition - 1, 0), repetition}:
            slot = 1 + repetition % SLOTS
            yield place("f", slot, base, repetition, channels="AB")
            yield place("f", slot, base, repetition, "unplace", channels="AB")


def planned(count):
    """A supplier's frames in cycles drawn for them, as requests and as rows of a file; then all that may be asked of them."""
    chance = random.Random(count)
    drawn = []
    for _ in range(120):
        repetition = chance.choice(divisors(count))
        fields = dict(slot=chance.randint(1, SLOTS), channels=chance.choice(("A", "B", "AB")), base=chance.randrange(repetition), repetition=repetition)
        drawn.append((f"f{chance.randrange(30)}", fields))
    for frame in range(30):
        yield request(KEY, "add_frame", **IN_V1, frame=f"f{frame}", node="n1")
    for frame, fields in drawn[:80]:
        yield request(KEY, "place", **IN_V1, frame=frame, **fields)
    for at, (frame, fields) in enumerate(drawn[80:]):
        row = f"{frame},n1,{','.join(map(str, fields.values()))}\n"
        body = f"frame,node,slot,channels,base,repetition\n{row}" + (f"{frame},n1,1,A,0,{count - 1}\n" if at % 4 == 3 else "")
        yield request(KEY, "import", **IN_V1, label=f"l{at}", body=body)
    yield from queries("v1")
    yield from rooms("v1", count)
    yield request("integrator1", "release", **IN_V1)
    yield request("integrator1", "open_variant", variant="v2", **{"from": "v1"})
    for frame, fields in drawn[:10]:
        yield request(KEY, "unplace", variant="v2", frame=frame, **fields)
        yield request(KEY, "place", variant="v2", frame="g", **fields)
    yield from queries("v2")
    yield from rooms("v2", count)
    for who in KEY, "integrator1":
        for new, old in ("v2", "v1"), ("v1", "v2"):
            yield request(who, "diff", variant=new, **{"from": old})
    for replaces in False, True:
        rows = (f"f{at},n1,{1 + at % 3},A,{at % count},{it}" for at, it in enumerate([*divisors(count), 0, 3, count - 1, 64]))
        yield request(KEY, "try", variant="v2", body="\n".join(["frame,node,slot,channels,base,repetition", *rows]), replace=replaces)


def queries(variant):
    for who in KEY, "supplier02", "integrator1":
        for query in "grants", "frames", "schedule", "gaps", "load":
            yield request(who, query, variant=variant)
        yield request(who, "export_placements", variant=variant, part=0)


def rooms(variant, count):
    for repetition in range(count + 2):
        yield request(KEY, "room", variant=variant, frame=f"f{repetition % 30}", repetition=repetition)


class Repetitions(InvocationCase):
    """With each count of cycles each repetition is answered as by another register; those that divide the count, and those that do not."""

    def asked(self, cluster, cycles):
        lines = [line for line, _ in opened(range(1, SLOTS + 1))]
        lines += [*each_repetition(cycles), *planned(cycles)]
        given = script({**cluster, "static_slots": str(SLOTS), "macroticks_per_cycle": "220"}, [(line, None) for line in lines])
        self.ends(Invocation(f"repetitions of {cycles} cycles", given, naive.answers(given)))

    @for_values(*COUNTS)
    def test_cycles(self, count):
        self.asked(with_cycles(count), count)

    def test_no_count(self):
        """A cluster file without the key has 64 cycles."""
        self.asked(CLUSTER, 64)


class MixturesWithCycles(InvocationCase):
    """With each count of cycles mixtures of many requests are answered as by another register."""

    @for_values(*COUNTS)
    def test_cycles(self, count):
        for mix, lines in MIXES.items():
            given = random_script(mix, lines, 4, count, count)
            self.ends(Invocation(f"the mixture {mix} with {count} cycles", given, naive.answers(given)))


# ---- two sets of cycles


def sets(count):
    """All pairs of a base and a repetition that select cycles."""
    return [(base, repetition) for repetition in divisors(count) for base in range(repetition)]


def first_common(count, one, other):
    for cycle in range(count):
        if cycle % one[1] == one[0] and cycle % other[1] == other[0]:
            return cycle
    return None


def beside_each_other(count):
    """Each set is placed alone, and then each set is asked for beside it, and taken back where it finds room."""
    for one in sets(count):
        yield place("f", 1, *one), DONE
        for other in sets(count):
            cycle = first_common(count, one, other)
            if cycle is None:
                yield place("g", 1, *other), DONE
                yield place("g", 1, *other, "unplace"), DONE
            else:
                yield place("g", 1, *other), taken(cycle)
        yield place("f", 1, *one, "unplace"), DONE


class SetsOfCycles(InvocationCase):
    """Of two sets of cycles the cell that is taken is the first in which a plain loop finds both; with 12, 48, 60 and 64 cycles, all pairs."""

    @for_values(*PAIRED)
    def test_cycles(self, count):
        self.ends(answered(f"all pairs of sets of {count} cycles", with_cycles(count), [*opened([1]), *beside_each_other(count)]))
