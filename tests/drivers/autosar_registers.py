"""Registers for tests of AUTOSAR system descriptions: one with a random plan, one of a proposal, and what their reports say."""
import json
import tomllib
from dataclasses import dataclass

from clients.slotplan_plans.sources import Source

from .plans_client import request
from .program import ran

SLOT, IDLE = 40, 60
INTEGRATOR = "integrator1"
LENGTHS = (1, 1, 2, 3, 5, 7, 8, 9, 12, 16, 17, 31, 32, 33, 63, 64)
REPORTS = "grants", "frames", "schedule", "gaps", "load", "rows"
EXPORTS = "export_frames", "export_placements", "export_signals"
# An export of these plans has fewer parts.
PARTS = 12
# The field of a report behind its variant.
LAST = {**dict.fromkeys(EXPORTS, "part"), "layout": "frame"}


@dataclass
class Shape:
    """How a random plan is made. Two suppliers' names differ by case alone. Where names are `alike`, several nodes, frames and signals have one name,
    or names that differ by case; else each name is its own."""

    channels: str = "AB"
    cycles: int = 64
    words: int = 8
    slots: int = 20
    suppliers: int = 3
    frames: int = 12
    # Which repetitions frames have; all that divide the cycles where there are none.
    repetitions: tuple = ()
    alike: bool = True

    @property
    def names(self):
        return [*(f"s{number}" for number in range(1, self.suppliers)), "S1"]

    @property
    def frame_names(self):
        return [frame for name in self.names for frame in self.frames_of(name)]

    def frames_of(self, name):
        mine = "" if self.alike else f"_of_{self.names.index(name)}"
        return [f"f{number}{mine}" if number % 5 else f"{'F' if self.alike else 'g'}{number + 1}{mine}" for number in range(self.frames)]

    def nodes_of(self, name):
        return ("n1", "N1", "gear_control") if self.alike else [f"n{number}_of_{self.names.index(name)}" for number in range(3)]

    def cluster(self, dice):
        """The cluster file."""
        dynamic, symbol = dice.choice((0, 1000, 1777)), dice.choice((0, 13))
        figures = {
            "static_slots": self.slots, "slot_macroticks": SLOT, "dynamic_macroticks": dynamic, "symbol_macroticks": symbol, "idle_macroticks": IDLE,
            "macroticks_per_cycle": self.slots * SLOT + dynamic + symbol + IDLE, "payload_words": self.words, "cycles": self.cycles,
        }
        lines = [f'channels = "{self.channels}"', *(f"{key} = {value}" for key, value in figures.items()), f'integrator = "{INTEGRATOR}"']
        return "\n".join([*lines, "[suppliers]", *(f'{name} = "{key_of(name)}"' for name in self.names)]) + "\n"

    def requests(self, dice):
        """Requests by chance. Those that do not fit are refused."""
        yield request(INTEGRATOR, "open_variant", variant="v1")
        nodes = [(name, node) for name in self.names for node in self.nodes_of(name)]
        for supplier, node in nodes:
            yield request(INTEGRATOR, "add_node", supplier=supplier, node=node)
        lanes = dict(self.lanes(dice, nodes))
        for (slot, channel), (supplier, node) in lanes.items():
            yield request(INTEGRATOR, "grant", variant="v1", slot=slot, channel=channel, supplier=supplier, node=node)
        for name in self.names:
            for frame in self.frames_of(name):
                node = dice.choice(self.nodes_of(name))
                yield request(key_of(name), "add_frame", variant="v1", frame=frame, node=node)
                yield from self.placed(dice, name, frame, [lane for lane, owner in lanes.items() if owner == (name, node)], lanes)
                yield from self.laid(dice, name, frame)
        yield request(INTEGRATOR, "release", variant="v1")

    def lanes(self, dice, nodes):
        """Who holds each slot on each channel; often one node holds both, and some are nobody's."""
        for slot in range(1, self.slots + 1):
            owner = dice.choice(nodes)
            for channel in self.channels:
                if dice.random() < 0.85:
                    yield (slot, channel), owner if dice.random() < 0.7 else dice.choice(nodes)

    def placed(self, dice, name, frame, mine, lanes):
        """Placements of a frame, often none: on one channel, on both, or on each by a placement of its own."""
        repetitions = self.repetitions or [it for it in range(1, self.cycles + 1) if self.cycles % it == 0]
        for _ in range(dice.choice((0, 1, 1, 2, 3, 9)) if mine else 0):
            slot, channel = dice.choice(mine)
            both = all(lanes.get((slot, it)) == lanes[slot, channel] for it in "AB")
            repetition = dice.choice(repetitions)
            base = dice.randrange(repetition)
            for channels in dice.choice((["AB"], ["A", "B"])) if both and dice.random() < 0.6 else [channel]:
                yield request(key_of(name), "place", variant="v1", frame=frame, slot=slot, channels=channels, base=base, repetition=repetition)

    def laid(self, dice, name, frame):
        """Signals of a frame in both orders."""
        for number in range(dice.choice((0, 3, 20, 60)) if self.words else 0):
            place = {"start": dice.randrange(16 * self.words), "length": dice.choice(LENGTHS), "order": dice.choice(("little", "big"))}
            signal = dice.choice(("x", "X", "sig", "Speed")) + str(number // 2) if self.alike else f"x{number}_of_{frame}"
            yield request(key_of(name), "add_signal", variant="v1", frame=frame, signal=signal, **place)


def key_of(supplier):
    return f"key{supplier}00000"


def keys_in(cluster):
    """The keys of a cluster file that was read, by supplier; the integrator's name is empty."""
    return {"": cluster["integrator"], **cluster["suppliers"]}


def joined(requests):
    """The keys of suppliers that join later."""
    asked = (json.loads(line.split(" ", 1)[1]) for line in requests.split("\n") if '"do":"add_supplier"' in line)
    return {it["supplier"]: it["key"] for it in asked}


class Told(Source):
    """A source that has the integrator's answers already."""

    def __init__(self, answers):
        self.answers = answers

    def report(self, *asked):
        return json.loads(self.answers["", *asked])["lines"]


def reports(cluster, requests, variants, frames=()):
    """What all reports of these variants say to the integrator and to each supplier, in a register of this cluster file and these requests, by
    supplier, report and its fields; and before them the answers to the requests."""
    keys = keys_in(tomllib.loads(cluster)) | joined(requests)
    asked = [("", "variants")]
    for supplier in keys:
        asked += [(supplier, do) for do in ("cluster", "nodes")]
        for variant in variants:
            asked += [(supplier, do, variant) for do in REPORTS] + [(supplier, do, variant, part) for do in EXPORTS for part in range(PARTS)]
            asked += [(supplier, "layout", variant, frame) for frame in frames]
    lines = "".join(request(keys[supplier], do, **dict(zip(("variant", LAST.get(do)), fields))) for supplier, do, *fields in asked)
    status, written, said = ran(["run"], None, f"{cluster.rstrip()}\n---\n{requests}{lines}".encode())
    answers = written.decode().splitlines()
    if status or said:
        raise OSError(f"slotplan run: status {status}, {said!r:.300}")
    return answers[: -len(asked)], dict(zip(asked, answers[-len(asked) :]))


def requests_of(folder):
    """The requests that make the proposal of a folder: the integrator's, then an import of each supplier's files in the order of their names."""
    text = (folder / "requests.txt").read_text()
    variant = json.loads(text.split("\n")[0].split(" ", 1)[1])["variant"]
    for place in sorted(it for it in folder.iterdir() if it.is_dir()):
        key = (place / "key.txt").read_text().strip()
        for file in sorted(place.glob("*.csv")):
            text += request(key, "import", variant=variant, label=file.stem, body=file.read_text())
    return text
