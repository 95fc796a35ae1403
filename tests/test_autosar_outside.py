"""AUTOSAR system descriptions as canmatrix reads them, an outside reader: python3-canmatrix of Debian.

Without it these tests are skipped, and that is no failure."""
import random
import re
import xml.etree.ElementTree as ET
from dataclasses import replace
from itertools import combinations

from clients.slotplan_plans.autosar import writing
from clients.slotplan_plans.bits import bits
from clients.slotplan_plans.reading import read
from tests.drivers import canmatrix_there
from tests.drivers.autosar_registers import Shape, Told, reports
from tests.models.plans import examples
from tests.runner.case import Case
from tests.runner.parameters import for_each

# canmatrix knows no CYCLE-COUNTER, so repetitions are those that AUTOSAR has a word for. Where names are alike, short names are longer ones.
SHAPES = {
    "64 cycles": Shape(frames=8, alike=False),
    "names alike": Shape(frames=8),
    "50 cycles, A": Shape(channels="A", cycles=50, frames=8, repetitions=(1, 2, 5, 10, 50), alike=False),
    "127 words": Shape(words=127, suppliers=2, frames=6, alike=False),
}

# Which variants of the examples have frames of which no two have one name.
VARIANTS = {"powertrain": ("my26",), "import": ("series",), "ten_cycles": ("series",)}


class OutsideCase(Case):
    """A test that asks canmatrix."""

    may_be_skipped = True
    in_memory = True
    seconds = 20

    def setUp(self):
        super().setUp()
        if not canmatrix_there.python():
            self.skipTest("no python3 has canmatrix")

    def plan_of(self, cluster, requests, variant="v1"):
        return read(Told(reports(cluster, requests, [variant])[1]), variant)

    def by_chance(self, shape):
        dice = random.Random(self.id())
        return self.plan_of(shape.cluster(dice), "".join(shape.requests(dice)))

    def described(self, plan):
        """A description with a triggering for each timing: canmatrix reads the first timing of each."""
        with open(self.folder / "plan.arxml", "w", encoding="utf-8") as file:
            writing.write(file, plan, writing.Options(each=True))
        return self.folder / "plan.arxml"

    def agrees(self, plan, names_differ=True):
        """canmatrix reads in CAN's names what `as_can` sees; and of FlexRay, with two look-ups mended, each slot, base, repetition, channel, length,
        sender and signal, and values."""
        file, sent, dice = self.described(plan), {}, random.Random(1)
        for frame in plan.frames:
            for it in frame.placements:
                sent |= {(channel, it.slot, it.base, it.repetition): frame for channel in it.channels}
        given = {" ".join(map(str, at)): [valued(plan, frame, dice) for _ in range(2)] for at, frame in sent.items() if frame.signals}
        read = canmatrix_there.reads(file, given)
        self.as_can(plan, read["can"], names_differ)
        got = read["mended"]
        self.see("it has timings", True, len(sent) > 0)
        self.see("timings", sorted(sent), sorted(tuple(it[:4]) for it in got["timings"]))
        for *at, size, pdus, values in got["timings"]:
            frame = sent[tuple(at)]
            self.see(f"{at}: bytes", plan.cluster.payload_bits // 8, size)
            self.see(f"{at}: a PDU of the frame's name", [True], [is_short(name, frame.name, names_differ) for name, _ in pdus])
            self.signals(f"{at}", frame, pdus[0][1], names_differ)
            self.see(f"{at}: values", [given[" ".join(map(str, at))]] if frame.signals else [], values)
        self.see("triggerings with a sender", len(sent), len(got["senders"]))
        for path, direction, ecu in got["senders"]:
            channel, *numbers = re.fullmatch(r"/Cluster/FlexRay/Channel_(.)/Slot_(\d+)_(\d+)_(\d+)_\w+", path).groups()
            node = sent[channel, *map(int, numbers)].node
            self.see(f"{path}: {ecu} is {node}", ("OUT", True), (direction, is_short(ecu.rpartition("/")[2], node, names_differ)))

    def signals(self, what, frame, got, names_differ):
        wanted = [[it.start, it.length, it.order] for it in frame.signals]
        self.see(f"{what}: starts, lengths and orders", wanted, [row[:3] for row in got])
        self.see(f"{what}: no signs", set(), {row[4] for row in got} - {False})
        for it, row in zip(frame.signals, got):
            self.see(f"{what}: {row[3]} is {it.name}", True, is_short(row[3], it.name, names_differ))

    def as_can(self, plan, read, names_differ):
        """What canmatrix reads, as it is installed, of the same file in CAN's names: frames, lengths, senders and signals, on each channel."""
        wanted = {(channel, frame.name): frame for frame in plan.frames for it in frame.placements for channel in it.channels}
        got = {}
        for channel, name, size, senders, signals in read if names_differ else ():
            keys = [key for key in wanted if key[0] == channel and is_short(name, key[1], names_differ)]
            self.see(f"{name} on {channel} is sent there", 1, len(keys))
            frame = got[keys[0]] = wanted[keys[0]]
            self.see(f"{name}: bytes", plan.cluster.payload_bits // 8, size)
            self.see(f"{name}: sender", [True], [is_short(it, frame.node, names_differ) for it in senders])
            self.signals(name, frame, signals, names_differ)
        if names_differ:
            self.see("frames in CAN's names", sorted(wanted), sorted(got))


def is_short(short, name, names_differ):
    """Whether this may be the short name of a name: itself where all names differ, else with something before or a number behind."""
    return short == name if names_differ else re.fullmatch(rf"(\w+_)?{name}(_\d+)?", short) is not None


def valued(plan, frame, dice):
    """Values by chance of a frame's signals, by start, and the payload that has them."""
    values = {str(it.start): dice.choice((0, (1 << it.length) - 1, dice.getrandbits(it.length))) for it in frame.signals}
    payload = 0
    for it in frame.signals:
        payload |= sum((values[str(it.start)] >> bit & 1) << place for bit, place in enumerate(bits(it)))
    return [values, payload.to_bytes(plan.cluster.payload_bits // 8, "little").hex()]


@for_each(SHAPES.items())
class PlansByChance(OutsideCase):
    """canmatrix reads in plans by chance what the register says."""

    def tried(self, shape):
        self.agrees(self.by_chance(shape), not shape.alike)


@for_each((f"{name} {variant}", cluster, requests, variant) for name, cluster, requests in examples() for variant in VARIANTS.get(name, ()))
class Examples(OutsideCase):
    """canmatrix reads in the examples' plans what the register says."""

    def tried(self, cluster, requests, variant):
        self.agrees(self.plan_of(cluster, requests, variant))


class Order(OutsideCase):
    """Elements stand in the order in which descriptions by other tools have them, which are of CAN and Ethernet.

    What clusters, channels, connectors, frames and triggerings share comes from one class of AUTOSAR, whatever the bus."""

    def pairs(self, path):
        """Each kind of element with two kinds that it has, the first before the second."""
        kind = lambda element: re.sub("^(CAN|ETHERNET)-", "FLEXRAY-", element.tag.rpartition("}")[2])
        for element in ET.parse(path).getroot().iter():
            yield from ((kind(element), *pair) for pair in combinations(dict.fromkeys(map(kind, element)), 2))

    def test_examples(self):
        others = {pair for path in canmatrix_there.files() for pair in self.pairs(path)}
        others -= {(kind, second, first) for kind, first, second in others}
        ours = set()
        for name, cluster, requests in examples():
            for variant in VARIANTS.get(name, ()):
                ours |= set(self.pairs(self.described(self.plan_of(cluster, requests, variant))))
        self.see("pairs that others have too", True, len(ours & others) > 70)
        self.see("pairs that others have the other way round", [], sorted(it for it in ours if (it[0], it[2], it[1]) in others))


class Wrong(OutsideCase):
    """The comparison is able to fail: where big signals are given by the other end, canmatrix's signals differ."""

    def test_turned_starts(self):
        plan = self.by_chance(Shape(suppliers=2, frames=6, alike=False))
        frames = tuple(replace(it, signals=tuple(sorted(map(turned, it.signals)))) for it in plan.frames)
        got = canmatrix_there.reads(self.described(replace(plan, frames=frames)))["mended"]
        wanted = {(channel, it.slot, it.base, it.repetition): frame for frame in plan.frames for it in frame.placements for channel in it.channels}
        rows = lambda frame: [[it.start, it.length, it.order] for it in frame.signals]
        differ = [at for *at, _, pdus, _ in got["timings"] if [row[:3] for row in pdus[0][1]] != rows(wanted[tuple(at)])]
        self.see("timings whose signals differ", True, len(differ) > 0)


def turned(signal):
    """A big signal with its start mirrored in the byte."""
    return replace(signal, start=signal.start - signal.start % 8 + 7 - signal.start % 8) if signal.order == "big" else signal
