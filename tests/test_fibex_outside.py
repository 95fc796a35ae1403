"""FIBEX files beside those that canmatrix writes, which are of CAN: python3-canmatrix and python3-lxml of Debian.

No program in Debian reads FlexRay of FIBEX. What is common to all buses, elements and their order, frames, PDUs, signals, codings and ports, is
compared. Without canmatrix these tests are skipped, and that is no failure."""
import random
import re
import xml.etree.ElementTree as ET
from itertools import combinations

from clients.slotplan_plans.autosar.proposal import Proposal
from clients.slotplan_plans.fibex import reading, writing
from clients.slotplan_plans.reading import read
from tests.drivers import canmatrix_there
from tests.drivers.autosar_registers import Shape, Told, reports
from tests.runner.case import Case

# What FlexRay has in place of a cluster and of identifiers of CAN.
FIGURES = {
    "N-I-T": 10, "STATIC-SLOT": 10, "SYMBOL-WINDOW": 10, "MACRO-PER-CYCLE": 1000, "NUMBER-OF-STATIC-SLOTS": 60, "PAYLOAD-LENGTH-STATIC": 4,
}
# What FIBEX has for FlexRay alone, and what canmatrix leaves away.
OWN = {"SLOT-ID", "BASE-CYCLE", "CYCLE-REPETITION", "CYCLE-COUNTER", "ABSOLUTELY-SCHEDULED-TIMING", "TIMINGS", "CONTROLLERS", "CONTROLLER",
       "CHANNEL-REF", "CONTROLLER-REF", "FRAME-TYPE"}


class OutsideCase(Case):
    """A test that asks canmatrix."""

    may_be_skipped = True
    in_memory = True
    seconds = 20

    def setUp(self):
        super().setUp()
        if not canmatrix_there.python("fibex"):
            self.skipTest("no python3 has canmatrix and lxml")

    def written(self, frames):
        """The text that canmatrix writes of frames."""
        canmatrix_there.writes(self.folder / "can.xml", frames)
        return (self.folder / "can.xml").read_text()


def frames_by_chance(dice, count):
    """Frames of 8 bytes: name, sender, bytes, and signals that do not meet."""
    for number in range(count):
        at, signals = 0, []
        while at < 56:
            at += dice.randrange(4)
            length = dice.randrange(1, min(24, 64 - at))
            signals.append((f"x{len(signals)}_{number}", at, length, "little"))
            at += length
        yield f"Frame_{number}", dice.choice(("ECM", "TCM")), 8, signals


class Reads(OutsideCase):
    """Frames, senders and signals that canmatrix writes are read as they were."""

    def test_frames(self):
        frames = list(frames_by_chance(random.Random(1), 30))
        text = self.written(frames)
        slots = iter(range(1, 100))
        text = re.sub(
            "<fx:IDENTIFIER>.*?</fx:IDENTIFIER>",
            lambda _: f"<fx:TIMINGS><fx:ABSOLUTELY-SCHEDULED-TIMING><fx:SLOT-ID>{next(slots)}</fx:SLOT-ID><fx:BASE-CYCLE>0</fx:BASE-CYCLE>"
                      "<fx:CYCLE-REPETITION>1</fx:CYCLE-REPETITION></fx:ABSOLUTELY-SCHEDULED-TIMING></fx:TIMINGS>",
            text, flags=re.DOTALL)
        text = re.sub('(<fx:PROTOCOL .*?>)CAN<', r"\1FlexRay<", text)
        text = text.replace("</fx:CLUSTER>", "".join(f"<fx:{tag}>{value}</fx:{tag}>" for tag, value in FIGURES.items()) + "</fx:CLUSTER>")
        text = text.replace("<fx:CHANNEL>", '<fx:CHANNEL ID="CANCHANNEL01"><fx:FLEXRAY-CHANNEL-NAME>A</fx:FLEXRAY-CHANNEL-NAME>')
        (self.folder / "flexray.xml").write_text(text)
        proposal = Proposal(reading.read([self.folder / "flexray.xml"]), {"ECM": "s1", "TCM": "s1"})
        self.see("notes of rows", [], [note for note in proposal.notes if note.kind != "not kept"])
        got = [(it.name, it.node, 8, [(at.name, at.start, at.length, at.order) for at in it.signals]) for it in proposal.plan.frames]
        self.see("frames", sorted(frames), sorted(got))
        placed = {it.name: [tuple(vars_of(at)) for at in it.placements] for it in proposal.plan.frames}
        self.see("placements", {name: [(slot, "A", 0, 1)] for slot, (name, *_) in enumerate(frames, 1)}, placed)


def vars_of(placement):
    return placement.slot, placement.channels, placement.base, placement.repetition


class Order(OutsideCase):
    """Elements have the names, the name spaces and the order that canmatrix gives them."""

    def pairs(self, root):
        """Each element with two that it has, the first before the second."""
        for element in root.iter():
            yield from ((element.tag, *pair) for pair in combinations(dict.fromkeys(it.tag for it in element), 2))

    def test_order(self):
        others = ET.fromstring(self.written(list(frames_by_chance(random.Random(2), 4))))
        shape, dice = Shape(frames=5), random.Random(3)
        plan = read(Told(reports(shape.cluster(dice), "".join(shape.requests(dice)), ["v1"])[1]), "v1")
        for release in writing.RELEASES:
            with open(self.folder / "plan.xml", "w", encoding="utf-8") as file:
                writing.write(file, plan, writing.Options(release=release))
            ours = ET.parse(self.folder / "plan.xml").getroot()
            mine, theirs = set(self.pairs(ours)), set(self.pairs(others))
            self.see(f"{release}: pairs that canmatrix has too", True, len(mine & theirs) > 20)
            self.see(f"{release}: pairs that it has the other way round", [], sorted(it for it in mine if (it[0], it[2], it[1]) in theirs))
            inside = lambda root: {(element.tag, it.tag) for element in root.iter() for it in element}
            is_own = lambda tag: tag.rpartition("}")[2] in OWN or "/flexray}" in tag
            more = {it for it in inside(ours) - inside(others) if not any(map(is_own, it))}
            self.see(f"{release}: elements that it has elsewhere or not at all", set(), more)
