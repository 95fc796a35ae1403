"""Descriptions that are damaged, or none: each is read or refused in one line, and what is proposed keeps the register's rules and loses no row."""
import json
import random

from clients.slotplan_plans.autosar import folder
from tests.drivers.autosar_registers import Shape, reports, requests_of
from tests.models import arxml
from tests.models.damaged import damaged, lost, unsound
from tests.models.scripts import SUPPLIERS
from tests.runner.parameters import for_each
from tests.test_autosar_files import FileCase, exported

OF_EACH = 600


class Damaged(FileCase):
    """Descriptions with faults in 1 to 20 places: 600 of a plan's, and 600 of another tool's."""

    step = 30
    seconds = 20

    def of_this(self, text, lines):
        refused = 0
        for number in range(self.turn % self.each, OF_EACH, self.each):
            hurt = damaged(lines, random.Random(number))
            outcome = self.outcome(hurt)
            if isinstance(outcome, str):
                refused += 1
                self.see(f"{number}: {outcome} is a line", (True, False), (outcome.isprintable(), outcome.endswith("Error")))
            else:
                _, proposal = self.read(hurt)
                self.see(f"{number}: rules that it breaks", [], unsound(proposal.plan))
                self.see(f"{number}: rows that are lost", [], lost(hurt, proposal))
                if number % 5 == 0:
                    self.is_taken(number, proposal)
        self.see("some are read", True, refused < OF_EACH // self.each)

    def is_taken(self, number, proposal):
        """The register refuses no row of it."""
        place = self.folder / str(number)
        folder.write(place, proposal)
        answers, _ = reports((place / "cluster.toml").read_text(), requests_of(place), [])
        self.see(f"{number}: refusals", [], [it for it in answers if "refused" in it])

    def test_of_a_plan(self):
        text = exported(Shape(frames=4, words=4), random.Random(3), self.folder)
        self.of_this(text, text)

    def test_of_another_tool(self):
        self.of_this(arxml.foreign(), arxml.foreign().replace("><", ">\n<"))


CHANNEL = arxml.channel("A", ["DSC"], [arxml.triggering("T", "F", ["DSC/ConnA/Out"], arxml.timing(1, 0, 1))])
REST = arxml.package("Ecu", arxml.ecu("DSC")), arxml.package("Frame", arxml.frame("F", 16))


def small(channels=CHANNEL, clusters=1, **figures):
    """A description with one frame, with these figures in place of its own."""
    values = {key: figures.get(key.replace("-", "_"), value) for key, value in arxml.FIGURES.items()}
    given = {key: value for key, value in values.items() if value is not None}
    named = [arxml.cluster(f"C{number}", [channels], given) for number in range(clusters)]
    return arxml.whole(arxml.package("Cluster", *named), *REST)


TENFOLD = "".join(f'<!ENTITY {name} "{f"&{before};" * 10}">' for before, name in zip("abcdefghi", "bcdefghij"))
BOMB = f'<!DOCTYPE a [<!ENTITY a "aaaaaaaaaa">{TENFOLD}]><a>&j;</a>'
NO_DESCRIPTION = "is no description of AUTOSAR 4: it begins with"
TWO_FORMS = "<FLEXRAY-CLUSTER-CONDITIONAL/></FLEXRAY-CLUSTER-VARIANTS>"
REFUSED = {
    "nothing": ("", "is no XML: no element found"),
    "text": ("slot 1\n", "is no XML: syntax error"),
    "half": (arxml.foreign()[:5000], "is no XML: "),
    "letters": ('<?xml version="1.0" encoding="klingon"?><a/>', "is no XML: unknown encoding"),
    "bomb": (BOMB, "is no XML: limit on input amplification factor"),
    "outside": ('<!DOCTYPE a [<!ENTITY a SYSTEM "file:///etc/hostname">]><a>&a;</a>', "is no XML: undefined entity"),
    "fibex": ('<fx:FIBEX xmlns:fx="http://www.asam.net/xml/fbx"/>', NO_DESCRIPTION + " {http://www.asam.net/xml/fbx}FIBEX"),
    "autosar 3": ('<AUTOSAR xmlns="http://autosar.org/3.2.3"/>', NO_DESCRIPTION + " {http://autosar.org/3.2.3}AUTOSAR"),
    "no cluster": (arxml.whole(*REST), "there is no FlexRay cluster"),
    "two clusters": (small(clusters=2), "there are 2 FlexRay clusters: /Cluster/C0 /Cluster/C1; name one with --cluster"),
    "a line in a name": (
        small(clusters=2).replace("C0", "C\n\x7f0"), "there are 2 FlexRay clusters: /Cluster/C??0 /Cluster/C1; name one with --cluster",
    ),
    "no slots": (small(NUMBER_OF_STATIC_SLOTS=None), "the cluster has no NUMBER-OF-STATIC-SLOTS"),
    "two missing": (small(NETWORK_IDLE_TIME=None, MACRO_PER_CYCLE=None), "the cluster has no NETWORK-IDLE-TIME and no MACRO-PER-CYCLE"),
    "words": (small(PAYLOAD_LENGTH_STATIC=128), "payload_words would be 128; the register takes 0 to 127"),
    "odd": (small(CYCLE_COUNT_MAX=62), "cycles would be 63; the register takes 8 to 64, an even number"),
    "short cycle": (small(MACRO_PER_CYCLE=1000), "the segments of the cluster take 1935 macroticks, and a cycle has 1000"),
    "minislots": (small(NUMBER_OF_MINISLOTS=341), "341 minislots of 5 macroticks do not fit into the 1701 that the other segments leave"),
    "no number": (small(SYMBOL_WINDOW="wide"), "wide is no number"),
    "half a number": (small(SYMBOL_WINDOW="0.5"), "0.5 is no whole number"),
    "no channel": (small(""), "the cluster has no channel"),
    "two forms": (
        small().replace("</FLEXRAY-CLUSTER-VARIANTS>", TWO_FORMS), "the cluster has 2 FLEXRAY-CLUSTER-CONDITIONAL; one can be read",
    ),
    "no supplier": (small().replace("DSC", "ABS"), "the table of suppliers lacks /Ecu/ABS; `ecus` prints a table to fill in"),
}


@for_each((name, *case) for name, case in REFUSED.items())
class Refused(FileCase):
    """What is no description of one FlexRay cluster is refused, and a line says why."""

    def tried(self, text, why):
        outcome = self.outcome(text)
        self.see("it is a text", str, type(outcome))
        self.see("why", why, outcome.removeprefix(f"{self.folder / 'file.arxml'} ")[: len(why)] if isinstance(outcome, str) else outcome)
        self.see("it is one line", True, str(outcome).isprintable())


def of_ecus(ecus):
    """A description with these ECUs, which send nothing."""
    cluster = arxml.cluster("C", [arxml.channel("A", ecus, [])], arxml.FIGURES)
    return arxml.whole(arxml.package("Cluster", cluster), arxml.package("Ecu", *map(arxml.ecu, ecus)))


class Limits(FileCase):
    """What is one too many is left out or refused, and what is just enough is taken."""

    def test_suppliers(self):
        ecus = [f"E{number}" for number in range(SUPPLIERS + 1)]
        for count in SUPPLIERS, SUPPLIERS + 1:
            text = of_ecus(ecus[:count])
            table = {ecu: f"s_{ecu}" for ecu in ecus[:count]}
            if count == SUPPLIERS:
                self.see("64 suppliers", 64, len(self.read(text, table)[1].plan.cluster.suppliers))
            else:
                with self.assertRaisesRegex(Exception, "^there are 65 suppliers; the register takes 64$"):
                    self.read(text, table)

    def test_nodes(self):
        ecus = [f"E{number}" for number in range(65)]
        _, proposal = self.read(of_ecus(ecus), dict.fromkeys(ecus, "s1"))
        self.see("nodes", 64, len(proposal.plan.nodes))
        self.see("left out", [("left out", "/Ecu/E9", "s1 has 64 nodes already")], [tuple(it) for it in proposal.notes if it.kind == "left out"])

    def test_frames(self):
        names = [f"F{number:03}" for number in range(257)]
        timings = [[arxml.timing(slot + number // 64, number % 64, 64) for slot in (1, 11, 21)] for number in range(257)]
        sent = [arxml.triggering(f"T_{name}", name, ["DSC/ConnA/Out"], *three) for name, three in zip(names, timings)]
        cluster = arxml.cluster("C", [arxml.channel("A", ["DSC"], sent)], arxml.FIGURES)
        frames = (arxml.frame(name, 16, arxml.pdu_at("P", 0)) for name in names)
        signals = [f"S{number:02}" for number in range(65)]
        pdu = arxml.pdu("P", 16, *(arxml.signal_at(name, number) for number, name in enumerate(signals)))
        text = arxml.whole(arxml.package("Cluster", cluster), arxml.package("Ecu", arxml.ecu("DSC")), arxml.package("Frame", *frames),
                           arxml.package("Pdu", pdu), arxml.package("Signal", *(arxml.signal(name, 1) for name in signals)))
        _, proposal = self.read(text, {"DSC": "s1"})
        self.see("frames", names[:256], [it.name for it in proposal.plan.frames])
        self.see("signals", {64}, {len(it.signals) for it in proposal.plan.frames})
        wanted = [(f"/Frame/{name}: signal S64, start 64, length 1, little", "the frame has 64 signals already") for name in names[:256]]
        got = [(it.what, it.why) for it in proposal.notes if it.kind == "left out"]
        self.see("left out", sorted([("/Frame/F256", "s1 has 256 frames already"), *wanted]), sorted(got))
        folder.write(self.folder / "made", proposal)
        answers, _ = reports((self.folder / "made/cluster.toml").read_text(), requests_of(self.folder / "made"), [])
        rows = [answer["rows"] for answer in map(json.loads, answers) if answer["ok"] == "imported"]
        self.see("rows of its files: frames, placements of 170 and of 86 frames, and signals of 8", [256, 510, 258, *[512] * 32], rows)
