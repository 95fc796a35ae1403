"""FIBEX files, by clients/slotplan_plans: a plan as a file of each release, and that file as a register that has the same reports."""
import json
import random
import re
import xml.etree.ElementTree as ET
from collections import Counter
from dataclasses import replace

from clients.slotplan_plans.autosar import folder as folders
from clients.slotplan_plans.autosar.proposal import Proposal
from clients.slotplan_plans.faults import Fault
from clients.slotplan_plans.fibex import reading, writing
from clients.slotplan_plans.plan import Variant
from clients.slotplan_plans.reading import read
from tests.drivers.autosar_registers import Shape, Told, reports, requests_of
from tests.models.plans import examples
from tests.models.scripts import DONE
from tests.runner.case import Case
from tests.runner.parameters import for_each

SHAPES = {
    "64 cycles": Shape(),
    "12 cycles": Shape(cycles=12),
    "50 cycles": Shape(cycles=50),
    "A, a word": Shape(channels="A", words=1),
    "B, no payload": Shape(channels="B", words=0),
    "127 words": Shape(words=127, frames=20),
    "5 suppliers": Shape(slots=60, frames=30, suppliers=5),
}
KINDS = "CLUSTER", "CHANNEL", "ECU", "FRAME", "PDU", "SIGNAL", "CODING"
FX = "{http://www.asam.net/xml/fbx}"
# To which elements references lead.
LEAD = {
    "CHANNEL-REF": "CHANNEL", "CONTROLLER-REF": "CONTROLLER", "FRAME-TRIGGERING-REF": "FRAME-TRIGGERING", "FRAME-REF": "FRAME", "PDU-REF": "PDU",
    "SIGNAL-REF": "SIGNAL", "CODING-REF": "CODING",
}
WORDS = {
    "FLEXRAY-CHANNEL-NAME": "[AB]", "IS-HIGH-LOW-BYTE-ORDER": "true|false", "CYCLE-REPETITION": "1|2|4|5|8|10|16|20|32|40|50|64",
    "PROTOCOL-VERSION": "2.1|3.0",
}


class ComesBack(Case):
    """A test that makes a register of a FIBEX file, and compares its reports with those of the first."""

    in_memory = True

    def described(self, plan, **options):
        """The path of a plan's file."""
        with open(self.folder / "plan.xml", "w", encoding="utf-8") as file:
            writing.write(file, plan, writing.Options(**options))
        return self.folder / "plan.xml"

    def is_sound(self, what, file, release):
        """Each ID is alone in the file, and an XML name; each reference leads to an element of its kind; short names of a kind differ by more than
        case."""
        root = ET.parse(file).getroot()
        bare = lambda element: element.tag.rpartition("}")[2]
        self.see(f"{what}: its top", (f"{FX}FIBEX", f"{release}.0"), (root.tag, root.get("VERSION")))
        identities = [(it.get("ID"), bare(it)) for it in root.iter() if it.get("ID")]
        kinds = dict(identities)
        self.see(f"{what}: IDs that are there twice", len(identities), len(kinds))
        self.see(f"{what}: IDs that are none", [], [it for it in kinds if not re.fullmatch("[A-Za-z_][A-Za-z0-9_.-]*", it)])
        refs = [(bare(it), it.get("ID-REF")) for it in root.iter() if it.get("ID-REF")]
        self.see(f"{what}: references that lead elsewhere", [], [it for it in refs if kinds.get(it[1]) != LEAD[it[0]]])
        self.see(f"{what}: it has references", True, len(refs) > 5)
        names = Counter((bare(it), it.findtext("{*}SHORT-NAME").lower()) for it in root.iter() if bare(it) in KINDS)
        self.see(f"{what}: short names that are there twice", [], [name for name, count in names.items() if count > 1])
        texts = {(bare(it), it.text) for it in root.iter() if bare(it) in WORDS}
        self.see(f"{what}: words that are none", [], [it for it in texts if not re.fullmatch(WORDS[it[0]], it[1])])
        spaces = {it.tag.rpartition("}")[0][1:] for it in root.iter()}
        wanted = {"http://www.asam.net/xml/fbx", "http://www.asam.net/xml", "http://www.asam.net/xml/fbx/flexray"}
        self.see(f"{what}: name spaces", wanted, spaces)

    def comes_back(self, what, told, variant, frames, **options):
        """The variant as a file, and that as a register: all its reports are those of the first."""
        plan = read(Told(told), variant)
        file = self.described(plan, **options)
        self.is_sound(what, file, options["release"])
        proposal = Proposal(reading.read([file]), {})
        self.see(f"{what}: the plan", replace(plan, variant=Variant(variant, None, 1, False)), proposal.plan)
        self.see(f"{what}: notes of rows", [], [note for note in proposal.notes if note.kind != "not kept"])
        place = self.folder / what
        folders.write(place, proposal)
        answers, got = reports((place / "cluster.toml").read_text(), requests_of(place), [variant], frames)
        self.see(f"{what}: refusals", [], [it for it in answers if not it.startswith('{"ok":')])
        wanted = {key: answer for key, answer in told.items() if key[2:3] in ((), (variant,)) and key[1] != "variants"}
        self.see(f"{what}: its reports", sorted(wanted), sorted(key for key in got if key[1] != "variants"))
        for key, answer in wanted.items():
            self.see(f"{what}: {key}", answer, got.get(key))


@for_each(SHAPES.items())
class RandomPlans(ComesBack):
    """A plan by chance comes back from its file, of each release. Names differ by case, or several suppliers have one; lanes are idle, frames
    unplaced."""

    seconds = 20

    def tried(self, shape):
        dice = random.Random(self.id())
        answers, told = reports(shape.cluster(dice), "".join(shape.requests(dice)), ["v1"], shape.frame_names)
        self.see("it has rows", True, answers.count(DONE) > 50)
        for release in writing.RELEASES if shape.cycles == 64 else ["4.1"]:
            options = {"release": release, "each": dice.random() < 0.5, "macrotick": dice.choice((None, "1.375"))}
            self.comes_back(f"v1_{release}", told, "v1", shape.frame_names, **options)

    def comes_back(self, what, told, variant, frames, **options):
        super().comes_back(what.replace(".", "_"), told, variant, frames, **options)


class Cycles(ComesBack):
    """Release 3.1 has 64 cycles, and says so of another cluster."""

    def test_other_cycles(self):
        shape, dice = Shape(cycles=12), random.Random(1)
        _, told = reports(shape.cluster(dice), "".join(shape.requests(dice)), ["v1"], shape.frame_names)
        with self.assertRaises(Fault) as fault:
            self.described(read(Told(told), "v1"), release="3.1")
        self.see("why", "FIBEX 3.1 has 64 cycles, and this cluster 12: --fibex 4.1 can tell it", str(fault.exception))


@for_each(examples())
class Examples(ComesBack):
    """Each variant of each example comes back from its file."""

    def tried(self, cluster, requests):
        frames = sorted(set(re.findall(r'"frame":"(\w+)"', requests)))
        variants = sorted(set(re.findall(r'"open_variant","variant":"(\w+)"', requests)))
        _, told = reports(cluster, requests, variants, frames)
        for variant in [line.split(" ")[0] for line in json.loads(told["", "variants"])["lines"]]:
            self.comes_back(variant, told, variant, frames, release="4.1", macrotick="1")
