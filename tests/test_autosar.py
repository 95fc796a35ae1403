"""AUTOSAR system descriptions, by clients/slotplan_plans: a plan as a file, and that file as a register that has the same reports."""
import json
import random
import re
import xml.etree.ElementTree as ET
from collections import Counter
from dataclasses import replace

from clients.slotplan_plans.autosar import folder as folders
from clients.slotplan_plans.autosar import reading, writing
from clients.slotplan_plans.autosar.proposal import Proposal
from clients.slotplan_plans.plan import Variant
from clients.slotplan_plans.reading import read
from tests.drivers.autosar_registers import Shape, Told, reports, requests_of
from tests.models.plans import examples
from tests.models.scripts import DONE
from tests.runner.case import Case
from tests.runner.parameters import for_each

# Plans by chance: on one channel and on two, of many counts of cycles, without a payload and with the longest.
SHAPES = {
    "64 cycles": Shape(),
    "12 cycles": Shape(cycles=12),
    "10 cycles": Shape(cycles=10),
    "50 cycles": Shape(cycles=50),
    "A, a word": Shape(channels="A", words=1),
    "B, no payload": Shape(channels="B", words=0),
    "127 words": Shape(words=127, frames=20),
    "5 suppliers": Shape(slots=60, frames=30, suppliers=5),
}
KINDS = "ECU-INSTANCE", "FLEXRAY-FRAME", "I-SIGNAL-I-PDU", "I-SIGNAL", "SYSTEM-SIGNAL"
MEMBERS = "FLEXRAY-CLUSTER", *KINDS[:4]
SPACE = "{http://autosar.org/schema/r4.0}"
# What AUTOSAR takes as the text of these leaves.
WORDS = {
    "CYCLE-REPETITION": "CYCLE-REPETITION-(1|2|4|5|8|10|16|20|32|40|50|64)", "CHANNEL-NAME": "CHANNEL-[AB]", "SYSTEM-VERSION": r"\d+\.\d+\.\d+",
    "PACKING-BYTE-ORDER": "MOST-SIGNIFICANT-BYTE-(FIRST|LAST)", "COMMUNICATION-DIRECTION": "IN|OUT",
}
# Those of which a second plan has a triggering for each timing.
EACH = "64 cycles", "50 cycles"


class ComesBack(Case):
    """A test that makes a register of a description, and compares its reports with those of the first."""

    in_memory = True

    def described(self, plan, **options):
        """The path of a plan's description."""
        with open(self.folder / "plan.arxml", "w", encoding="utf-8") as file:
            writing.write(file, plan, writing.Options(**options))
        return self.folder / "plan.arxml"

    def is_sound(self, what, file):
        """Short names and words are AUTOSAR's, and of these kinds each name is alone in the cluster, whatever its case. References lead to elements
        of their kind."""
        paths, names, refs, texts = {}, Counter(), [], set()

        def walk(element, path):
            tag, name = element.tag.rpartition("}")[2], element.find("{*}SHORT-NAME")
            if name is not None:
                path = f"{path}/{name.text}"
                names[tag if tag in KINDS else path.rpartition("/")[0].lower(), name.text.lower()] += 1
                paths[path] = tag
                self.see(f"{what}: {path}", True, re.fullmatch("[A-Za-z][A-Za-z0-9_]{0,127}", name.text) is not None)
            if tag.endswith("-REF"):
                refs.append((element.text, element.get("DEST")))
            if tag in WORDS and len(element) == 0:
                texts.add((tag, element.text))
            for child in element:
                walk(child, path)

        root = ET.parse(file).getroot()
        walk(root, "")
        self.are_members(what, root, [(path, tag) for path, tag in paths.items() if tag in MEMBERS])
        self.are_typed(what, root)
        self.see(f"{what}: short names that are there twice", [], [name for name, count in names.items() if count > 1])
        self.see(f"{what}: words that are none", [], [it for it in texts if not re.fullmatch(WORDS[it[0]], it[1])])
        self.see(f"{what}: references", True, len(refs) > 10)
        self.see(f"{what}: references that lead elsewhere", [], [(path, kind) for path, kind in refs if paths.get(path) != kind])

    def are_members(self, what, root, wanted):
        """The system names each element of these kinds once."""
        got = [(it.text, it.get("DEST")) for it in root.iter(f"{SPACE}FIBEX-ELEMENT-REF")]
        self.see(f"{what}: members of the system", sorted(wanted), sorted(got))

    def are_typed(self, what, root):
        """Each signal's type is the narrowest that has room for it."""
        of = lambda signal, tag: signal.find(f".//{SPACE}{tag}").text
        signals = [(int(of(it, "LENGTH")), of(it, "BASE-TYPE-REF")) for it in root.iter(f"{SPACE}I-SIGNAL")]
        wrong = [it for it in signals if it[1] != f"/Types/uint{next(width for width in (8, 16, 32, 64) if it[0] <= width)}"]
        self.see(f"{what}: signals of another type", [], wrong)

    def comes_back(self, what, told, variant, frames, **options):
        """The variant as a description, and that as a register: all its reports are those of the first."""
        plan = read(Told(told), variant)
        file = self.described(plan, **options)
        self.is_sound(what, file)
        # (how long a minislot is the register does not know: it knows where there are none)
        none = plan.cluster.figures["dynamic_macroticks"] == 0
        self.see(f"{what}: minislots", ["0"] if none else [], re.findall("<NUMBER-OF-MINISLOTS>(.*)<", file.read_text()))
        proposal = Proposal(reading.read([self.folder / "plan.arxml"]), {})
        self.see(f"{what}: the plan", replace(plan, variant=Variant(variant, None, 1, False)), proposal.plan)
        self.see(f"{what}: notes of rows", [], [note for note in proposal.notes if note.kind != "not kept"])
        place = self.folder / what
        folders.write(place, proposal)
        answers, got = reports((place / "cluster.toml").read_text(), requests_of(place), [variant], frames)
        self.see(f"{what}: refusals", [], [it for it in answers if not it.startswith('{"ok":')])
        wanted = {key: answer for key, answer in told.items() if key[2:3] in ((), (variant,)) and key[1] != "variants"}
        self.see(f"{what}: its reports", sorted(wanted), sorted(key for key in got if key[1] != "variants"))
        for key, answer in wanted.items():
            self.see(f"{what}: {key}", answer, got.get(key))


CASES = [(f"{name} together", shape, False) for name, shape in SHAPES.items()] + [(f"{name} each", SHAPES[name], True) for name in EACH]


@for_each(CASES)
class RandomPlans(ComesBack):
    """A plan by chance comes back from its description. Names differ by case, or several suppliers have one; lanes are idle, frames unplaced."""

    seconds = 30

    def tried(self, shape, each):
        dice = random.Random(self.id())
        answers, told = reports(shape.cluster(dice), "".join(shape.requests(dice)), ["v1"], shape.frame_names)
        self.see("it has rows", True, answers.count(DONE) > 50)
        self.comes_back("v1", told, "v1", shape.frame_names, each=each, macrotick=dice.choice((None, "1.375")))


@for_each(examples())
class Examples(ComesBack):
    """Each variant of each example comes back from its description."""

    def tried(self, cluster, requests):
        frames = sorted(set(re.findall(r'"frame":"(\w+)"', requests)))
        variants = sorted(set(re.findall(r'"open_variant","variant":"(\w+)"', requests)))
        _, told = reports(cluster, requests, variants, frames)
        for variant in [line.split(" ")[0] for line in json.loads(told["", "variants"])["lines"]]:
            self.comes_back(variant, told, variant, frames)
