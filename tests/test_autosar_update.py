"""A plan that is carried back into its description: every other byte stays, and what is written, imported anew, is the plan."""
import codecs
import csv
import random
import re
import xml.etree.ElementTree as ET
from collections import Counter
from dataclasses import replace

from clients.slotplan_plans.autosar import beside, known
from clients.slotplan_plans.autosar.described import Described
from clients.slotplan_plans.autosar.updating import Updated
from clients.slotplan_plans.faults import Fault
from clients.slotplan_plans.plan import Grant, Placement
from tests.models import arxml
from tests.models.changed_plans import Changing
from tests.models.damaged import damaged
from tests.models.large_file import large
from tests.runner.case import Case
from tests.runner.parameters import for_each
from tests.test_autosar import SHAPES
from tests.test_autosar_commands import CommandCase
from tests.test_autosar_files import TABLE, TYPED, exported

TRIGGERING = re.compile(r"(<FLEXRAY-FRAME-TRIGGERING\b.*?</FLEXRAY-FRAME-TRIGGERING>)", re.S)
TIMING = re.compile(r"<FLEXRAY-ABSOLUTELY-SCHEDULED-TIMING>.*?</FLEXRAY-ABSOLUTELY-SCHEDULED-TIMING>\s*", re.S)
CHANGES = "move", "more", "less", "apart", "new", "dropped", "resent"
FOREIGN = arxml.foreign().replace("><", ">\n<")


class UpdateCase(Case):
    """A test that carries plans back."""

    in_memory = True

    def setUp(self):
        super().setUp()
        self.file = self.folder / "in.arxml"

    def imported(self, data, table):
        """The plan of a file, whose names are kept in a table as `import` does."""
        self.file.write_bytes(data)
        self.words = Described(suppliers=table)
        first = self.words.proposed([self.file])
        with open(self.folder / "names.csv", "w") as file:
            csv.writer(file).writerows([known.Row._fields, *first.rows])
        self.words = Described(names=known.read(self.folder / "names.csv"))
        self.see("the names are known again", first.plan, self.words.proposed([self.file]).plan)
        return first.plan

    def updated(self, plan, remove=False):
        """What comes of carrying a plan back, and the bytes that are written."""
        updated = Updated(self.words, [str(self.file)], plan, remove)
        return updated, updated.texts.get(str(self.file), self.file.read_bytes())

    def is_the_plan(self, what, data, plan, gone=()):
        """What was written, read anew, does not differ from the plan, but for frames that are gone."""
        (self.folder / "out.arxml").write_bytes(data)
        found = self.words.found([self.folder / "out.arxml"])
        self.see(f"{what}: it differs", [], beside.compared(plan, self.words.proposal(found, None, gone)))


def with_marks(text, encoding, mark=b""):
    return mark + text.replace('encoding="utf-8"', f'encoding="{encoding}"').encode(encoding)


UMLAUT = TYPED.replace("<SHORT-NAME>n1</SHORT-NAME>", "<SHORT-NAME>n1</SHORT-NAME><DESC><L-2 L=\"DE\">Steuergerät für Türen</L-2></DESC>")
PREFIXED = re.sub("<(/?)([A-Z])", r"<\1AR:\2", TYPED).replace("xmlns=", "xmlns:AR=")
FILES = {
    "typed": (TYPED.encode(), {}),
    "of another tool": (arxml.foreign().encode(), TABLE),
    "of another tool by lines": (FOREIGN.encode(), TABLE),
    "ends of lines": (TYPED.replace("\n", "\r\n").encode(), {}),
    "a mark": (codecs.BOM_UTF8 + TYPED.encode(), {}),
    "utf 16": (with_marks(UMLAUT, "utf-16"), {}),
    "latin 1": (with_marks(UMLAUT, "iso-8859-1"), {}),
    "windows 1252": (with_marks(UMLAUT, "windows-1252"), {}),
    "a prefix": (PREFIXED.encode(), {}),
}


@for_each((name, *case) for name, case in FILES.items())
class OtherFiles(UpdateCase):
    """Each typed file, in each form: without a change it comes back as it was, and with changes by chance it is the plan."""

    step = 5
    seconds = 20

    def tried(self, data, table):
        plan = self.imported(data, table)
        updated, written = self.updated(plan)
        self.see("nothing changed", (data, [], []), (written, list(updated.told()), updated.left))
        for number in range(self.turn % self.each, 50, self.each):
            self.changed(data, plan, random.Random(number))

    def changed(self, data, plan, dice):
        changing = Changing(plan, dice)
        for _ in range(dice.choice((1, 1, 2, 5, 20))):
            getattr(changing, dice.choice(CHANGES))()
        remove, wanted = dice.random() < 0.5, changing.made()
        updated, written = self.updated(wanted, remove)
        self.see("what is left", [], updated.left)
        dropped = {it.key for it in plan.frames} - {it.key for it in wanted.frames}
        self.see("frames that are gone", set() if remove else dropped, set(updated.gone.values()))
        self.is_the_plan("written", written, wanted, updated.gone)
        self.see("references that lead nowhere", [], sorted(self.astray(written) - self.astray(data)))

    def astray(self, data):
        """The references of a file that lead to no element of their kind, and paths that two elements have."""
        paths, refs = Counter(), []

        def walk(element, path):
            name = element.findtext("{*}SHORT-NAME")
            if name is not None:
                path = f"{path}/{name.strip()}"
                paths[path, element.tag.rpartition("}")[2]] += 1
            refs.append(((element.text or "").strip(), element.get("DEST")))
            for child in element:
                walk(child, path)

        walk(ET.fromstring(data), "")
        twice = {path for (path, kind), count in paths.items() if count > 1 and kind != "AR-PACKAGE"}
        return twice | {" ".join(ref) for ref in refs if ref[1] and ref not in paths}


@for_each((name, shape) for name, shape in SHAPES.items() if name != "127 words")
class OwnFiles(UpdateCase):
    """Descriptions of plans by chance, as `export` writes them: so with the grants that no frame uses."""

    step = 10
    seconds = 30
    tried_each, astray = OtherFiles.changed, OtherFiles.astray

    def tried(self, shape):
        data = exported(replace(shape, frames=6), random.Random(self.id()), self.folder).encode()
        plan = self.imported(data, {})
        updated, written = self.updated(plan)
        self.see("nothing changed", (data, [], []), (written, list(updated.told()), updated.left))
        for number in range(self.turn % self.each, 40, self.each):
            self.tried_each(data, plan, random.Random(number))


class OnlyThese(UpdateCase):
    """Where placements move, their timings alone differ, by a comparison of the texts."""

    step = 20
    seconds = 30

    def moved(self, data, table, count, dice):
        plan = self.imported(data, table)
        changing, moved = Changing(plan, dice), set()
        while len(moved) < count:
            if (told := changing.move(same_channels=True)) is not None:
                moved.add(told[0])
        wanted = changing.made()
        before = {it.key: it.placements for it in plan.frames}
        moved = {key for key in moved if next(it.placements for it in wanted.frames if it.key == key) != before[key]}
        updated, written = self.updated(wanted)
        self.see("what is left", [], updated.left)
        self.is_the_plan(f"{count} moved", written, wanted)
        self.see("moved", {key[1] for key in moved}, self.differing(data.decode(), written.decode()))

    def differing(self, old, new):
        """The frames of the triggerings that differ, which differ in timings alone; the rest of the texts is the same."""
        before, after = TRIGGERING.split(old), TRIGGERING.split(new)
        self.see("triggerings", len(before), len(after))
        self.see("what is beside them", before[::2], after[::2])
        pairs = [(one, other) for one, other in zip(before[1::2], after[1::2]) if one != other]
        self.see("what is beside timings", [TIMING.sub("", one) for one, _ in pairs], [TIMING.sub("", other) for _, other in pairs])
        self.see("timings", [len(TIMING.findall(one)) for one, _ in pairs], [len(TIMING.findall(other)) for _, other in pairs])
        return {re.search("<FRAME-REF[^>]*>[^<]*/([^<]*)</FRAME-REF>", one)[1] for one, _ in pairs}

    def test_one_text(self):
        """The typed file's one placement has another slot, base and repetition: three texts differ."""
        plan = self.imported(TYPED.encode(), {})
        frame = replace(plan.frames[0], placements=(Placement(4, "A", 3, 8),))
        grants = (*plan.grants, replace(plan.grants[0], slot=4))
        updated, written = self.updated(replace(plan, frames=(frame,), grants=grants))
        text = TYPED.replace("<SLOT-ID>2<", "<SLOT-ID>4<").replace("<BASE-CYCLE>1<", "<BASE-CYCLE>3<").replace("REPETITION-4<", "REPETITION-8<")
        self.see("the text", text, written.decode())
        self.see("what is told", ["- AT f 0002 A 01 04 s1", "+ AT f 0004 A 03 08 s1"], list(updated.told()))

    def test_large(self):
        """4,096 frames: without a change they come back as they were, and where 36 go to slots of their own, 36 triggerings differ."""
        text, table = large(64, 64)
        plan = self.imported(text.encode(), table)
        self.see("frames", 4096, len(plan.frames))
        _, written = self.updated(plan)
        self.see("the same bytes", True, written == text.encode())
        frames = {it.key: it for it in plan.frames}
        keys = [(f"s_E{number:02}", f"E{number:02}_F{random.Random(number).randrange(64):02}") for number in range(36)]
        for number, key in enumerate(keys):
            frames[key] = replace(frames[key], placements=(Placement(65 + number, "A", number % 16, 16),))
        grants = [Grant(65 + number, "A", supplier, supplier[2:]) for number, (supplier, _) in enumerate(keys)]
        updated, written = self.updated(replace(plan, frames=tuple(sorted(frames.values())), grants=tuple(sorted([*plan.grants, *grants]))))
        self.see("left", [], updated.left)
        self.see("moved", {name for _, name in keys}, self.differing(text, written.decode()))

    def test_random(self):
        """Of 40 frames of 5 ECUs 1 to 9 move."""
        text, table = large(5, 8)
        for number in range(self.turn % self.each, 300, self.each):
            self.moved(text.encode(), table, 1 + number % 9, random.Random(number))


class Damaged(UpdateCase):
    """1,200 files with faults in 1 to 20 places, and tables of names: each is taken, or refused in one line."""

    step = 30
    seconds = 20

    def of_this(self, data, table, first):
        plan = self.imported(data, table)
        lines, refused = data.decode(), 0
        for number in range(self.turn % self.each, 600, self.each):
            hurt = damaged(lines, random.Random(first + number))
            self.file.write_text(hurt)
            try:
                updated, written = self.updated(plan, remove=number % 2 == 1)
            except Fault as fault:
                refused += 1
                self.see(f"{number}: {fault} is a line", True, str(fault).isprintable())
                continue
            self.see(f"{number}: lines", [], [line for line in updated.told() if not line.isprintable()])
            if not updated.left:
                self.is_the_plan(str(number), written, plan, updated.gone)
        self.see("some are taken", True, refused < 600 // self.each)

    def test_of_a_plan(self):
        data = exported(replace(SHAPES["64 cycles"], frames=4, words=4), random.Random(3), self.folder).encode()
        self.of_this(data, {}, 0)

    def test_of_another_tool(self):
        self.of_this(FOREIGN.encode(), TABLE, 600)

    def test_names(self):
        self.imported(FOREIGN.encode(), TABLE)
        lines = (self.folder / "names.csv").read_text().splitlines()
        for number in range(self.turn % self.each, 600, self.each):
            dice = random.Random(number)
            hurt = list(lines)
            for _ in range(dice.choice((1, 3, 9))):
                at, fields = dice.randrange(len(hurt)), dice.choice(hurt).split(",")
                hurt[at] = dice.choice([",".join(dice.sample(fields, len(fields))), "", hurt[at][: dice.randrange(9)], f'"{hurt[at]}', "\0"])
            (self.folder / "names.csv").write_text("\n".join(hurt))
            try:
                words = Described(suppliers=TABLE, names=known.read(self.folder / "names.csv"))
                words.proposed([self.file])
            except Fault as fault:
                self.see(f"{number}: {fault} is a line", True, str(fault).isprintable())


class Commands(CommandCase):
    """The command: what it prints, writes and refuses, over the register of the powertrain's example."""

    def names_left(self):
        return sorted(it.name for it in self.folder.iterdir())

    def test_same(self):
        text = self.exported("my27")
        self.writes("rows out: 0, rows in: 0, gone: 0, left: 0\n", "update", "my27.arxml", "car.db", "my27", "out.arxml")
        self.see("the same bytes", text, self.text("out.arxml"))

    def test_other_variant(self):
        """my26's file gets my27's plan: a frame is gone, one is sent, a grant went to another, a signal is gone."""
        self.exported("my26")
        before = self.names_left()
        status, written, said = self.client("update", "my26.arxml", "car.db", "my27", "out.arxml")
        self.see("it ends", (1, ""), (status, said))
        lines = written.splitlines()
        self.see("what is left", ["left: + SIGNAL engine_speed 0032 08 little fuel enginetec"], [it for it in lines if it.startswith("left")])
        gone = "gone: FRAME exhaust_heat enginetec: the variant has it no more; --remove takes it out of the file"
        self.see("what is gone", [gone], [it for it in lines if it.startswith("gone")])
        self.see("the last line", True, lines[-1].endswith("gone: 1, left: 1; nothing was written: --leave writes the rest"))
        self.see("nothing is written", before, self.names_left())
        status, written, _ = self.client("update", "my26.arxml", "car.db", "my27", "out.arxml", "--leave", "--remove")
        self.see("it ends", (0, True), (status, written.endswith("gone: 0, left: 1\n")))
        status, differing, said = self.client("compare", "car.db", "my27", "out.arxml")
        self.see("what differs", (1, "+ SIGNAL engine_speed 0032 08 little fuel enginetec\n", ""), (status, differing, said))
        self.see("the variant's name", True, '<SD GID="variant">my27</SD>' in self.text("out.arxml"))
        self.see("the frame is gone", 0, self.text("out.arxml").count("/Frames/exhaust_heat"))

    def test_parts(self):
        """A description in two files: each is written anew."""
        text = self.exported("my27")
        cut = text.index("    <AR-PACKAGE>\n      <SHORT-NAME>Suppliers<")
        self.has("first.arxml", f"{text[:cut]}  </AR-PACKAGES>\n</AUTOSAR>\n")
        self.has("second.arxml", text[: text.index("    <AR-PACKAGE>")] + text[cut:])
        words = "update", "first.arxml", "car.db", "my28", "one.arxml", "--part", "second.arxml", "two.arxml"
        status, _, said = self.client(*words)
        self.see("it ends", (0, ""), (status, said))
        self.writes("", "compare", "car.db", "my28", "one.arxml", "two.arxml")
        self.see("the second", self.text("second.arxml"), self.text("two.arxml"))
        self.see("the first", self.text("first.arxml").replace(">my27<", ">my28<"), self.text("one.arxml"))
        self.stops("each file needs another name to be written by", *words[:-1], "one.arxml")

    def test_refused(self):
        text = self.exported("my27")
        self.has("half.arxml", text[:5000])
        self.has("fibex.xml", '<fx:FIBEX xmlns:fx="http://www.asam.net/xml/fbx"/>')
        before = self.names_left()
        refused = {
            ("half.arxml", "my27"): "half.arxml is no XML: no element found", ("none.arxml", "my27"): "none.arxml: No such file or directory",
            ("my27.arxml", "my99"): "there is no variant my99; there are: my26 my27 my28",
            ("fibex.xml", "my27"): "fibex.xml is no description of AUTOSAR 4: it begins with {http://www.asam.net/xml/fbx}FIBEX",
        }
        for (file, variant), why in refused.items():
            status, written, said = self.client("update", file, "car.db", variant, "out.arxml")
            self.see(f"{file} {variant}", (2, "", True, 1), (status, written, why.split(": no el")[0] in said, said.count("\n")))
        self.stops("car.db: it is a database, which may be a register; nothing is written", "update", "my27.arxml", "car.db", "my27", "car.db")
        self.see("files", before, self.names_left())

    def test_served(self):
        """The integrator's server tells the same; a supplier's key is refused."""
        text = self.exported("my27")
        self.has("integrator.key", "carmaker01\n")
        self.has("gearboxer.key", "gearboxer01\n")
        with self.served() as (_, port):
            words = "update", "my27.arxml", f"http://127.0.0.1:{port}", "my27", "out.arxml", "--key"
            status, _, said = self.client(*words, "integrator.key", program=False)
            self.see("it ends", (0, "", text), (status, said, self.text("out.arxml")))
            self.stops("the key is of gearboxer: a description is the integrator's", *words, "gearboxer.key", program=False)
