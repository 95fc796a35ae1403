"""The next release of a description in a running register: what the file changed comes in, and what was planned meanwhile stays."""
import random
from dataclasses import replace

from clients.slotplan_plans.autosar import beside, folder
from clients.slotplan_plans.autosar.adopting import Adopted
from clients.slotplan_plans.autosar.updating import Updated
from clients.slotplan_plans.faults import Fault
from clients.slotplan_plans.keys import Keys
from clients.slotplan_plans.plan import Grant, Placement, Signal, Variant
from clients.slotplan_plans.reading import read
from tests.drivers.autosar_registers import Told, reports
from tests.drivers.plans_client import request
from tests.models.changed_plans import Changing
from tests.models.damaged import damaged, unsound
from tests.models.large_file import large
from tests.models.scripts import DONE
from tests.test_autosar_commands import CommandCase
from tests.test_autosar_files import TABLE
from tests.test_autosar_update import CHANGES, FOREIGN, UpdateCase

NAMES = "s1", "brakes", "gears", *(f"s_E{number:02}" for number in range(64))
KEYS = Keys("integrator1", {name: f"key{name.replace('_', '')}0000" for name in NAMES})


class AdoptCase(UpdateCase):
    """A test that brings the next release of a file into a variant."""

    def changed(self, plan, dice, count, changes=CHANGES):
        changing = Changing(plan, dice)
        for _ in range(count):
            getattr(changing, dice.choice(changes))()
        return changing.made()

    def release(self, plan):
        """The file with another plan, as the carmaker's tool may have changed it, and what is proposed of it."""
        updated = Updated(self.words, [str(self.file)], plan, True)
        self.see("the release has the plan", [], updated.left)
        (self.folder / "next.arxml").write_bytes(updated.texts.get(str(self.file), self.file.read_bytes()))
        return self.words.proposed([self.folder / "next.arxml"])

    def adopted(self, plan, proposal, before=None):
        return Adopted(plan, proposal, self.words.names, before)

    def carried_out(self, plan, adopted):
        """The plan of a register of the first plan, behind the integrator's steps and the suppliers' files of what is adopted."""
        kept = replace(plan, variant=Variant("v1", None, 1, False))
        keys = Keys(KEYS.integrator, {name: KEYS.suppliers[name] for name in plan.cluster.suppliers})
        text = "".join(request(keys.integrator, it.pop("do"), **it) for it in folder.requests(kept))
        for supplier in plan.cluster.suppliers:
            for name, body in folder.files(kept, supplier):
                text += request(keys.of(supplier), "import", variant="v1", label=name.removesuffix(".csv"), body=body)
        for step in adopted.ahead:
            asked = step.request("v1")
            text += request(keys.integrator, asked.pop("do"), **asked)
        adopted.write(self.folder / "todo")
        for file in sorted(self.folder.glob("todo/*/*.csv")):
            text += request(keys.of(file.parent.name), "replace", variant="v1", body=file.read_text(), whole="_whole" in file.name)
        answers, told = reports(folder.cluster_file(plan.cluster, keys, ""), text, ["v1"])
        self.see("refusals", [], [it for it in answers if it != DONE and not it.startswith(('{"ok":"imported"', '{"ok":"replaced"'))])
        return read(Told(told), "v1")


class ByChance(AdoptCase):
    """Releases and variants by chance, of a file without rows that no register can have."""

    step = 20
    seconds = 30

    def each_of(self, count):
        text, table = large(5, 8)
        plan = self.imported(text.encode(), table)
        for number in range(self.turn % self.each, count, self.each):
            yield plan, random.Random(number)

    def test_file_alone(self):
        """Where the variant is as it was, it becomes what the file has; the register takes each step and each file."""
        for plan, dice in self.each_of(300):
            wanted = self.changed(plan, dice, dice.choice((1, 3, 9)))
            proposal = self.release(wanted)
            for before in plan, None:
                adopted = self.adopted(plan, proposal, before)
                self.see("what is both or held", [], [*adopted.merged.both, *adopted.merged.held])
                self.see("what it becomes", [], beside.compared(adopted.merged.plan, proposal))
            self.settles(plan, proposal, plan)

    def settles(self, plan, proposal, before):
        """By the same call again and again the variant becomes what the file has, as slots come free."""
        for number in range(4):
            (self.folder / "todo").rename(self.folder / f"todo{number}") if (self.folder / "todo").exists() else None
            adopted = self.adopted(plan, proposal, before)
            if not adopted.ahead and not adopted.changes():
                break
            plan = replace(self.carried_out(plan, adopted), variant=plan.variant)
            self.see("the register's rows", adopted.now.frames, plan.frames)
        self.see("it is the file's", [], beside.compared(plan, proposal))
        for place in self.folder.glob("todo*"):
            for file in (*place.glob("*/*"), *place.glob("*.csv")):
                file.unlink()
            for inner in place.iterdir():
                inner.rmdir()
            place.rmdir()

    def test_variant_alone(self):
        """Where the file is as it was, nothing is to be done, and all that was planned is kept."""
        for plan, dice in self.each_of(300):
            mine = self.changed(plan, dice, dice.choice((1, 3, 9)))
            adopted = self.adopted(mine, self.words.proposed([self.file]), plan)
            self.see("nothing is to be done", ([], [], []), (adopted.ahead, adopted.changes(), adopted.open))
            self.see("the plan stays", mine, adopted.merged.plan)

    def test_both(self):
        """Where both change, the plan is sound, has each row that either changed alone, and loses none without a word."""
        for plan, dice in self.each_of(300):
            mine = self.changed(plan, dice, dice.choice((1, 3, 9)))
            theirs = self.changed(plan, dice, dice.choice((1, 3, 9)))
            proposal = self.release(theirs)
            adopted = self.adopted(mine, proposal, plan)
            self.see("rules that it breaks", [], unsound(adopted.merged.plan))
            self.see("what was planned meanwhile", [], self.lost(plan, mine, adopted))

    def lost(self, plan, mine, adopted):
        """Rows that were planned meanwhile, and are there no more, though the file has their frame as it was."""
        before, after, theirs = ({it.key: it for it in its.frames} for its in (plan, adopted.merged.plan, adopted.proposal.plan))
        same = {key for key, frame in before.items() if theirs.get(key) == frame}
        new = {key for key in (it.key for it in mine.frames) if key not in before and key not in theirs}
        return [frame.key for frame in mine.frames if frame.key in same | new and after.get(frame.key) != frame]


class Typed(AdoptCase):
    """Typed cases of what each changed."""

    def setUp(self):
        super().setUp()
        text, table = large(2, 2)
        self.plan = self.imported(text.encode(), table)

    def with_frame(self, plan, name, **fields):
        return replace(plan, frames=tuple(replace(it, **fields) if it.name == name else it for it in plan.frames))

    def at(self, plan, name, *placements):
        holders = {(it.slot, channel): (f"s_{name[:3]}", name[:3]) for it in placements for channel in it.channels}
        held = {it.lane for it in plan.grants}
        grants = [Grant(*lane, *holder) for lane, holder in holders.items() if lane not in held]
        return replace(self.with_frame(plan, name, placements=placements), grants=tuple(sorted([*plan.grants, *grants])))

    def of(self, mine, theirs, since=True):
        return self.adopted(mine, self.release(theirs), self.plan if since else None)

    def test_names_alone(self):
        """Without the last release a frame is as the file has it; frames and signals that the file never had are kept."""
        frame = next(it for it in self.plan.frames if it.name == "E00_F00")
        mine = self.at(self.plan, "E00_F00", Placement(9, "A", 0, 8))
        mine = self.with_frame(mine, "E00_F00", signals=(*frame.signals, Signal(40, 8, "little", "mine")))
        adopted = self.of(mine, self.at(self.plan, "E00_F00", Placement(10, "A", 0, 8)), since=False)
        wanted = [
            "integrator, grants: 1", "+ GRANT 0010 A E00 s_E00", "s_E00, placements: 2", "- AT E00_F00 0009 A 00 08 s_E00",
            "+ AT E00_F00 0010 A 00 08 s_E00", "kept: + SIGNAL E00_F00 0040 08 little mine s_E00",
        ]
        self.see("what is told", wanted, list(adopted.told()))

    def test_both_changed(self):
        adopted = self.of(self.at(self.plan, "E00_F00", Placement(9, "A", 0, 8)), self.at(self.plan, "E00_F00", Placement(10, "A", 0, 8)))
        wanted = [
            "kept: + AT E00_F00 0009 A 00 08 s_E00", "kept: - AT E00_F00 0010 A 00 08 s_E00",
            "both: FRAME E00_F00 s_E00: its placements",
        ]
        self.see("what is told", sorted(wanted), sorted(line for line in adopted.told() if "GRANT" not in line and "grants" not in line))
        self.see("what is open", ["FRAME E00_F00 s_E00: its placements"], adopted.open)

    def test_in_use(self):
        """A slot in which another still sends waits until that has sent its files, and then comes with the same call."""
        theirs = self.at(self.plan, "E00_F00", Placement(9, "A", 0, 8))
        theirs = self.at(theirs, "E00_F01", Placement(9, "A", 1, 8))
        theirs = replace(theirs, grants=tuple(it for it in theirs.grants if it.slot != 1))
        theirs = self.at(theirs, "E01_F00", Placement(1, "A", 0, 8))
        proposal = self.release(theirs)
        adopted = self.adopted(self.plan, proposal, self.plan)
        waits = [line for line in adopted.told() if line.startswith("waits: ")]
        self.see("what waits", [
            "waits: + GRANT 0001 A E01 s_E01: in use: s_E00 sends E00_F00 E00_F01 there",
            "waits: + AT E01_F00 0001 A 00 08 s_E01: the slot is not the node's yet",
        ], waits)
        plan = replace(self.carried_out(self.plan, adopted), variant=self.plan.variant)
        (self.folder / "todo").rename(self.folder / "first")
        adopted = self.adopted(plan, proposal, self.plan)
        self.see("the second time", [], adopted.open)
        self.see("it is the file's", [], beside.compared(self.carried_out(plan, adopted), proposal))

    def test_no_room(self):
        """What was planned meanwhile has its cell; the file's row is held, and told."""
        mine = self.at(self.plan, "E00_F00", Placement(9, "A", 0, 8))
        adopted = self.of(mine, self.at(self.plan, "E00_F01", Placement(9, "A", 8, 16)))
        self.see("held", ["AT E00_F01 0009 A 08 16 s_E00: E00_F00 s_E00 is sent there"], adopted.merged.held)
        adopted = self.of(mine, self.at(self.plan, "E01_F01", Placement(9, "A", 1, 16)))
        self.see("held", ["AT E01_F01 0009 A 01 16 s_E01: E00 s_E00 sends in the slot"], adopted.merged.held)

    def test_gone(self):
        """A frame that the file has no more goes; not one that the variant changed meanwhile."""
        theirs = replace(self.plan, frames=tuple(it for it in self.plan.frames if it.name != "E00_F00"))
        self.see("it goes", "- FRAME E00_F00 E00 s_E00", self.of(self.plan, theirs).changes()[0])
        self.see("by its name", "- FRAME E00_F00 E00 s_E00", self.of(self.plan, theirs, since=False).changes()[0])
        mine = self.at(self.plan, "E00_F00", Placement(9, "A", 0, 8))
        adopted = self.of(mine, theirs)
        self.see("it stays", ["FRAME E00_F00 s_E00: the file has it no more, and the variant changed it"], adopted.merged.both)
        self.see("nothing is to be done", [], adopted.changes())


class Handing(AdoptCase):
    """A supplier whose rows do not fit a file sends those of the frames that differ."""

    def test_many(self):
        """64 frames of 9 signals each: of one all signals go, of another some are others; the register takes the files."""
        text, table = large(1, 64)
        plan = self.imported(text.encode(), table)
        signals = tuple(Signal(8 * number, 8, "little", f"x{number}") for number in range(9))
        many = replace(plan, frames=tuple(replace(it, signals=signals) for it in plan.frames))
        frames = [replace(it, signals={"E00_F07": (), "E00_F09": signals[:3]}.get(it.name, it.signals)) for it in many.frames]
        wanted = replace(many, frames=tuple(frames))
        adopted = self.adopted(many, self.words.proposed([self.file]), plan)
        adopted.now = wanted
        got = self.carried_out(many, adopted)
        self.see("its rows", wanted.frames, got.frames)
        names = sorted(it.name for it in self.folder.glob("todo/s_E00/*"))
        self.see("its files", ["part00_frames_whole.csv", "part01_frames_whole.csv", "part02_placements_whole.csv", "part03_signals.csv"], names)


class Damaged(AdoptCase):
    """1,200 files with faults in 1 to 20 places: each is adopted, or refused in one line, and what it becomes is sound."""

    step = 30
    seconds = 20

    def test_files(self):
        plan = self.imported(FOREIGN.encode(), TABLE)
        for number in range(self.turn % self.each, 1200, self.each):
            (self.folder / "next.arxml").write_text(damaged(FOREIGN, random.Random(number)))
            try:
                proposal = self.words.proposed([self.folder / "next.arxml"])
                adopted = self.adopted(plan, proposal, plan if number % 2 else None)
            except Fault as fault:
                self.see(f"{number}: {fault} is a line", True, str(fault).isprintable())
                continue
            self.see(f"{number}: lines", [], [line for line in adopted.told() if not line.isprintable()])
            if proposal.plan.cluster.figures == plan.cluster.figures and proposal.plan.cluster.channels == plan.cluster.channels:
                self.see(f"{number}: rules that it breaks", [], unsound(adopted.merged.plan))


class Commands(CommandCase):
    """The command's words, and what it refuses."""

    def test_refused(self):
        self.exported("my26")
        self.stops("my26 is released; open a variant from it, and adopt the file there", "adopt", "my26.arxml", "car.db", "my26")
        self.exported("my27")
        (self.folder / "todo").mkdir()
        self.stops("todo is there already; name another folder, or move it away", "adopt", "my27.arxml", "car.db", "my28", "--do", "todo")
        self.stops("nothing.arxml: No such file or directory", "adopt", "nothing.arxml", "car.db", "my28")
        self.has("names.csv", "path\n")
        said = "names.csv: the first line does not name the columns kind, path, part, supplier, frame, name"
        self.stops(said, "adopt", "my27.arxml", "car.db", "my28", "--names", "names.csv")

    def test_same(self):
        """my27's file beside my28, which is open from it: nothing is to be done."""
        self.exported("my27")
        self.writes("integrator: 0, suppliers: 0, open: 0\n", "adopt", "my27.arxml", "car.db", "my28")

    def test_figures(self):
        """A figure of the cluster no request changes."""
        text = self.exported("my27").replace("<SYMBOL-WINDOW>40<", "<SYMBOL-WINDOW>50<")
        self.has("other.arxml", text)
        status, written, said = self.client("adopt", "other.arxml", "car.db", "my28")
        self.see("told", (1, ""), (status, said))
        figures = "- dynamic_macroticks 2500", "+ dynamic_macroticks 2490", "- symbol_macroticks 40", "+ symbol_macroticks 50"
        counts = "integrator: 0, suppliers: 0, open: 4"
        self.see("lines", [*(f"cluster: {line}" for line in figures), counts], written.splitlines())
