"""The commands `export`, `import`, `compare` and `ecus` of slotplan-plans: of files and servers, as the integrator and suppliers see them."""
import io
import re
from contextlib import chdir, redirect_stderr, redirect_stdout
from functools import cache
from pathlib import Path

from clients.slotplan_plans.__main__ import main
from tests import TOP
from tests.drivers.followed_pages import THERE, follow
from tests.drivers.planned_registers import Register
from tests.drivers.plans_client import ClientCase
from tests.drivers.program import ran
from tests.models import arxml
from tests.models.plans import examples
from tests.runner.case import Case, folder_in_memory

COUNTS = "suppliers: 2, nodes: 3, grants: 5, frames: 4, placements: 4, signals: 3\n"


@cache
def powertrain():
    """The bytes of a register of the powertrain's example. Its variants are released, so no test needs its own."""
    cluster, requests = next((cluster, requests) for name, cluster, requests in examples() if name == "powertrain")
    with folder_in_memory() as folder:
        Register(Path(folder), cluster, requests)
        return (Path(folder) / "car.db").read_bytes()


class CommandCase(ClientCase):
    """A test over the register of the powertrain's example. The command runs in this process: many starts of python3 would take long."""

    in_memory = True

    def setUp(self):
        super().setUp()
        (self.folder / "car.db").write_bytes(powertrain())

    def client(self, *words, given="", program=True):
        """How the command ends."""
        words = [*map(str, words), *(["--program", self.program] if program else [])]
        written, said = io.StringIO(), io.StringIO()
        with chdir(self.folder), redirect_stdout(written), redirect_stderr(said), self.assertRaises(SystemExit) as ended:
            main(words)
        return ended.exception.code, written.getvalue(), said.getvalue()

    def exported(self, variant="my26", *more):
        """The text of the variant's description."""
        status, _, said = self.client("export", "car.db", variant, f"{variant}.arxml", *more)
        self.see(f"export of {variant} {more}", (0, ""), (status, said))
        return self.text(f"{variant}.arxml")


class Export(CommandCase):
    """A released variant is written as its reader sees it, from a file as over HTTP."""

    def test_file(self):
        self.writes(COUNTS, "export", "car.db", "my26", "my26.arxml", "--macrotick", "1.375")
        text = self.text("my26.arxml")
        for tag, value in {
            "MACROTICK-DURATION": "0.000001375", "CYCLE": "0.006875", "CYCLE-COUNT-MAX": "63", "MACRO-PER-CYCLE": "5000", "NETWORK-IDLE-TIME": "60",
            "NUMBER-OF-STATIC-SLOTS": "40", "PAYLOAD-LENGTH-STATIC": "8", "STATIC-SLOT-DURATION": "60", "SYMBOL-WINDOW": "40",
        }.items():
            self.see(tag, [value], re.findall(f"<{tag}>(.*)</{tag}>", text))
        self.see("no word on minislots, whose lengths the register has not", 0, text.count("MINISLOT"))
        self.see("the channels", ["CHANNEL-A", "CHANNEL-B"], re.findall("<CHANNEL-NAME>(.*)<", text))
        frames = ["engine_speed", "exhaust_heat", "soot_level", "gear_state"]
        self.see("the frames", frames, re.findall(r"<FLEXRAY-FRAME>\s*<SHORT-NAME>(\w+)<", text))

    def test_readers(self):
        """A server's description is that of the file, byte for byte; a supplier's names nobody else."""
        self.has("integrator.key", "carmaker01\n")
        self.has("gearboxer.key", "X-Office-Key: gearboxer01\n")
        whole, own = self.exported("my26"), self.exported("my26", "--supplier", "gearboxer")
        with self.served() as (_, port):
            for key, text in ("integrator.key", whole), ("gearboxer.key", own):
                status, _, said = self.client("export", f"http://127.0.0.1:{port}", "my26", "served.arxml", "--key", key, program=False)
                self.see(f"export by {key}", (0, ""), (status, said))
                self.see(f"the description by {key}", text, self.text("served.arxml"))
        self.see("another's names", [], re.findall("enginetec|engine_control|engine_speed|torque", own))
        self.see("its own", True, "gear_state" in own and "gear_state" in whole and "engine_speed" in whole)

    def test_open(self):
        """The first script's variant is open."""
        self.plan("open.db")
        self.stops("the variant v1 is open, so it may change; --open writes it as it is now", "export", "open.db", "v1", "v1.arxml")
        self.see("no file", False, (self.folder / "v1.arxml").exists())
        self.writes("suppliers: 2, nodes: 1, grants: 1, frames: 1, placements: 1, signals: 0\n", "export", "open.db", "v1", "v1.arxml", "--open")

    def test_refused(self):
        self.stops("there is no variant my99; there are: my26 my27 my28", "export", "car.db", "my99", "x.arxml")
        for text in "0", "-1", "fast", "nan", "1001":
            said = f"--macrotick: '{text}' is no number of microseconds from 0.001 to 1000"
            self.stops(said, "export", "car.db", "my26", "x.arxml", f"--macrotick={text}")
        self.stops("--cluster: 'my car' is no short name of AUTOSAR", "export", "car.db", "my26", "x.arxml", "--cluster", "my car")
        self.stops("nowhere/x.arxml: No such file or directory", "export", "car.db", "my26", "nowhere/x.arxml")
        self.see("files", [], [it.name for it in self.folder.glob("*.arxml*")])
        self.stops("car.db: it is a database, which may be a register; nothing is written", "export", "car.db", "my26", "car.db")
        self.see("the register", True, (self.folder / "car.db").read_bytes() == powertrain())


class Import(CommandCase):
    """A description becomes a folder, from which a register is made that has its plan."""

    def made(self, folder="new", db="new.db"):
        """The register of a folder, made as the page has it."""
        self.create(db, f"{folder}/cluster.toml")
        rows = f'"$1" import {db} - my26 $(basename $file .csv) $file < ${{file%/*}}/key.txt'
        status, written, said = self.shell(f'"$1" ask {db} < {folder}/requests.txt && for file in {folder}/*/*.csv; do {rows}; done')
        self.see("it is made", (0, b"", []), (status, said, [it for it in written.splitlines() if not it.startswith(b'{"ok":')]))

    def test_import(self):
        self.exported("my26", "--macrotick", "1")
        status, written, said = self.client("import", "new", "my26.arxml", program=False)
        self.see("it is imported", (0, ""), (status, said))
        self.see("what is written", [COUNTS.strip(), "left out: 0, changed: 0"], [written.split("\n")[0], written.split("\n")[1].rpartition(", ")[0]])
        self.made()
        for report in "cluster", "nodes":
            self.see(report, ran([report, "car.db"], self.folder), ran([report, "new.db"], self.folder))
        for report in "grants", "frames", "schedule", "gaps", "load":
            self.see(report, ran([report, "car.db", "my26"], self.folder), ran([report, "new.db", "my26"], self.folder))
        before = sorted((path, path.read_bytes()) for path in self.folder.glob("new/**/*.*"))
        self.stops("new is there already; name another folder, or move it away", "import", "new", "my26.arxml", program=False)
        self.see("it is as it was", before, sorted((path, path.read_bytes()) for path in self.folder.glob("new/**/*.*")))

    def test_parts(self):
        """A description in two files is as in one; without the second, which has all suppliers' packages, it has no ECU and no frame."""
        text = self.exported("my26")
        cut = text.index("    <AR-PACKAGE>\n      <SHORT-NAME>Suppliers<")
        head, end = text[: text.index("  <AR-PACKAGES>")], "  </AR-PACKAGES>\n</AUTOSAR>\n"
        self.has("one.arxml", text[:cut] + end)
        self.has("two.arxml", f"{head}  <AR-PACKAGES>\n{text[cut:]}")
        self.see("both", 0, self.client("import", "both", "one.arxml", "two.arxml", program=False)[0])
        self.made("both")
        self.see("its schedule", ran(["schedule", "car.db", "my26"], self.folder), ran(["schedule", "new.db", "my26"], self.folder))
        status, written, _ = self.client("import", "alone", "one.arxml", program=False)
        self.see("one alone", (0, "suppliers: 2, nodes: 0, grants: 0, frames: 0, placements: 0, signals: 0"), (status, written.split("\n")[0]))
        self.see("its notes of ECUs", 6, self.text("alone/notes.csv").count("belongs to no ECU of this file"))

    def test_names(self):
        """The variant has the file's name, or another; a table of suppliers has its say."""
        self.exported("my26")
        self.see("it has a name", 0, self.client("import", "named", "my26.arxml", "--variant", "copy", program=False)[0])
        self.see("its variant", True, '{"do":"open_variant","variant":"copy"}' in self.text("named/requests.txt"))
        self.see("a note", True, "changed,variant my26,it is called copy\n" in self.text("named/notes.csv"))
        self.stops("9x is no name of a variant", "import", "bad", "my26.arxml", "--variant", "9x", program=False)
        self.has("table.csv", "ecu;supplier\ngear_control;oilco\nexhaust_sensors;\n")
        self.see("with a table", 0, self.client("import", "tabled", "my26.arxml", "--suppliers", "table.csv", program=False)[0])
        nodes = re.findall(r'"add_node","supplier":"(\w+)","node":"(\w+)"', self.text("tabled/requests.txt"))
        self.see("nodes", [("enginetec", "engine_control"), ("oilco", "gear_control")], nodes)
        note = "left out,/Suppliers/enginetec/Ecus/exhaust_sensors,the table of suppliers gives it none\n"
        self.see("a note on the ECU", True, note in self.text("tabled/notes.csv"))
        kinds = [line.partition(",")[0] for line in self.text("tabled/notes.csv").splitlines()]
        self.see("what needs a look stands first", ["kind", "left out", "changed", "not kept"], list(dict.fromkeys(kinds)))

    def test_refused(self):
        self.has("foreign.arxml", arxml.foreign())
        self.has("table.csv", "ecu,maker\n")
        missing = " ".join(f"/Ecu/{name}" for name in sorted(arxml.ECUS))
        why = "`ecus` prints a table to fill in, and an empty supplier leaves an ECU out"
        self.stops(f"the table of suppliers lacks {missing}; {why}", "import", "new", "foreign.arxml", program=False)
        said = "table.csv: the first line does not name the columns ecu, supplier"
        self.stops(said, "import", "new", "foreign.arxml", "--suppliers", "table.csv", program=False)
        self.has("table.csv", "ecu,supplier\nDSC,brakes\nEGS,gears\nDSC,\n")
        said = "table.csv: line 4: 'DSC' stands above with another supplier"
        self.stops(said, "import", "new", "foreign.arxml", "--suppliers", "table.csv", program=False)
        self.stops("none.arxml: No such file or directory", "import", "new", "none.arxml", program=False)
        self.stops("there is no FlexRay cluster Other", "import", "new", "foreign.arxml", "--cluster", "Other", program=False)
        self.see("no folder", False, (self.folder / "new").exists())

    def test_ecus(self):
        """The table has a row for each ECU, and the supplier that the file names."""
        self.has("foreign.arxml", arxml.foreign())
        rows = "".join(f"/Ecu/{name},\n" for name in sorted(arxml.ECUS))
        self.see("another tool's", (0, f"ecu,supplier\n{rows}", ""), self.client("ecus", "foreign.arxml", program=False))
        self.exported("my26")
        nodes = ("enginetec", "engine_control"), ("enginetec", "exhaust_sensors"), ("gearboxer", "gear_control")
        rows = "".join(f"/Suppliers/{supplier}/Ecus/{node},{supplier}\n" for supplier, node in nodes)
        self.see("a plan's", (0, f"ecu,supplier\n{rows}", ""), self.client("ecus", "my26.arxml", program=False))


class Compare(CommandCase):
    """A description beside a variant: the lines are those of `slotplan diff`, and the status is 1 where there are some."""

    def test_variants(self):
        """my26 with the description of my27, as everybody sees it."""
        self.exported("my26")
        self.exported("my27")
        self.writes("", "compare", "car.db", "my26", "my26.arxml")
        for more in (), ("--supplier", "enginetec"), ("--supplier", "gearboxer"):
            status, lines, _ = ran(["diff", "car.db", "my26", "my27", *more], self.folder)
            self.see(f"diff {more}", (0, True), (status, len(lines) > 100))
            self.writes(lines.decode(), "compare", "car.db", "my26", "my27.arxml", *more, status=1)

    def test_figures(self):
        """What is common to all variants stands before the rows."""
        text = self.exported("my26")
        text = text.replace("<CYCLE-COUNT-MAX>63<", "<CYCLE-COUNT-MAX>31<").replace('"supplier">gearboxer<', '"supplier">oilco<')
        self.has("other.arxml", text)
        status, written, said = self.client("compare", "car.db", "my26", "other.arxml")
        self.see("it differs", 1, status)
        where = "/Cluster/FlexRay/Channel_A/Slot_6_3_64_exhaust_heat: slot 6 on A, base 3, repetition 64"
        self.see("left out", f"left out: {where}: that is no base and repetition of 32 cycles", said.split("\n")[0])
        lines = "- cycles 64\n+ cycles 32\n- supplier gearboxer\n+ supplier oilco\n- NODE gear_control gearboxer\n+ NODE gear_control oilco\n"
        self.see("lines", lines, written[: len(lines)])
        self.see("a placement that is none of 32 cycles", True, "- AT exhaust_heat 0006 A 03 64 enginetec\n" in written)

    def test_left_out(self):
        """Rows of the file that a register cannot have are told beside."""
        text = self.exported("my26").replace("<SLOT-ID>25<", "<SLOT-ID>41<")
        self.has("other.arxml", text)
        status, written, said = self.client("compare", "car.db", "my26", "other.arxml")
        self.see("it differs", (1, True), (status, "- AT gear_state 0025 A 08 16 gearboxer\n" in written))
        where = "/Cluster/FlexRay/Channel_A/Slot_7_0_16_gear_state: slot 41 on A, base 8, repetition 16"
        self.see("left out", f"left out: {where}: it lies in the dynamic segment: the static one has 40 slots\n", said)


class Page(Case):
    """The commands of the page on AUTOSAR print what stands behind them there."""

    def test_commands(self):
        _, steps = follow((TOP / "clients/AUTOSAR.md").read_text(), THERE["clients/AUTOSAR.md"])
        self.see("it has commands", True, len(steps) > 10)
        for step in steps:
            self.see(f"$ {step.command}", step.wanted, step.printed)
