"""The commands `export`, `ecus`, `import` and `compare` of slotplan-plans with FIBEX."""
import re

from tests import TOP
from tests.drivers.followed_pages import THERE, follow
from tests.drivers.program import ran
from tests.models import fibex
from tests.models.pages import blocks_left_out
from tests.runner.case import Case
from tests.test_autosar_commands import COUNTS, CommandCase


class Commands(CommandCase):
    """Of the powertrain's register."""

    def fibex(self, variant="my26", release="4.1"):
        """The text of the variant's file."""
        self.writes(COUNTS, "export", "car.db", variant, f"{variant}.xml", "--fibex", release, "--macrotick", "1")
        return self.text(f"{variant}.xml")

    def test_export(self):
        for release in "3.1", "4.1":
            text = self.fibex(release=release)
            self.see(f"{release}: its release", [f"{release}.0"], re.findall(' VERSION="(.*?)"', text))
            for tag, value in {
                "N-I-T": "60", "STATIC-SLOT": "60", "SYMBOL-WINDOW": "40", "MACRO-PER-CYCLE": "5000", "MACROTICK": "1", "CYCLE": "5000",
                "NUMBER-OF-STATIC-SLOTS": "40", "PAYLOAD-LENGTH-STATIC": "8",
            }.items():
                self.see(f"{release}: {tag}", [value], re.findall(f"<flexray:{tag}>(.*)</flexray:{tag}>", text))
            self.see(f"{release}: channels", ["A", "B"], re.findall("FLEXRAY-CHANNEL-NAME>(.*)<", text))
            frames = ["engine_speed", "exhaust_heat", "soot_level", "gear_state"]
            self.see(f"{release}: frames", frames, re.findall(r"<fx:FRAME ID=.*>\s*<ho:SHORT-NAME>(\w+)<", text))
        self.stops("argument --fibex: invalid choice: '2.0' (choose from '3.1', '4.1'); slotplan-plans export --help tells more",
                   "export", "car.db", "my26", "x.xml", "--fibex", "2.0")
        self.see("no file", False, (self.folder / "x.xml").exists())

    def test_readers(self):
        """A supplier's file names nobody else."""
        self.writes("suppliers: 1, nodes: 1, grants: 2, frames: 1, placements: 2, signals: 0\n",
                    "export", "car.db", "my26", "own.xml", "--fibex", "4.1", "--supplier", "gearboxer")
        own = self.text("own.xml")
        self.see("another's names", [], re.findall("enginetec|engine_control|engine_speed|torque", own))
        self.see("its own", True, "gear_state" in own)

    def test_import(self):
        """A register that is made of the file has its plan."""
        self.fibex()
        status, written, said = self.client("import", "new", "my26.xml", program=False)
        self.see("it is imported", (0, ""), (status, said))
        self.see("what is written", [COUNTS.strip(), "left out: 0, changed: 0"], [written.split("\n")[0], written.split("\n")[1].rpartition(", ")[0]])
        self.create("new.db", "new/cluster.toml")
        rows = '"$1" import new.db - my26 $(basename $file .csv) $file < ${file%/*}/key.txt'
        status, written, said = self.shell(f'"$1" ask new.db < new/requests.txt && for file in new/*/*.csv; do {rows}; done')
        self.see("it is made", (0, b"", []), (status, said, [it for it in written.splitlines() if not it.startswith(b'{"ok":')]))
        for report in "grants", "frames", "schedule", "gaps", "load", "rows":
            self.see(report, ran([report, "car.db", "my26"], self.folder), ran([report, "new.db", "my26"], self.folder))

    def test_ecus(self):
        self.fibex()
        rows = "/ECU/engine_control,enginetec\n/ECU/exhaust_sensors,enginetec\n/ECU/gear_control,gearboxer\n"
        self.see("a plan's", (0, f"ecu,supplier\n{rows}", ""), self.client("ecus", "my26.xml", program=False))
        self.has("foreign.xml", fibex.foreign())
        self.see("another tool's", (0, "ecu,supplier\n/ECU/DSC,\n/ECU/EGS,\n/ECU/ZGW,\n", ""), self.client("ecus", "foreign.xml", program=False))

    def test_names(self):
        """What was called so in the register is called so again, by the table that `import` wrote."""
        self.has("foreign.xml", fibex.foreign())
        self.has("suppliers.csv", "ecu,supplier\n" + "".join(f"{ecu},{supplier}\n" for ecu, supplier in fibex.SUPPLIERS.items()))
        asked = "foreign.xml", "--suppliers", "suppliers.csv"
        self.see("it is imported", 0, self.client("import", "first", *asked, program=False)[0])
        named = self.text("first/names.csv")
        self.see("a frame", 1, named.count(f"frame,/FRAME/{fibex.LONG_FRAME},,brakes,,Frame_With_A_Name_That_Is_Longer\n"))
        self.see("a signal", 1, named.count("signal,/SIGNAL/Torque,,brakes,Brake,Torque\n"))
        for old, new in (",Frame_With_A_Name_That_Is_Longer\n", ",shorter\n"), (",Brake,Torque\n", ",Brake,torque_of_brakes\n"):
            named = named.replace(old, new)
        self.has("names.csv", named)
        self.see("it is imported again", 0, self.client("import", "again", *asked, "--names", "names.csv", program=False)[0])
        self.see("the same names", sorted(self.text("names.csv").splitlines()), sorted(self.text("again/names.csv").splitlines()))
        rows = "".join(it.read_text() for it in sorted((self.folder / "again/brakes").glob("*.csv")))
        self.see("its rows", (True, True), ("shorter,ZGW\n" in rows, "Brake,torque_of_brakes,16,16,little\n" in rows))

    def test_compare(self):
        """The lines are those of `slotplan diff`, and the status is 1 where there are some."""
        self.fibex()
        self.client("export", "car.db", "my27", "my27.xml", "--fibex", "3.1")
        self.writes("", "compare", "car.db", "my26", "my26.xml")
        for more in (), ("--supplier", "enginetec"):
            status, lines, _ = ran(["diff", "car.db", "my26", "my27", *more], self.folder)
            self.see(f"diff {more}", (0, True), (status, len(lines) > 100))
            self.writes(lines.decode(), "compare", "car.db", "my26", "my27.xml", *more, status=1)

    def test_refused(self):
        """In one line, and nothing is written."""
        self.has("foreign.xml", fibex.foreign())
        self.has("half.xml", fibex.foreign()[:3000])
        missing = "/ECU/DSC /ECU/EGS /ECU/ZGW"
        why = "`ecus` prints a table to fill in, and an empty supplier leaves an ECU out"
        self.stops(f"the table of suppliers lacks {missing}; {why}", "import", "new", "foreign.xml", program=False)
        self.stops("FIBEX is one file, and there are 2: foreign.xml half.xml", "import", "new", "foreign.xml", "half.xml", program=False)
        self.stops("there is no FlexRay cluster Other", "import", "new", "foreign.xml", "--cluster", "Other", program=False)
        status, written, said = self.client("import", "new", "half.xml", program=False)
        self.see("half a file", (2, "", "slotplan-plans: half.xml is no XML: "), (status, written, said[:36]))
        self.see("no folder", False, (self.folder / "new").exists())


class Page(Case):
    """The commands of the page on FIBEX print what stands behind them there."""

    def test_commands(self):
        page = (TOP / "clients/FIBEX.md").read_text()
        _, steps = follow(page, THERE["clients/FIBEX.md"])
        self.see("it has commands", True, len(steps) > 5)
        self.see("blocks of the console with no line of text before them", 0, blocks_left_out(page))
        for step in steps:
            self.see(f"$ {step.command}", step.wanted, step.printed)
