"""The commands of the built program over register files, and its server.

What is wanted was typed by hand from docs/FORMATS.md and docs/HTTP.md; none of it is the program's own output. The files are read by the SQLite of
python3 too."""
import re
import shutil
import signal
import socket
import sqlite3
import subprocess
import time
from contextlib import closing

from tests import TOP
from tests.drivers.program import BY_RATTLE, PROVED, SECONDS, UNPROVED, program, ran
from tests.drivers.connections import each_line
from tests.drivers.registers import RegisterCase
from tests.drivers.server import HERE, free_port, sent
from tests.models import formats, schema1
from tests.models.messages import (
    CLUSTER, CONTINUE, DONE, FIGURE_LINES, UNKNOWN, command, done, engine, first_requests, head, html, in_cycles, json, post, read, refused, text,
)

KILLS = 50
DELAYS = 0, 0, 0.5, 1, 2  # from a whole line to the kill behind it, by the time that the line before took

SIGNALS = b"frame,signal,start,length,order\nf1,speed,0,8,little\n"
PLACEMENTS = b"frame,node,slot,channels,base,repetition\nf2,n1,1,A,1,2\nf3,n1,2,A,0,1\n"
FITS = PLACEMENTS.replace(b"f3,n1,2,A,0,1", b"f3,n1,1,A,2,64")
# A cluster file as long as one may be.
LONGEST = CLUSTER + b"#" * (1_048_576 - len(CLUSTER))

SUPPLIERS = "s1", "s2", "s3"
BAD_CYCLES = json(refused(5, "BadCycles"), "422 Unprocessable Entity")
NO_FRAME = json(refused(16, "NoFrame"), "404 Not Found")
NO_VARIANT = json(refused(10, "NoVariant"), "404 Not Found")


def over(db):
    """The commands that ask a register file and change nothing where they have no input."""
    yield from ([report, db, "v1"] for report in ("grants", "frames", "schedule", "gaps"))
    yield from (["layout", db, "v1", "f1"], ["schedule", db, "v1", "--supplier", "s1"], ["ask", db])
    yield from ([report, db, *more] for report in ("cluster", "variants", "nodes") for more in ([], ["--supplier", "s1"]))
    yield from (["picture", db, "v1"], ["picture", db, "v1", "--supplier", "s1"])
    yield from (["export", db, "v1", "frames"], ["load", db, "v1"], ["rows", db, "v1"], ["room", db, "v1", "f1", "4", "--supplier", "s1"])
    yield from (["diff", db, "v1", "v1"], ["diff", db, "v1", "v2", "--supplier", "s1"])


def of_supplier(supplier):
    """The words by which a command answers as to this supplier, or to the integrator."""
    return [] if supplier is None else ["--supplier", supplier]


class Creating(RegisterCase):
    """`create` makes a register of a cluster file, or says a fault and makes none."""

    def test_once(self):
        self.create()
        made = (self.folder / "car.db").read_bytes()
        self.fault(["create", "car.db", "cluster.toml"], "NotEmpty")
        self.see("a register that is there stays", made, (self.folder / "car.db").read_bytes())

    def test_wrong_cluster_files(self):
        (self.folder / "no.toml").write_bytes(b"x\n")
        (self.folder / "odd.toml").write_bytes(b"cycles = 9\n" + CLUSTER)
        (self.folder / "long.toml").write_bytes(LONGEST + b"#")
        self.fault(["create", "new.db", "no.toml"], "BadToml")
        self.fault(["create", "new.db", "odd.toml"], "BadCycleCount")
        self.fault(["create", "new.db", "none.toml"], "CannotOpen")
        self.fault(["create", "new.db", "long.toml"], "CannotOpen")
        self.fault(["create", "new.db", "."], "CannotOpen")
        self.see("no register without a cluster file", False, (self.folder / "new.db").exists())
        self.fault(["create", "none/new.db", "cluster.toml"], "Unavailable")

    def test_longest_cluster_file(self):
        (self.folder / "longest.toml").write_bytes(LONGEST)
        self.create(cluster="longest.toml")

    def test_file_with_tables(self):
        for table, word in ("Nodes", "NotEmpty"), ("other", "Unavailable"):
            with closing(sqlite3.connect(self.folder / "tables.db")) as file:
                file.execute(f"CREATE TABLE {table} (x INTEGER) STRICT")
            self.fault(["create", "tables.db", "cluster.toml"], word)
            (self.folder / "tables.db").unlink()


class Opening(RegisterCase):
    """Each command that opens a file says which fault it has, and makes none where none is."""

    def is_refused(self, db, word):
        filed = ["import", db, "supplier01", "v1", "a", "cluster.toml"], *([do, db, "supplier01", "v1", "cluster.toml"] for do in ("replace", "try"))
        for words in *over(db), ["serve", db, "1024"], *filed:
            self.fault(words, word)

    def test_no_file(self):
        for words in over("none.db"):
            self.fault(words, "NotARegister")
            self.see("no file is made where none is", False, (self.folder / "none.db").exists())

    def test_no_register(self):
        (self.folder / "empty.db").write_bytes(b"")
        (self.folder / "text.db").write_bytes(b"x" * 100)
        with closing(sqlite3.connect(self.folder / "other.db")) as other:
            other.execute("CREATE TABLE t (x)")
        for db in "empty.db", "text.db", "other.db":
            self.is_refused(db, "NotARegister")

    def test_other_schemas(self):
        self.create("newer.db")
        with closing(sqlite3.connect(self.folder / "newer.db")) as newer, newer:
            newer.execute("UPDATE register SET schema = 7")
        schema1.filled(self.folder / "older.db", {})
        for db in "newer.db", "older.db":
            self.is_refused(db, "WrongSchema")

    def test_variant_of_none(self):
        self.create("orphan.db")
        with closing(sqlite3.connect(self.folder / "orphan.db")) as orphan, orphan:
            orphan.execute("INSERT INTO variants VALUES ('v2', 'v1', 2, 0, 0)")
        self.is_refused("orphan.db", "Unavailable")


class Importing(RegisterCase):
    """`import` carries out a file whole or not at all, and once; the reports say so."""

    def setUp(self):
        super().setUp()
        self.plan()
        (self.folder / "placements.csv").write_bytes(PLACEMENTS)
        (self.folder / "fits.csv").write_bytes(FITS)

    def carry(self, label, file, db="car.db", key="supplier01"):
        return ["import", db, key, "v1", label, file]

    def test_reports(self):
        self.tell(["schedule", "car.db", "v1"], b"00 0001 A f1 n1 s1\n")
        self.tell(["gaps", "car.db", "v1"], b"GAP    6400 f1 s1\n")
        self.turned_down(["schedule", "car.db", "v9"], refused(10, "NoVariant"))
        self.turned_down(["gaps", "car.db", "1v"], refused(4, "BadName"))

    def test_whole_or_not_at_all(self):
        row = b'{"line":3,"no":29,"refused":"BadRow","row":' + refused(21, "NotGranted") + b"}"
        self.turned_down(self.carry("a", "placements.csv"), row)
        self.tell(["gaps", "car.db", "v1"], b"GAP    6400 f1 s1\n")
        for _ in range(2):
            self.tell(self.carry("a", "fits.csv"), b'{"ok":"imported","rows":2}\n')
        self.turned_down(self.carry("a", "placements.csv"), refused(9, "LabelUsed"))
        self.tell(["gaps", "car.db", "v1"], b"GAP    6400 f1 s1\nGAP     200 f2 s1\nGAP    6400 f3 s1\n")

    def test_refused(self):
        (self.folder / "long.csv").write_bytes(b"x" * 65_537)
        self.turned_down(self.carry("b", "long.csv"), refused(23, "Limit"))
        self.turned_down(self.carry("b", "fits.csv", key="nobody123"), refused(2, "UnknownKey"))
        self.turned_down(self.carry("b", "fits.csv", key="integrator1"), refused(3, "NotYours"))
        self.fault(self.carry("b", "none.csv"), "CannotOpen")
        self.fault(self.carry("b", "none.csv", db="none.db"), "CannotOpen")
        self.tell(["gaps", "car.db", "v1"], b"GAP    6400 f1 s1\n")


# What stands in place of a line of the first script's cluster file, and what `check` says of the file then.
WRONG = [
    (b"payload_words = 1\n", b"", b"BadField: payload_words is missing"),
    (b"payload_words = 1\n", b'payload_words = "1"\n', b'BadField: payload_words is the text "1", it may be 0 to 127'),
    (b"payload_words = 1\n", b"payload_words = 1.0\n", b"BadField: payload_words is a number with a point, it may be 0 to 127"),
    (b"payload_words = 1\n", b"payload_words = -1\n", b"BadField: payload_words is -1, it may be 0 to 127"),
    (b"payload_words = 1\n", b"payload_words = 128\n", b"BadPayload: payload_words is 128, it may be 0 to 127"),
    (b"payload_words = 1\n", b"payload_words = 1\npayload = 1\n", b'BadField: "payload" is no key of a cluster file'),
    (b"payload_words = 1\n", b'payload_words = 1\n"a\\nb" = 1\n', b'BadField: "a?b" is no key of a cluster file'),
    (b"payload_words = 1\n", b'payload_words = "\\u001b[2J\\u007f\\u009b1\\r"\n', b'BadField: payload_words is the text "?[2J??1?", it may be 0 to 127'),
    (b"payload_words = 1\n", b'payload_words = 1\n"\\u001b[2J" = 1\n', b'BadField: "?[2J" is no key of a cluster file'),
    (b"payload_words = 1\n", b"payload_words = 1\npayload_words = 1\n", b"BadToml: line 9: duplicate key"),
    (b"payload_words = 1\n", b"payload_words 1\n", b"BadToml: line 8: key with no value, expected `=`"),
    (b"payload_words = 1\n", b"payload_words = 1 # \xff\n", b"BadToml: line 8: invalid UTF-8"),
    (b"payload_words = 1\n", b"payload_words = 1\ncycles = 9\n", b"BadCycleCount: cycles is 9, it may be an even number from 8 to 64"),
    (b"payload_words = 1\n", b"payload_words = 1\ncycles = 6\n", b"BadCycleCount: cycles is 6, it may be an even number from 8 to 64"),
    (b"payload_words = 1\n", b"payload_words = 1\ncycles = 66\n", b"BadCycleCount: cycles is 66, it may be an even number from 8 to 64"),
    (b"payload_words = 1\n", b"payload_words = 1\ncycles = -8\n", b"BadField: cycles is -8, it may be an even number from 8 to 64"),
    (b"payload_words = 1\n", b'payload_words = 1\ncycles = "8"\n', b'BadField: cycles is the text "8", it may be an even number from 8 to 64'),
    (b'channels = "AB"', b'channels = "ab"', b'BadField: channels is the text "ab", it may be "A", "B" or "AB"'),
    (b'channels = "AB"', b"channels = true", b'BadField: channels is true or false, it may be "A", "B" or "AB"'),
    (b"static_slots = 4", b"static_slots = 1", b"BadSlots: static_slots is 1, it may be 2 to 1023"),
    (b"static_slots = 4", b"static_slots = 1024", b"BadSlots: static_slots is 1024, it may be 2 to 1023"),
    (b"slot_macroticks = 10", b"slot_macroticks = 0", b"BadMacroticks: slot_macroticks is 0, it may be 1 or more"),
    (b"idle_macroticks = 10", b"idle_macroticks = 0", b"BadMacroticks: idle_macroticks is 0, it may be 1 or more"),
    (b"macroticks_per_cycle = 100", b"macroticks_per_cycle = 16001", b"BadMacroticks: macroticks_per_cycle is 16001, it may be at most 16000"),
    (b"idle_macroticks = 10", b"idle_macroticks = 11", b"BadSum: the segments take 101 macroticks, macroticks_per_cycle is 100"),
    (b'integrator = "integrator1"', b"integrator = 12345678", b"BadField: integrator is a whole number, it may be a text of 8 to 64 ASCII letters and digits"),
    (b'integrator = "integrator1"', b'integrator = "short"', b"BadKey: the key of the integrator is not 8 to 64 ASCII letters and digits"),
    (b'integrator = "integrator1"', b'integrator = "supplier02"', b"KeyTwice: the integrator and s2 have the same key"),
    (
        b'[suppliers]\ns1 = "supplier01"\ns2 = "supplier02"\n',
        b'suppliers = "supplier01"\n',
        b"BadField: suppliers is a text, it may be a table from each supplier's name to its key",
    ),
    (b's1 = "supplier01"', b"s1 = 12345678", b"BadField: suppliers: the key of s1 is a whole number, it may be a text"),
    (b's1 = "supplier01"', b'"s\\u001b[2J" = 12345678', b"BadField: suppliers: the key of s?[2J is a whole number, it may be a text"),
    (b's1 = "supplier01"', b's1 = "supplier-1"', b"BadKey: the key of s1 is not 8 to 64 ASCII letters and digits"),
    (b's1 = "supplier01"', b's1 = "supplier02"', b"KeyTwice: s1 and s2 have the same key"),
    (b's1 = "supplier01"', b's-1 = "supplier01"', b'BadName: the supplier\'s name "s-1" is not 1 to 32 ASCII letters, digits and underscores, a letter first'),
    (b's1 = "supplier01"', b'"s\\u001b[2J" = "supplier01"', b'BadName: the supplier\'s name "s?[2J" is not 1 to 32 ASCII letters, digits and underscores, a letter first'),
    (b"[suppliers]\n", b"[suppliers]\n" + b"".join(b't%d = "another0%d"\n' % (n, n) for n in range(63)), b"Limit: there are 65 suppliers, at most 64 may be there"),
]

FIGURES = b"channels AB, 4 static slots of 10 macroticks, 64 cycles of 100 macroticks, payload of 2 bytes, suppliers: 2\n"


class Checking(RegisterCase):
    """`check` says what is wrong with a cluster file, and where; `create` gives the same word."""

    def test_figures(self):
        self.tell(["check", "cluster.toml"], FIGURES)
        (self.folder / "ten.toml").write_bytes(CLUSTER.replace(b"payload_words = 1\n", b"payload_words = 1\ncycles = 10\n"))
        self.tell(["check", "ten.toml"], FIGURES.replace(b"64 cycles", b"10 cycles"))
        (self.folder / "longest.toml").write_bytes(LONGEST)
        self.tell(["check", "longest.toml"], FIGURES)

    def test_wrong(self):
        for old, new, said in WRONG:
            self.see(f"{old} stands there once", 1, CLUSTER.count(old))
            (self.folder / "wrong.toml").write_bytes(CLUSTER.replace(old, new))
            self.fault(["check", "wrong.toml"], said.decode())
            self.fault(["create", "wrong.db", "wrong.toml"], said.decode().partition(":")[0])
        self.see("no register is made", False, (self.folder / "wrong.db").exists())

    def test_not_read(self):
        (self.folder / "long.toml").write_bytes(LONGEST + b"#")
        for path in "none.toml", ".", "long.toml":
            self.fault(["check", path], "CannotOpen")


# Faults of connections, which docs/HTTP.md tells of.
LINK_FAULTS = {"Truncated", "ReadFailed", "TooManyReads", "WriteFailed", "NoMemory"}


# What explains one refusal and no other that comes for the same requests.
TELLING = {"TooDeep": "depth", "OutOfPayload": "`payload_words`", "BadSignal": "`little`", "BadKey": "8 to 64"}


class Explaining(RegisterCase):
    """`explain` tells of each refusal and each fault, and of nothing else."""

    def setUp(self):
        super().setUp()
        status, written, said = ran(["explain"], self.folder)
        self.lines = written.decode().splitlines()
        words = formats.refusals() | formats.faults() | LINK_FAULTS
        self.see("all are listed", (0, b"", sorted(words)), (status, said, sorted(line.partition(": ")[0] for line in self.lines)))

    def test_each(self):
        self.see("refusals that are listed", 32, len(formats.refusals()))
        self.see("each kind of fault is listed", True, {"BadSum", "NoSeparator", "NotEmpty", "CannotListen"} <= formats.faults())
        for line in self.lines:
            word = line.partition(": ")[0]
            status, written, said = ran(["explain", word], self.folder)
            text = written.decode().splitlines()
            self.see(f"{word} is explained", (0, b"", [line], True), (status, said, text[:1], 3 <= len(text) <= 6))
            self.see(f"lines of {word} that fit a screen", [], [line for line in text if len(line) > 120])
        for number, name in formats.numbered_refusals():
            self.see(f"the number of {name}", True, any(line.startswith(f"{name}: refusal {number}") for line in self.lines))

    def test_requests(self):
        """What says for which requests a refusal comes names all that can meet it, or some of those where it speaks of each."""
        told, by_number = [], formats.refused_requests()
        for number, name in formats.numbered_refusals():
            if name == "NoRoom":  # which no request meets: it stands in lines of a proposal
                continue
            help = ran(["explain", name], self.folder)[1].decode().partition("\n")[2].replace("\n", " ")
            self.see(f"the explanation of {name} is its own", True, TELLING.get(name, "") in help)
            comes = " ".join(re.findall(r"[Ii]t comes for (.*?)[.:]", help))
            if named := set(re.findall(r"`(\w+)`", comes)):
                told.append(name)
                self.see(f"requests for which {name} comes", by_number[number] & (named if "each" in comes else by_number[number]), named)
        self.see("of refusals requests are told", True, len(told) > 15 or told)

    def test_names_that_begin_alike(self):
        for word, *begin in [
            ("CellTakn", "CellTaken"),
            ("celltaken", "CellTaken"),
            ("BitTake", "BitTaken"),
            ("NOT", "NotYours", "NotReleased", "NotGranted", "NotEmpty", "NotARegister"),
            ("xyz",),
            ("Bed",),
        ]:
            found = "".join(f"{line}\n" for line in self.lines if begin and line.startswith(tuple(begin)))
            rest = f"These begin alike:\n{found}" if begin else "`slotplan explain` lists all.\n"
            self.fault(["explain", word], f"no refusal and no fault has this name. {rest}"[:-1])


class Version(RegisterCase):
    """`--version` names the logic that proves the program, or says that nothing was proved."""

    def setUp(self):
        super().setUp()
        if not shutil.which("rt"):
            self.skipTest("there is no command rt on PATH")
        line = subprocess.run(["rt", "version"], capture_output=True, timeout=SECONDS, check=True).stdout
        self.logic = line.split(maxsplit=1)[1]

    def test_program(self):
        proved, unproved = b"slotplan 1.0\n" + self.logic, b"slotplan 1.0\nunproved\n"
        if program() in map(str, (PROVED, BY_RATTLE)):
            self.tell(["--version"], proved)
        elif program() == str(UNPROVED):
            self.tell(["--version"], unproved)
        else:
            said = {proved, unproved}
            self.see("the version", True, ran(["--version"], self.folder)[1] in said)

    def test_readme(self):
        self.see("the README names the logic too", True, self.logic.strip() in (TOP / "README.md").read_bytes())


# ---- requests on standard input

# What is asked of a new register, with the answer to each.
ASKED = [
    (b'integrator1 {"do":"open_variant","variant":"v1"}', DONE),
    (b'integrator1 {"do":"add_supplier","supplier":"s3","key":"supplier03"}', DONE),
    *((b'integrator1 {"do":"add_node","supplier":"%s","node":"n1"}' % supplier, DONE) for supplier in (b"s1", b"s3")),
    (b'integrator1 {"do":"grant","variant":"v1","slot":1,"channel":"A","supplier":"s1","node":"n1"}', DONE),
    (b'integrator1 {"do":"grant","variant":"v1","slot":1,"channel":"B","supplier":"s3","node":"n1"}', DONE),
    (b'integrator1 {"do":"grant","variant":"v1","slot":1,"channel":"A","supplier":"s3","node":"n1"}', refused(24, "Taken")),
    *((b'%s {"do":"add_frame","variant":"v1","frame":"f1","node":"n1"}' % key, DONE) for key in (b"supplier01", b"supplier03")),
    (b'supplier01 {"do":"place","variant":"v1","frame":"f1","slot":1,"channels":"A","base":0,"repetition":32}', DONE),
    (b'supplier03 {"do":"place","variant":"v1","frame":"f1","slot":1,"channels":"B","base":1,"repetition":64}', DONE),
    (b'supplier01 {"do":"add_signal","variant":"v1","frame":"f1","signal":"x","start":0,"length":8,"order":"little"}', DONE),
    (b'supplier03 {"do":"add_signal","variant":"v1","frame":"f1","signal":"y","start":7,"length":8,"order":"big"}', DONE),
    (b'supplier03 {"do":"schedule","variant":"v1"}', b'{"lines":["01 0001 B f1 n1"],"ok":"schedule"}'),
    (b"supplier01", refused(1, "BadText")),
    (b"nobody123 {}", refused(1, "BadText")),
    (b'nobody123 {"do":"gaps","variant":"v1"}', refused(2, "UnknownKey")),
    (b'supplier01 {"do":"release","variant":"v1"}', refused(3, "NotYours")),
    (b' {"do":"gaps","variant":"v1"}', refused(2, "UnknownKey")),
    (b'integrator1 {"do":"open_variant","variant":"W"}', DONE),
    (b'integrator1 {"do":"release","variant":"W"}', DONE),
    (b'integrator1 {"do":"open_variant","variant":"w_2","from":"W"}', DONE),
]

# Its variants, in byte order of their names. Each supplier sees the same ones.
VARIANTS = b"W - 1 released\nv1 - 1 open\nw_2 W 2 open\n"

# What it holds: to the integrator, and to each supplier.
HELD = {
    ("cluster",): {
        None: FIGURE_LINES + b"supplier s1\nsupplier s2\nsupplier s3\n",
        "s1": FIGURE_LINES + b"supplier s1\n",
        "s2": FIGURE_LINES + b"supplier s2\n",
        "s3": FIGURE_LINES + b"supplier s3\n",
    },
    ("variants",): dict.fromkeys((None, *SUPPLIERS), VARIANTS),
    ("nodes",): {None: b"n1 s1\nn1 s3\n", "s1": b"n1\n", "s2": b"", "s3": b"n1\n"},
}

# What the reports of its variant are.
REPORTS = {
    ("grants", "v1"): {None: b"0001 A n1 s1\n0001 B n1 s3\n", "s1": b"0001 A n1\n", "s2": b"", "s3": b"0001 B n1\n"},
    ("frames", "v1"): {
        None: b"FRAME f1 n1 s1\nAT 0001 A 00 32\nFRAME f1 n1 s3\nAT 0001 B 01 64\n",
        "s1": b"FRAME f1 n1\nAT 0001 A 00 32\n",
        "s2": b"",
        "s3": b"FRAME f1 n1\nAT 0001 B 01 64\n",
    },
    ("schedule", "v1"): {
        None: b"00 0001 A f1 n1 s1\n01 0001 B f1 n1 s3\n32 0001 A f1 n1 s1\n",
        "s1": b"00 0001 A f1 n1\n32 0001 A f1 n1\n",
        "s2": b"",
        "s3": b"01 0001 B f1 n1\n",
    },
    ("gaps", "v1"): {None: b"GAP    3200 f1 s1\nGAP    6400 f1 s3\n", "s1": b"GAP    3200 f1\n", "s2": b"", "s3": b"GAP    6400 f1\n"},
    ("layout", "v1", "f1"): {None: b"0000 08 little x s1\n0007 08 big y s3\n", "s1": b"0000 08 little x\n", "s3": b"0007 08 big y\n"},
}

ADD_FRAME = b'supplier01 {"do":"add_frame","variant":"v1","frame":"%s","node":"n1"}'
ADD_SIGNAL = b'supplier01 {"do":"add_signal","variant":"v1","frame":"%s","signal":"%s","start":%d,"length":8,"order":"little"}'
DROP_FRAME = b'supplier01 {"do":"drop_frame","variant":"v1","frame":"%s"}'


class AskedCase(RegisterCase):
    """A test over a register that was asked these."""

    def setUp(self):
        super().setUp()
        self.create()
        lines, answers = zip(*ASKED)
        self.ask(b"\n" + b"\r\n\n".join(lines), b"".join(answer + b"\n" for answer in answers))


class Asking(AskedCase):
    """`ask` answers requests on standard input as those of a script, and what they did is in the file, as each report tells it."""

    def test_nothing(self):
        self.create("new.db")
        self.tell(["cluster", "new.db"], FIGURE_LINES + b"supplier s1\nsupplier s2\n")
        self.tell(["variants", "new.db"])
        self.tell(["nodes", "new.db"])
        self.ask(b"", db="new.db")
        self.ask(b"\n\r\n\n", db="new.db")

    def test_database_file_alone(self):
        (self.folder / "alone.db").write_bytes((self.folder / "car.db").read_bytes())
        self.see("the database file alone has all", [("s1", "f1"), ("s3", "f1")], self.rows("SELECT supplier, name FROM frames ORDER BY supplier", "alone.db"))
        self.sound()

    def reports(self, reports):
        for (name, *words), by_reader in reports.items():
            for supplier, wanted in by_reader.items():
                self.tell([name, "car.db", *words, *of_supplier(supplier)], wanted)
                self.tell([name, *of_supplier(supplier), "car.db", *words], wanted)

    def test_cluster_variants_and_nodes(self):
        self.reports(HELD)

    def test_reports_of_a_variant(self):
        self.reports(REPORTS)

    def test_reports_change_nothing(self):
        before = (self.folder / "car.db").read_bytes()
        for name, *words in *HELD, *REPORTS:
            ran([name, "car.db", *words], self.folder)
        self.see("the file behind the reports", before, (self.folder / "car.db").read_bytes())

    def test_reports_refused(self):
        for name, *words in ["grants", "v9"], ["frames", "v9", "--supplier", "s1"], ["layout", "v9", "f1"]:
            self.turned_down([name, "car.db", *words], refused(10, "NoVariant"))
        for name, *words in ["layout", "v1", "f9"], ["layout", "v1", "f1", "--supplier", "s2"]:
            self.turned_down([name, "car.db", *words], refused(16, "NoFrame"))
        for name, *words in ["grants", "1v"], ["layout", "v1", "f 1"], ["gaps", "1v", "--supplier", "s1"]:
            self.turned_down([name, "car.db", *words], refused(4, "BadName"))
        for supplier in "s4", "S1", "s 1", "":
            for words in ["schedule", "car.db", "v1"], ["cluster", "car.db"], ["variants", "car.db"], ["nodes", "car.db"]:
                self.turned_down([*words, "--supplier", supplier], refused(14, "NoSupplier"))

    def test_beside_a_server(self):
        with self.served():
            for words in over("car.db"):
                self.fault(words, "Unavailable")


class Drawing(AskedCase):
    """The page of a plan shows the reader's own names alone. How it looks is no format, so little of it is looked for here."""

    def test_names(self):
        before = (self.folder / "car.db").read_bytes()
        for supplier, seen, hidden in (None, {b"s1", b"s3", b"f1"}, set()), ("s1", {b"s1", b"f1"}, {b"s3"}), ("s2", {b"s2"}, {b"s1", b"s3", b"f1"}):
            status, page, said = ran(["picture", "car.db", "v1", *of_supplier(supplier)], self.folder)
            self.see(f"the page for {supplier}", (0, b"", True, True), (status, said, page.startswith(b"<!DOCTYPE html>"), b"<title>Plan of v1</title>" in page))
            words = set(re.findall(rb"\w+", re.sub(rb"<style>.*?</style>", b"", page, flags=re.DOTALL)))
            self.see(f"names on the page for {supplier}", (set(), set()), (seen - words, hidden & words))
        self.see("a picture leaves the file", before, (self.folder / "car.db").read_bytes())

    def test_refused(self):
        self.turned_down(["picture", "car.db", "v9"], refused(10, "NoVariant"))
        self.turned_down(["picture", "car.db", "v9", "--supplier", "s1"], refused(10, "NoVariant"))
        self.turned_down(["picture", "car.db", "1v"], refused(4, "BadName"))
        for variant, since, answer in ("v1", "v9", (10, "NoVariant")), ("v9", "v1", (10, "NoVariant")), ("v1", "1v", (4, "BadName")), ("v9", "1v", (4, "BadName")):
            self.turned_down(["picture", "car.db", variant, "--since", since], refused(*answer))
            self.turned_down(["picture", "car.db", variant, "--since", since, "--supplier", "s1"], refused(*answer))
        for supplier in "s4", "S1", "s 1", "":
            self.turned_down(["picture", "car.db", "v1", "--supplier", supplier], refused(14, "NoSupplier"))

    def test_over_http(self):
        """A server gives the owner of a key the page that the command writes for it. Those of the four owners are four pages."""
        owners = {"integrator1": None, "supplier01": "s1", "supplier02": "s2", "supplier03": "s3"}
        pages = {key: ran(["picture", "car.db", "v1", *of_supplier(supplier)], self.folder) for key, supplier in owners.items()}
        self.see("how the pages are written", {(0, b"")}, {(status, said) for status, _, said in pages.values()})
        self.see("how many pages there are", 4, len({page for _, page, _ in pages.values()}))
        path = "/v1/variants/v1/picture"
        self.in_turn("car.db", [
            *((head("GET", path, key), html(page)) for key, (_, page, _) in pages.items()),
            (head("GET", path + "?x=1", "supplier01"), html(pages["supplier01"][1])),
            (head("GET", "/v1/variants/v9/picture", "supplier01"), NO_VARIANT),
            (head("GET", "/v1/variants/1v/picture", "integrator1"), json(refused(4, "BadName"), "422 Unprocessable Entity")),
            (head("GET", path), UNKNOWN),
            (head("GET", path, "nobody123"), UNKNOWN),
            (head("GET", "/v1/variants/1v/picture", "nobody123"), UNKNOWN),
            (head("POST", path, "supplier01"), engine("405 Method Not Allowed", "allow: GET")),
            (head("GET", path + "/", "supplier01"), engine("404 Not Found")),
            (head("GET", "/v1/variants/v1/schedule", "supplier01"), text(b"00 0001 A f1 n1\n32 0001 A f1 n1\n")),
        ])

    def test_since_over_http(self):
        """So it does with the page of a variant since another one."""
        owners = {"integrator1": None, "supplier01": "s1", "supplier02": "s2", "supplier03": "s3"}
        pages = {key: ran(["picture", "car.db", "v1", "--since", "v1", *of_supplier(supplier)], self.folder) for key, supplier in owners.items()}
        self.see("how the pages are written", {(0, b"")}, {(status, said) for status, _, said in pages.values()})
        path = "/v1/variants/v1/since/v1/picture"
        self.in_turn("car.db", [
            *((head("GET", path, key), html(page)) for key, (_, page, _) in pages.items()),
            (head("GET", "/v1/variants/v1/since/v9/picture", "supplier01"), NO_VARIANT),
            (head("GET", "/v1/variants/v9/since/v1/picture", "supplier01"), NO_VARIANT),
            (head("GET", "/v1/variants/v9/since/1v/picture", "integrator1"), json(refused(4, "BadName"), "422 Unprocessable Entity")),
            (head("GET", path), UNKNOWN),
            (head("POST", path, "supplier01"), engine("405 Method Not Allowed", "allow: GET")),
            (head("GET", path + "/", "supplier01"), engine("404 Not Found")),
        ])

    def test_full_output(self):
        status, _, said = self.shell('"$1" picture car.db v1 > /dev/full')
        self.see("output that is full", (1, b"slotplan: WriteFailed\n"), (status, said))


class AskingEnds(AskedCase):
    """Faults of `ask` come when what stood before them was answered, and that stays."""

    def test_too_long(self):
        longest = b"\n" * (16_777_216 - len(ADD_FRAME % b"g1") - 2) + b" "
        for frame, more in (b"g1", longest + b" "), (b"g2", longest + b"\n"):
            self.ask(ADD_FRAME % frame + b"\n" + more, DONE + b"\n", b"slotplan: TooLong\n", 1)
        self.ask(ADD_FRAME % b"g3" + b"\n" + longest, DONE + b"\n" + refused(1, "BadText") + b"\n")
        self.tell(["gaps", "car.db", "v1", "--supplier", "s1"], b"GAP    3200 f1\nGAP   never g1\nGAP   never g2\nGAP   never g3\n")
        self.sound()

    def test_input_not_read(self):
        self.see("a folder as input", (1, b"", b"slotplan: ReadFailed\n"), self.shell('"$1" ask car.db < /'))

    def test_output_not_written(self):
        for end in "> /dev/full", ">&-":
            status, _, said = self.shell(f'"$1" ask car.db {end}', ADD_FRAME % b"g4" + b"\n")
            self.see(f"output {end}", (1, b"slotplan: WriteFailed\n"), (status, said))
            self.tell(["gaps", "car.db", "v1", "--supplier", "s1"], b"GAP    3200 f1\nGAP   never g4\n")
            self.ask(DROP_FRAME % b"g4", DONE + b"\n")
        self.sound()


class AskingKilled(AskedCase):
    """`ask` is ended by a signal: each line that was answered is in the file, and one that was not is there whole or not at all."""

    def asks(self):
        return subprocess.Popen([program(), "ask", "car.db"], cwd=self.folder, stdin=subprocess.PIPE, stdout=subprocess.PIPE, bufsize=0)

    def test_within_a_line(self):
        """Each line is answered before the next one is sent."""
        answered = set()
        for turn in range(KILLS):
            with self.asks() as asks:
                for frame in [f"k{turn}a", f"k{turn}b"][: 1 + turn % 2]:
                    asks.stdin.write(ADD_FRAME % frame.encode() + b"\n")
                    self.see("a frame is added", DONE + b"\n", asks.stdout.readline())
                    answered.add(frame)
                drop = DROP_FRAME % (b"k%da" % turn)
                asks.stdin.write(drop[: len(drop) * (turn % 5) // 4])
                asks.send_signal((signal.SIGKILL, signal.SIGTERM)[turn % 2])
                asks.wait(SECONDS)
                self.see("a line without an end is not answered", b"", asks.stdout.read())
        names = {name for (name,) in self.rows("SELECT name FROM frames WHERE name LIKE 'k%'")}
        self.see("frames in the file", answered, names)
        self.sound()

    def killed_behind(self, frame, turn):
        """A frame with two signals is added, a whole line drops it, and then comes the kill. Gives what was answered to the drop."""
        with self.asks() as asks:
            for line in ADD_FRAME % frame, ADD_SIGNAL % (frame, b"x", 0), ADD_SIGNAL % (frame, b"y", 8):
                begun = time.monotonic()
                asks.stdin.write(line + b"\n")
                self.see("a frame and its signals are added", DONE + b"\n", asks.stdout.readline())
            took = time.monotonic() - begun
            asks.stdin.write(DROP_FRAME % frame + b"\n")
            time.sleep(took * DELAYS[turn % len(DELAYS)])
            asks.send_signal((signal.SIGKILL, signal.SIGTERM)[turn % 2])
            self.see("it is ended by the signal", True, asks.wait(SECONDS) < 0)
            return asks.stdout.read()

    def test_behind_a_line(self):
        answers = {f"w{turn}": self.killed_behind(b"w%d" % turn, turn) for turn in range(KILLS)}
        self.see("what else is answered than that it is done", set(), set(answers.values()) - {b"", DONE + b"\n"})
        left = {frame: [] for (frame,) in self.rows("SELECT name FROM frames WHERE name LIKE 'w%'")}
        for frame, name in self.rows("SELECT frame, name FROM signals WHERE frame LIKE 'w%' ORDER BY frame, name"):
            left.setdefault(frame, []).append(name)
        self.see("frames of which a part is gone", {}, {frame: signals for frame, signals in left.items() if signals != ["x", "y"]})
        self.see("frames that were dropped, as was answered, and are there", set(), {frame for frame, answer in answers.items() if answer} & set(left))
        self.sound()


# ---- the server


def held():
    """What the register holds behind the first requests, and paths and methods that are near it."""
    for key, suppliers in ("supplier01", b"supplier s1\n"), ("supplier02", b"supplier s2\n"), ("integrator1", b"supplier s1\nsupplier s2\n"):
        yield head("GET", "/v1/cluster", key), text(FIGURE_LINES + suppliers)
    for key, nodes in ("supplier01", b"n1\n"), ("supplier02", b""), ("integrator1", b"n1 s1\n"):
        yield head("GET", "/v1/variants", key), text(b"v1 - 1 open\n")
        yield head("GET", "/v1/nodes", key), text(nodes)
    yield command("integrator1", b'{"do":"nodes"}'), json(b'{"lines":["n1 s1"],"ok":"nodes"}')
    yield command("supplier01", b'{"do":"nodes","variant":"v1"}'), json(refused(1, "BadText"), "400 Bad Request")
    for path in "/v1/cluster", "/v1/variants", "/v1/nodes":
        yield head("GET", path), UNKNOWN
        yield head("GET", path, "nobody123"), UNKNOWN
        yield head("GET", path + "/", "supplier01"), engine("404 Not Found")
        yield head("GET", path + "s", "supplier01"), engine("404 Not Found")
        for method in "POST", "PUT", "DELETE":
            yield head(method, path, "supplier01"), engine("405 Method Not Allowed", "allow: GET")
    yield head("GET", "/v1/variants/v1", "supplier01"), engine("404 Not Found")
    yield head("GET", "/v1/nodes?supplier=s1", "supplier02"), text(b"")


def requests():
    """Requests with their whole replies, one after another."""
    yield from first_requests()
    schedule = "/v1/variants/v1/schedule"
    yield head("GET", schedule, "supplier01"), text(b"00 0001 A f1 n1\n")
    yield head("GET", schedule, "supplier02"), text(b"")
    yield head("GET", schedule, "integrator1"), text(b"00 0001 A f1 n1 s1\n")
    yield head("GET", schedule + "?x=1", "supplier01"), text(b"00 0001 A f1 n1\n")
    yield head("GET", "/v1/variants/v1/grants", "supplier01"), text(b"0001 A n1\n")
    yield head("GET", "/v1/variants/v1/frames", "supplier01"), text(b"FRAME f1 n1\nAT 0001 A 00 64\n")
    yield head("GET", "/v1/variants/v1/gaps", "supplier01"), text(b"GAP    6400 f1\n")
    yield post("/v1/variants/v1/imports/signals", "supplier01", SIGNALS), json(b'{"ok":"imported","rows":1}')
    yield post("/v1/variants/v1/imports/signals", "supplier01", SIGNALS), json(b'{"ok":"imported","rows":1}')
    yield head("GET", "/v1/variants/v1/frames/f1/layout", "supplier01"), text(b"0000 08 little speed\n")
    yield head("GET", "/v1/variants/v1/frames/f9/layout", "supplier01"), NO_FRAME
    yield head("GET", "/v1/variants/v9/schedule", "supplier01"), NO_VARIANT
    yield from held()

    yield head("GET", schedule), UNKNOWN
    yield head("GET", schedule, "nobody123"), UNKNOWN
    yield head("GET", schedule, "supplier01", "x-office-key: supplier01"), UNKNOWN
    yield command("supplier01", b'{"do":"release","variant":"v1"}'), json(refused(3, "NotYours"), "403 Forbidden")
    yield command("supplier01", b'{"do":"grant","variant":"v1","slot":2,"channel":"A","supplier":"s1","node":"n1"}'), json(refused(3, "NotYours"), "403 Forbidden")
    yield command("supplier01", b'{"do":"schedule","variant":"1v"}'), json(refused(4, "BadName"), "422 Unprocessable Entity")
    yield command("supplier01", b"\xff"), json(refused(1, "BadText"), "400 Bad Request")
    yield command("supplier01", b""), json(refused(1, "BadText"), "400 Bad Request")
    yield command("supplier01", b"[" * 200), json(refused(1, "BadText"), "400 Bad Request")

    yield head("GET", "/v1/nothing", "supplier01"), engine("404 Not Found")
    yield head("PUT", "/v1/commands", "supplier01"), engine("405 Method Not Allowed", "allow: POST")
    yield head("POST", schedule, "supplier01"), engine("405 Method Not Allowed", "allow: GET")
    yield head("POST", "/v1/commands", "supplier01"), engine("411 Length Required")
    yield head("POST", "/v1/commands", "supplier01", "Content-Length: 65537") + b"x" * 65_537, engine("413 Payload Too Large")
    yield head("POST", "/v1/commands", "supplier01", "Content-Length: 1a"), engine("400 Bad Request")
    yield head("POST", "/v1/commands", "supplier01", "Content-Length: 1", "Content-Length: 1"), engine("400 Bad Request")
    yield head("POST", "/v1/commands", "supplier01", "Transfer-Encoding: chunked"), engine("501 Not Implemented")
    yield b"GET /" + b"a" * 8_200, engine("431 Request Header Fields Too Large")
    yield head("GET", schedule, "supplier01", *[f"x{n}: 1" for n in range(63)]), engine("431 Request Header Fields Too Large")
    yield b"\x00\r\n\r\n", engine("400 Bad Request")
    expect = command("supplier01", b'{"do":"add_frame","variant":"v1","frame":"f7","node":"n1"}', "Expect: 100-continue")
    yield expect, CONTINUE + json(DONE)
    yield expect, CONTINUE + json(refused(19, "Exists"), "409 Conflict")
    yield command("supplier01", b'{"do":"drop_frame","variant":"v1","frame":"f7"}'), json(DONE)


class Serving(RegisterCase):
    """The server answers over HTTP, and what it answered is in the file."""

    def test_replies(self):
        self.create()
        asked = list(requests())
        with self.served("--count", str(len(asked))) as (server, port):
            for data, wanted in asked:
                self.see(f"to {data[:120]!r}", wanted, sent(port, data))
            self.see("the server ends after so many connections", 0, server.wait(SECONDS))
            self.see("it said nothing else", (b"", b""), (server.stdout.read(), server.stderr.read()))
        self.sound()
        for table, rows in {
            "frames": [("v1", "s1", "f1", "n1")],
            "placements": [("v1", "s1", "f1", 1, "A", 0, 64)],
            "signals": [("v1", "s1", "f1", "speed", 0, 8, 0)],
            "grants": [("v1", 1, "A", "s1", "n1")],
            "imports": [("s1", "signals", "v1", SIGNALS, 1)],
        }.items():
            self.see(f"{table} in the file", rows, self.rows(f"SELECT * FROM {table}"))

    def test_port_taken(self):
        self.create()
        with socket.create_server((HERE, free_port())) as taken:
            self.fault(["serve", "car.db", str(taken.getsockname()[1])], "CannotListen")

    def test_connections_cut(self):
        """Connections that end early ask nothing, and the next one is served."""
        self.plan()
        body = b'{"do":"add_frame","variant":"v1","frame":"f8","node":"n1"}'
        whole = command("supplier01", body, "Expect: 100-continue")
        ends = len(whole) - len(body)
        cuts = [0, 1, 20, ends - 1, ends, len(whole) - 1]
        with self.served("--count", str(len(cuts) + 1)) as (server, port):
            for cut in cuts:
                self.see(f"a request cut behind {cut} bytes", CONTINUE if cut >= ends else b"", sent(port, whole[:cut], end=True))
            frames = text(b"FRAME f1 n1\nAT 0001 A 00 64\n")
            self.see("the next one is served", frames, sent(port, head("GET", "/v1/variants/v1/frames", "supplier01")))
            self.ends(server)
            self.see("each cut is said", b"slotplan: Truncated\n" * len(cuts), each_line(server.stderr.read()))

    def test_killed(self):
        """It is ended by a signal, between requests and within them; each answered request is in the file."""
        self.plan()
        answered, may_be_gone = {"f1"}, set()
        for turn in range(KILLS):
            with self.served() as (server, port):
                for frame in [f"k{turn}a", f"k{turn}b"][: 1 + turn % 2]:
                    add = command("supplier01", b'{"do":"add_frame","variant":"v1","frame":"%s","node":"n1"}' % frame.encode())
                    self.see("a frame is added", json(DONE), sent(port, add))
                    answered.add(frame)
                drop = command("supplier01", b'{"do":"drop_frame","variant":"v1","frame":"k%da"}' % turn)
                with socket.create_connection((HERE, port), SECONDS) as stream:
                    stream.sendall(drop[: len(drop) * (turn % 5) // 4])
                    server.send_signal((signal.SIGKILL, signal.SIGTERM)[turn % 2])
                    server.wait(SECONDS)
                if turn % 5 == 4:
                    may_be_gone.add(f"k{turn}a")
        names = {name for (name,) in self.rows("SELECT name FROM frames")}
        self.see("answered requests that are not in the file", set(), answered - names - may_be_gone)
        self.see("frames in the file that nobody added", set(), names - answered)
        self.sound()


# ---- variants laid over their parents


# A frame in v1 with a placement and two signals, and v2 opened from it.
OPENED = [
    *done("integrator1", b'{"do":"open_variant","variant":"v1"}', b'{"do":"add_node","supplier":"s1","node":"n1"}'),
    *done("integrator1", b'{"do":"grant","variant":"v1","slot":1,"channel":"A","supplier":"s1","node":"n1"}'),
    *done("supplier01", b'{"do":"add_frame","variant":"v1","frame":"f1","node":"n1"}'),
    *done("supplier01", b'{"do":"place","variant":"v1","frame":"f1","slot":1,"channels":"A","base":0,"repetition":2}'),
    *done("supplier01", b'{"do":"add_signal","variant":"v1","frame":"f1","signal":"x","start":0,"length":8,"order":"little"}'),
    *done("supplier01", b'{"do":"add_signal","variant":"v1","frame":"f1","signal":"y","start":8,"length":4,"order":"little"}'),
    *done("integrator1", b'{"do":"release","variant":"v1"}', b'{"do":"open_variant","variant":"v2","from":"v1"}'),
]

# The frame changes in v2 alone, and v3 is opened from it.
CHANGED = [
    *done("supplier01", b'{"do":"drop_signal","variant":"v2","frame":"f1","signal":"y"}'),
    *done("supplier01", b'{"do":"place","variant":"v2","frame":"f1","slot":1,"channels":"A","base":1,"repetition":2}'),
    read("v2/frames/f1/layout", b"0000 08 little x\n"),
    read("v1/frames/f1/layout", b"0000 08 little x\n0008 04 little y\n"),
    read("v1/schedule", in_cycles(range(0, 64, 2))),
    read("v2/schedule", in_cycles(range(64))),
    *done("integrator1", b'{"do":"release","variant":"v2"}', b'{"do":"open_variant","variant":"v3","from":"v2"}'),
]

# It is dropped in v3, added again, and dropped again.
DROPPED = [
    *done("supplier01", b'{"do":"drop_frame","variant":"v3","frame":"f1"}'),
    *done("supplier01", b'{"do":"add_frame","variant":"v3","frame":"f1","node":"n1"}'),
    read("v3/frames", b"FRAME f1 n1\n"),
    read("v3/frames/f1/layout", b""),
    *done("supplier01", b'{"do":"drop_frame","variant":"v3","frame":"f1"}'),
    read("v3/frames", b""),
    (head("GET", "/v1/variants/v3/frames/f1/layout", "supplier01"), NO_FRAME),
    read("v1/schedule", in_cycles(range(0, 64, 2))),
    read("v2/schedule", in_cycles(range(64))),
]

# How many rows each shows then: the frame was copied whole before it changed, its parent's stayed, and that it was dropped is
# noted once.
LEFT = {
    "SELECT slot FROM placements WHERE variant = 'v1'": 1,
    "SELECT name FROM signals WHERE variant = 'v1'": 2,
    "SELECT slot FROM placements WHERE variant = 'v2'": 2,
    "SELECT name FROM signals WHERE variant = 'v2'": 1,
    "SELECT name FROM frames WHERE variant = 'v3'": 0,
    "SELECT frame FROM dropped WHERE variant = 'v3'": 1,
}

# A variant is given all rows that it shows, those of the one that it was opened from.
WHOLE = """\
UPDATE variants SET overlay = 0 WHERE name = '{child}';
INSERT INTO frames SELECT '{child}', supplier, name, node FROM frames WHERE variant = '{parent}';
INSERT INTO placements SELECT '{child}', supplier, frame, slot, channels, base, repetition FROM placements WHERE variant = '{parent}';
INSERT INTO signals SELECT '{child}', supplier, frame, name, start, length, big FROM signals WHERE variant = '{parent}';
"""


class Overlays(RegisterCase):
    """A variant that was opened from another keeps its differences alone, and a released one stays as it was."""

    def test_query_of_the_formats(self):
        """What the query of docs/FORMATS.md finds in the file are the frames that the program lists."""
        self.plan()
        (self.folder / "fits.csv").write_bytes(FITS)
        self.tell(["import", "car.db", "supplier01", "v1", "a", "fits.csv"], b'{"ok":"imported","rows":2}\n')
        changes = [
            ("integrator1", b'{"do":"release","variant":"v1"}'),
            ("integrator1", b'{"do":"open_variant","variant":"v2","from":"v1"}'),
            ("supplier01", b'{"do":"drop_frame","variant":"v2","frame":"f2"}'),
            ("supplier01", b'{"do":"add_frame","variant":"v2","frame":"f4","node":"n1"}'),
            ("supplier01", b'{"do":"place","variant":"v2","frame":"f1","slot":1,"channels":"A","base":4,"repetition":64}'),
            ("integrator1", b'{"do":"release","variant":"v2"}'),
            ("integrator1", b'{"do":"open_variant","variant":"v3","from":"v2"}'),
            ("supplier01", b'{"do":"drop_frame","variant":"v3","frame":"f4"}'),
            ("supplier01", b'{"do":"add_frame","variant":"v3","frame":"f2","node":"n1"}'),
        ]
        shown = {"v1": ["f1", "f2", "f3"], "v2": ["f1", "f3", "f4"], "v3": ["f1", "f2", "f3"]}
        with self.served("--count", str(len(changes) + len(shown))) as (server, port):
            for key, change in changes:
                self.see(f"{change}", json(DONE), sent(port, command(key, change)))
            listed = {}
            for variant in shown:
                lines = sent(port, head("GET", f"/v1/variants/{variant}/frames", "integrator1")).partition(b"\r\n\r\n")[2].decode().splitlines()
                listed[variant] = [tuple(line.split()[1:]) for line in lines if line.startswith("FRAME ")]
            self.ends(server)
        self.tell(["variants", "car.db"], b"v1 - 1 released\nv2 v1 2 released\nv3 v2 3 open\n")
        for variant, names in shown.items():
            self.see(f"frames of {variant}", [(name, "n1", "s1") for name in names], listed[variant])
            with closing(sqlite3.connect(self.folder / "car.db")) as file:
                found = file.execute(formats.overlay_query(), {"variant": variant}).fetchall()
            self.see(f"what the query finds in {variant}", listed[variant], [(name, node, supplier) for supplier, name, node, _ in found])
        rows = [("v1", "f1"), ("v1", "f2"), ("v1", "f3"), ("v2", "f1"), ("v2", "f4"), ("v3", "f2")]
        self.see("frames in the file", rows, self.rows("SELECT variant, name FROM frames ORDER BY variant, name"))
        self.sound()

    def test_differences_alone(self):
        self.create()
        self.in_turn("car.db", OPENED)
        self.see("v2 is laid over v1", [("v1", 1)], self.rows("SELECT parent, overlay FROM variants WHERE name = 'v2'"))
        self.see("frames of v2", [], self.rows("SELECT name FROM frames WHERE variant = 'v2'"))
        self.in_turn("car.db", CHANGED)
        self.in_turn("car.db", DROPPED)
        for query, count in LEFT.items():
            self.see(query, count, len(self.rows(query)))

    def test_stored_whole(self):
        """One that is stored with all rows that it shows is answered the same."""
        self.create()
        self.in_turn("car.db", OPENED)
        for parent, child, lines in ("v1", "v2", CHANGED), ("v2", "v3", DROPPED):
            with closing(sqlite3.connect(self.folder / "car.db")) as file:
                file.executescript(WHOLE.format(parent=parent, child=child))
            self.in_turn("car.db", lines)


# ---- a file that is closed and opened again


class Reopening(RegisterCase):
    """A register whose file is closed and opened again is answered as one that stays open, with its cluster, rows and imports."""

    def test_cluster_rows_and_imports(self):
        self.create()
        self.in_turn("car.db", list(first_requests()))
        exists, label_used = (json(refused(*no), "409 Conflict") for no in ((19, "Exists"), (9, "LabelUsed")))
        grant = b'{"do":"grant","variant":"v1","slot":%d,"channel":"A","supplier":"s2","node":"m1"}'
        file = b"frame,node,slot,channels,base,repetition\nf1,n1,1,A,%d,64\n"
        imported = post("/v1/variants/v1/imports/a", "supplier01", file % 1), json(b'{"ok":"imported","rows":1}')
        twice = read("v1/schedule", in_cycles([0, 1]))
        self.in_turn("car.db", [
            (command("integrator1", b'{"do":"open_variant","variant":"v1"}'), exists),
            (command("integrator1", b'{"do":"add_node","supplier":"s1","node":"n1"}'), exists),
            *done("integrator1", b'{"do":"add_node","supplier":"s2","node":"m1"}'),
            (command("integrator1", grant % 1), json(refused(24, "Taken"), "409 Conflict")),
            (command("integrator1", grant % 5), json(refused(6, "BadSlot"), "422 Unprocessable Entity")),
            (head("GET", "/v1/variants/v2/frames", "supplier02"), NO_VARIANT),
            imported,
            twice,
        ])
        self.in_turn("car.db", [
            imported,
            (post("/v1/variants/v1/imports/a", "supplier01", file % 2), label_used),
            (post("/v1/variants/v2/imports/a", "supplier01", file % 1), label_used),
            twice,
        ])


class Joining(RegisterCase):
    """A supplier joins: its key is known from the next connection on, and still is when the file was closed and opened again."""

    def test_key(self):
        self.create()
        join = b'{"do":"add_supplier","supplier":"%s","key":"%s"}'
        conflict, unprocessable = "409 Conflict", "422 Unprocessable Entity"
        self.in_turn("car.db", [
            *first_requests(),
            (head("GET", "/v1/variants/v1/schedule", "supplier03"), UNKNOWN),
            (command("supplier01", join % (b"s3", b"supplier03")), json(refused(3, "NotYours"), "403 Forbidden")),
            (command("integrator1", join % (b"s3", b"short")), json(refused(30, "BadKey"), unprocessable)),
            (command("integrator1", join % (b"s2", b"supplier03")), json(refused(19, "Exists"), conflict)),
            (command("integrator1", join % (b"s3", b"integrator1")), json(refused(31, "KeyTaken"), conflict)),
            *done("integrator1", join % (b"s3", b"supplier03")),
            (head("GET", "/v1/variants/v1/schedule", "supplier03"), text(b"")),
            (command("integrator1", join % (b"s4", b"supplier03")), json(refused(31, "KeyTaken"), conflict)),
        ])
        self.see("suppliers in the file", [("s1", "supplier01"), ("s2", "supplier02"), ("s3", "supplier03")], self.rows("SELECT * FROM suppliers ORDER BY name"))

        self.in_turn("car.db", [
            (command("integrator1", join % (b"s3", b"supplier04")), json(refused(19, "Exists"), conflict)),
            (command("integrator1", join % (b"s4", b"supplier03")), json(refused(31, "KeyTaken"), conflict)),
            (head("GET", "/v1/variants/v1/schedule", "supplier04"), UNKNOWN),
            *done("integrator1", b'{"do":"add_node","supplier":"s3","node":"n1"}'),
            *done("integrator1", b'{"do":"grant","variant":"v1","slot":2,"channel":"A","supplier":"s3","node":"n1"}'),
            *done("supplier03", b'{"do":"add_frame","variant":"v1","frame":"f1","node":"n1"}'),
        ])
        (self.folder / "joined.csv").write_bytes(b"frame,node,slot,channels,base,repetition\nf1,n1,2,A,3,64\n")
        self.tell(["import", "car.db", "supplier03", "v1", "a", "joined.csv"], b'{"ok":"imported","rows":1}\n')
        self.turned_down(["import", "car.db", "supplier04", "v1", "a", "joined.csv"], refused(2, "UnknownKey"))
        self.tell(["schedule", "car.db", "v1"], b"00 0001 A f1 n1 s1\n03 0002 A f1 n1 s3\n")
        self.sound()


class CountOfCycles(RegisterCase):
    """A cluster of 10 cycles keeps their count in its file."""

    cluster = b"cycles = 10\n" + CLUSTER

    def test_kept(self):
        self.create()
        self.see("cycles in the file", [(10,)], self.rows("SELECT cycles FROM cluster2"))
        place = b'{"do":"place","variant":"v1","frame":"f1","slot":1,"channels":"A","base":%d,"repetition":%d}'
        *planned, _, _ = first_requests()
        self.in_turn("car.db", [*planned, (command("supplier01", place % (0, 64)), BAD_CYCLES)])
        self.in_turn("car.db", [
            (command("supplier01", place % (0, 4)), BAD_CYCLES),
            *done("supplier01", place % (1, 5)),
            read("v1/schedule", in_cycles([1, 6])),
            read("v1/gaps", b"GAP     500 f1\n"),
        ])
        self.see("placements in the file", [("v1", "s1", "f1", 1, "A", 1, 5)], self.rows("SELECT * FROM placements"))
        (self.folder / "ten.csv").write_bytes(b"frame,node,slot,channels,base,repetition\nf2,n1,1,A,9,10\nf3,n1,1,A,0,4\n")
        row = b'{"line":3,"no":29,"refused":"BadRow","row":' + refused(5, "BadCycles") + b"}"
        self.turned_down(["import", "car.db", "supplier01", "v1", "a", "ten.csv"], row)
        (self.folder / "ten.csv").write_bytes(b"frame,node,slot,channels,base,repetition\nf2,n1,1,A,9,10\n")
        self.tell(["import", "car.db", "supplier01", "v1", "a", "ten.csv"], b'{"ok":"imported","rows":1}\n')
        self.tell(["schedule", "car.db", "v1"], b"01 0001 A f1 n1 s1\n06 0001 A f1 n1 s1\n09 0001 A f2 n1 s1\n")
        self.tell(["gaps", "car.db", "v1"], b"GAP     500 f1 s1\nGAP    1000 f2 s1\n")
        self.sound()
