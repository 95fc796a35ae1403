"""Registers of schema 1, migrated by the built program.

The registers are made by the SQLite of python3, with the statements of schema 1: the rows of one were typed by hand, those of the others come from
scripts that another register answered, naive.py. Each is made with its variants laid over their parents, and once more with copies of all rows that they
show. What is wanted afterwards was typed by hand too, or is what naive.py answers."""
import json
import shutil
import sqlite3
from contextlib import closing
from itertools import product
from pathlib import Path
from tempfile import TemporaryDirectory

from tests.drivers.program import ran
from tests.drivers.registers import RegisterCase
from tests.drivers.server import sent
from tests.drivers.states import has_frames
from tests.models import naive, schema1, schema2
from tests.models.messages import CLUSTER, command
from tests.models.random_scripts import random_script
from tests.models.scripts import CLUSTER as KEYS
from tests.runner.parameters import for_values

WORDS = ["migrate", "car.db"]
IMPORT = ["import", "car.db", "supplier01", "v1", "a", "header.csv"]
OPENING = ["schedule", "car.db", "v1"], ["gaps", "car.db", "v1"], ["serve", "car.db", "1024"], IMPORT
QUERIES = "grants", "frames", "schedule", "gaps", "rows"


# ---- a register typed by hand

HEADER = b"frame,node,slot,channels,base,repetition\n"
IMPORTED = '{"ok":"imported","rows":0}'

PLANNED = """\
integrator1 {"do":"open_variant","variant":"v1"}
integrator1 {"do":"add_node","supplier":"s1","node":"n1"}
integrator1 {"do":"grant","variant":"v1","slot":1,"channel":"A","supplier":"s1","node":"n1"}
supplier01 {"do":"add_frame","variant":"v1","frame":"f1","node":"n1"}
supplier01 {"do":"place","variant":"v1","frame":"f1","slot":1,"channels":"A","base":0,"repetition":2}
supplier01 {"do":"add_signal","variant":"v1","frame":"f1","signal":"x","start":0,"length":8,"order":"little"}
supplier01 {"do":"import","variant":"v1","label":"a","body":"frame,node,slot,channels,base,repetition\\n"}
integrator1 {"do":"release","variant":"v1"}
integrator1 {"do":"open_variant","variant":"v2","from":"v1"}
supplier01 {"do":"place","variant":"v2","frame":"f1","slot":1,"channels":"A","base":1,"repetition":2}
integrator1 {"do":"release","variant":"v2"}
integrator1 {"do":"open_variant","variant":"v3","from":"v2"}
supplier01 {"do":"drop_frame","variant":"v3","frame":"f1"}
supplier01 {"do":"add_frame","variant":"v3","frame":"f1","node":"n1"}
supplier01 {"do":"drop_frame","variant":"v3","frame":"f1"}
"""

# What is asked next, with its answers: the import comes again, released variants stay, and there are 64 cycles.
NEXT = [
    ('supplier01 {"do":"import","variant":"v1","label":"a","body":"frame,node,slot,channels,base,repetition\\n"}', IMPORTED),
    ('supplier01 {"do":"import","variant":"v1","label":"b","body":"frame,node,slot,channels,base,repetition\\n"}', '{"no":11,"refused":"Released"}'),
    ('integrator1 {"do":"open_variant","variant":"v4","from":"v3"}', '{"no":12,"refused":"NotReleased"}'),
    ('supplier01 {"do":"add_frame","variant":"v3","frame":"f1","node":"n1"}', '{"ok":"done"}'),
    ('supplier01 {"do":"place","variant":"v3","frame":"f1","slot":1,"channels":"A","base":0,"repetition":12}', '{"no":5,"refused":"BadCycles"}'),
    ('supplier01 {"do":"place","variant":"v3","frame":"f1","slot":1,"channels":"A","base":63,"repetition":64}', '{"ok":"done"}'),
    ('supplier01 {"do":"schedule","variant":"v3"}', '{"lines":["63 0001 A f1 n1"],"ok":"schedule"}'),
    ('supplier01 {"do":"gaps","variant":"v3"}', '{"lines":["GAP    6400 f1"],"ok":"gaps"}'),
]

IN_BOTH = {
    "nodes": [("s1", "n1")],
    "grants": [(variant, 1, "A", "s1", "n1") for variant in ("v1", "v2", "v3")],
    "frames": [("v1", "s1", "f1", "n1"), ("v2", "s1", "f1", "n1")],
    "placements": [("v1", "s1", "f1", 1, "A", 0, 2), ("v2", "s1", "f1", 1, "A", 0, 2), ("v2", "s1", "f1", 1, "A", 1, 2)],
    "signals": [("v1", "s1", "f1", "x", 0, 8, 0), ("v2", "s1", "f1", "x", 0, 8, 0)],
    "imports": [("s1", "a", "v1", HEADER, 0)],
}
FORMS = {
    "laid_over": IN_BOTH | {"variants": [("v1", None, 1, 1, 0), ("v2", "v1", 2, 1, 1), ("v3", "v2", 3, 0, 1)], "dropped": [("v3", "s1", "f1")]},
    "copies": IN_BOTH | {"variants": [("v1", None, 1, 1, 0), ("v2", "v1", 2, 1, 0), ("v3", "v2", 3, 0, 0)], "dropped": []},
}


# ---- registers that naive.py knows


def asked_before(script):
    """The register of naive.py after a script."""
    register, lines = naive.register_of(script)
    for line in lines:
        register.told(line)
    return register


def copies(register):
    """Its rows in schema 1, each variant with all that it shows."""
    tables = {table: register.sql(f"SELECT * FROM {table}") for table in ("nodes", "grants", "frames", "placements", "signals", "imports")}
    return tables | {"variants": register.sql("SELECT name, parent, depth, released, 0 FROM variants"), "dropped": []}


def shown(rows, variant):
    """A variant's frames by supplier and name, each with all that it has."""
    made = {row[1:3]: [row[3]] for row in rows["frames"] if row[0] == variant}
    for table in "placements", "signals":
        for row in sorted(rows[table]):
            if row[0] == variant:
                made[row[1:3]].append(row[3:])
    return made


def laid_over(rows):
    """The same register with each variant laid over its parent: only frames that differ have rows, and what the parent has more is dropped."""
    same, dropped, parents = set(), [], {name: parent for name, parent, *_ in rows["variants"] if parent}
    for variant, parent in parents.items():
        above, below = shown(rows, parent), shown(rows, variant)
        same |= {(variant, *frame) for frame, content in below.items() if above.get(frame) == content}
        dropped += [(variant, *frame) for frame in above if frame not in below]
    kept = {table: [row for row in rows[table] if row[:3] not in same] for table in ("frames", "placements", "signals")}
    variants = [(*row[:4], int(row[0] in parents)) for row in rows["variants"]]
    return rows | kept | {"variants": variants, "dropped": dropped}


def cluster_of(register):
    """Its cluster file's keys, with the suppliers that it has now."""
    keys = {key: json.dumps(value) for key, value in register.cluster.items() if key not in ("cycles", "suppliers")}
    return keys | {"suppliers": "{" + ", ".join(f'{name} = "{key}"' for key, name in register.keys.items()) + "}"}


def questions(register):
    """What each actor may ask of each variant, and of one that is not there; and what the register holds."""
    frames = sorted({name for name, in register.sql("SELECT name FROM frames")})
    for key in register.cluster["integrator"], *register.keys, "nobody123":
        for variant in *(name for name, in register.sql("SELECT name FROM variants ORDER BY name")), "nowhere":
            for query in QUERIES:
                yield f'{key} {{"do":"{query}","variant":"{variant}"}}'
            for frame in *frames[:12], "nothing":
                yield f'{key} {{"do":"layout","variant":"{variant}","frame":"{frame}"}}'
        yield from (f'{key} {{"do":"{query}"}}' for query in ("cluster", "variants", "nodes"))


# ---- a register is migrated


def plain(rows):
    return {table: sorted(of_table, key=repr) for table, of_table in rows.items()}


class MigratingCase(RegisterCase):
    """A test with the register car.db, its import's file beside it."""

    def setUp(self):
        super().setUp()
        self.db = self.folder / "car.db"
        (self.folder / "header.csv").write_bytes(HEADER)

    def content(self):
        """What SQLite finds in a copy of the file and its log."""
        with TemporaryDirectory() as room:
            for name in "car.db", "car.db-wal":
                if (self.folder / name).exists():
                    shutil.copy(self.folder / name, room)
            with closing(sqlite3.connect(Path(room) / "car.db")) as file:
                return list(file.iterdump())

    def wrong_before(self):
        """Each other command says a word and leaves the register."""
        before = self.content()
        for words in OPENING:
            self.fault(words, "WrongSchema")
        self.fault(["create", "car.db", "cluster.toml"], "NotEmpty")
        self.see("a register that is to be migrated stays", before, self.content())

    def is_schema_2(self, cluster, rows):
        """The file alone has the tables of schema 2 in their order, the cluster with 64 cycles, and the rows that it had."""
        self.see("whether something lies in the log", False, has_frames(self.folder))
        self.sound()
        listed = self.rows("SELECT sql FROM sqlite_schema WHERE sql IS NOT NULL ORDER BY rowid")
        self.see("the schema in the file", schema2.statements(), [schema2.plain(text) for text, in listed])
        wanted = schema2.of_cluster(cluster) | plain(rows)
        self.see("the rows in the file", wanted, {table: sorted(self.rows(f"SELECT * FROM {table}"), key=repr) for table in wanted})

    def answers(self, lines):
        """The register is opened, and its answers to these lines are as wanted."""
        with self.served("--count", str(len(lines))) as (server, port):
            for line, wanted in lines:
                key, _, text = line.partition(" ")
                got = sent(port, command(key, text.encode())).partition(b"\r\n\r\n")[2].decode()
                self.see(f"to {line:.200}", wanted, got)
            self.ends(server)

    def reports(self, register):
        """The commands print what the integrator reads."""
        for variant in *(name for name, in register.sql("SELECT name FROM variants ORDER BY name")), "nowhere":
            for report in "schedule", "gaps":
                line = f'{register.cluster["integrator"]} {{"do":"{report}","variant":"{variant}"}}'
                answer = register.told(line.encode())
                if "lines" in json.loads(answer):
                    self.tell([report, "car.db", variant], "".join(f"{it}\n" for it in json.loads(answer)["lines"]).encode())
                else:
                    self.turned_down([report, "car.db", variant], answer.encode())

    def migrates(self, register, rows, following):
        """The register of schema 1 with these rows is migrated; and then it is that of naive.py, also in what follows."""
        self.tell(WORDS)
        self.is_schema_2(cluster_of(register), rows)
        self.fault(WORDS, "WrongSchema")
        self.is_schema_2(cluster_of(register), rows)
        self.reports(register)
        self.answers([(line, register.told(line.encode())) for line in questions(register)])
        self.answers([(line, register.told(line.encode())) for line in following])


# In which kinds of files the register that was typed by hand lies.
KINDS = {
    "plain": (),
    "with_a_log": ("journal_mode = WAL",),
    "of_small_pages": ("page_size = 512",),
    "of_large_pages": ("page_size = 65536", "user_version = 7"),
}
FILES = {f"{form}_{kind}": (FORMS[form], KINDS[kind]) for form, kind in product(FORMS, KINDS)}
IN_ITS_LOG = {f"{form}_{then}": (FORMS[form], then == "tried_before") for form, then in product(FORMS, ("at_once", "tried_before"))}


class MigratingByHand(MigratingCase):
    """A register of schema 1, typed by hand, has its rows and answers in schema 2; in files of several kinds, and before that each other command is
    `WrongSchema`."""

    def is_migrated(self, rows):
        self.migrates(asked_before(CLUSTER + b"---\n" + PLANNED.encode()), rows, [line for line, _ in NEXT])

    @for_values(*FILES)
    def test_file(self, name):
        rows, pragmas = FILES[name]
        schema1.filled(self.db, rows, KEYS, pragmas)
        self.wrong_before()
        self.is_migrated(rows)

    @for_values(*IN_ITS_LOG)
    def test_log(self, name):
        """As a program leaves a register that was killed: the imports, which came last, are in the log alone."""
        rows, is_tried = IN_ITS_LOG[name]
        made = schema1.filled(self.folder / "made.db", rows | {"imports": []}, KEYS, pragmas=("journal_mode = WAL",))
        with closing(sqlite3.connect(made, isolation_level=None)) as conn:
            conn.execute("PRAGMA wal_autocheckpoint = 0")
            conn.executemany("INSERT INTO imports VALUES (?, ?, ?, ?, ?)", rows["imports"])
            for end in "", "-wal":
                shutil.copy(f"{made}{end}", f"{self.db}{end}")
        self.see("what came last is in the log alone", True, (self.folder / "car.db-wal").stat().st_size > 0)
        if is_tried:
            self.wrong_before()
        self.is_migrated(rows)

    @for_values(*FORMS)
    def test_known_answers(self, form):
        """What is told of the register once it was migrated, typed by hand."""
        schema1.filled(self.db, FORMS[form])
        self.tell(WORDS)
        for variant, cycles in ("v1", range(0, 64, 2)), ("v2", range(64)), ("v3", ()):
            self.tell(["schedule", "car.db", variant], "".join(f"{cycle:02} 0001 A f1 n1 s1\n" for cycle in cycles).encode())
        self.tell(["gaps", "car.db", "v1"], b"GAP     200 f1 s1\n")
        self.tell(IMPORT, f"{IMPORTED}\n".encode())
        layout = 'supplier01 {"do":"layout","variant":"%s","frame":"f1"}'
        self.answers([
            (layout % "v1", '{"lines":["0000 08 little x"],"ok":"layout"}'),
            (layout % "v2", '{"lines":["0000 08 little x"],"ok":"layout"}'),
            (layout % "v3", '{"no":16,"refused":"NoFrame"}'),
            *NEXT,
        ])


# A mixture with its suppliers; so many lines of it, of which so many make the register, and the others come once it is migrated.
MIXTURES = {"all": (3, 700, 480), "joining": (2, 400, 280)}


class MigratingMixtures(MigratingCase):
    """Registers after hundreds of requests answer, once migrated, as another register does; each query of each actor, and hundreds of requests more."""

    is_apart = True

    def begun(self, mix):
        """The other register after the lines of a mixture that come before the migration, and the lines that come then."""
        owners, lines, before = MIXTURES[mix]
        cluster, _, asked = random_script(mix, lines, owners, 35).partition(b"---\n")
        asked = asked.splitlines(keepends=True)
        return asked_before(cluster + b"---\n" + b"".join(asked[:before])), [line.decode().rstrip("\n") for line in asked[before:]]

    def is_migrated(self, register, rows, following):
        schema1.filled(self.db, rows, cluster_of(register))
        self.migrates(register, rows, following)

    @for_values(*MIXTURES)
    def test_copies(self, mix):
        register, following = self.begun(mix)
        self.is_migrated(register, copies(register), following)

    @for_values(*MIXTURES)
    def test_laid_over(self, mix):
        register, following = self.begun(mix)
        self.is_migrated(register, laid_over(copies(register)), following)


# ---- what is not migrated

NO_REGISTERS = {
    "another table": ["CREATE TABLE other (x INTEGER)"],
    "another table register": ["CREATE TABLE register (x INTEGER)", "INSERT INTO register VALUES (1)"],
    "a register without its number": schema1.statements(),
}

# Registers by their number, which are none by their tables, or whose cluster, suppliers or variants are those of no register.
UNAVAILABLE = [
    "DELETE FROM cluster",
    "UPDATE cluster SET channels = 'BA'",
    "UPDATE cluster SET static_slots = 1",
    "UPDATE cluster SET static_slots = -4",
    "UPDATE cluster SET macroticks_per_cycle = 101",
    "UPDATE cluster SET integrator = 'short07'",
    "UPDATE suppliers SET key = 'short07' WHERE name = 's2'",
    "UPDATE suppliers SET key = 'integrator1' WHERE name = 's2'",
    "UPDATE suppliers SET name = '2s' WHERE name = 's2'",
    "UPDATE variants SET depth = 2 WHERE name = 'v1'",
    "UPDATE variants SET parent = 'v9' WHERE name = 'v3'",
    "CREATE TABLE cluster2 (x INTEGER) STRICT",
    "CREATE TABLE other (x INTEGER) STRICT",
    "CREATE INDEX other ON nodes (name)",
    "DROP TABLE dropped",
]


class NotMigrating(MigratingCase):
    """What is not migrated has its word, and stays as it was; no register, another schema, a file that is held, rows that break their tables' rules."""

    def emptied(self):
        for end in "", "-wal", "-shm", "-journal":
            Path(f"{self.db}{end}").unlink(missing_ok=True)

    def stays(self, name, word):
        """The file gets its word, and stays as it is."""
        before = self.db.read_bytes()
        self.fault(WORDS, word)
        self.see(f"{name} stays", before, self.db.read_bytes())

    def test_no_file(self):
        self.fault(WORDS, "NotARegister")
        self.see("no file is made where none is", False, self.db.exists())
        self.fault(["migrate", "none/none.db"], "NotARegister")

    def test_no_database(self):
        self.db.write_bytes(b"")
        self.fault(WORDS, "NotARegister")
        self.see("no table is made in an empty file", [], self.rows("SELECT name FROM sqlite_schema"))
        for name, data in {"100 bytes": b"x" * 100, "zeros": bytes(8192), "a head alone": b"SQLite format 3\0"}.items():
            self.emptied()
            self.db.write_bytes(data)
            self.stays(name, "NotARegister")

    def test_no_register(self):
        for name, statements in NO_REGISTERS.items():
            self.emptied()
            schema2.made_by(self.db, *statements)
            self.stays(name, "NotARegister")

    def test_other_schemas(self):
        for number in 0, 2, 3, 7, -1:
            self.emptied()
            schema1.filled(self.db, FORMS["copies"], more=[f"UPDATE register SET schema = {number}"])
            self.stays(f"schema {number}", "WrongSchema")

    def test_schema_2(self):
        schema2.filled(self.db)
        self.stays("a register of schema 2", "WrongSchema")
        self.emptied()
        self.create()
        self.stays("a register that was made here", "WrongSchema")

    def test_unavailable(self):
        for statement in UNAVAILABLE:
            self.emptied()
            schema1.filled(self.db, FORMS["laid_over"], more=[statement])
            before = self.content()
            self.fault(WORDS, "Unavailable")
            self.see(f"after {statement} and a migration that failed", before, self.content())
            self.fault(OPENING[0], "WrongSchema")

    def test_table_register_alone(self):
        schema2.made_by(self.db, schema1.statements()[0], "INSERT INTO register VALUES (1, 1)")
        self.fault(WORDS, "Unavailable")
        self.see("a table register alone", ["register"], [name for name, in self.rows("SELECT name FROM sqlite_schema")])

    def test_broken_rules(self):
        """Rows that break their tables' rules: no database to `sqlite`."""
        for statement in "UPDATE cluster SET id = 2", "UPDATE variants SET depth = 17", "UPDATE nodes SET name = 'n9'":
            self.emptied()
            schema1.filled(self.db, FORMS["copies"])
            with closing(sqlite3.connect(self.db)) as file, file:
                file.execute("PRAGMA ignore_check_constraints = ON")
                file.execute(statement)
            self.stays(f"what {statement} breaks", "NotARegister")

    def test_held(self):
        """A register that another process holds; once that has let go it is migrated."""
        schema1.filled(self.db, FORMS["laid_over"])
        before = self.content()
        with closing(sqlite3.connect(self.db, isolation_level=None)) as other:
            other.execute("PRAGMA locking_mode = EXCLUSIVE")
            other.execute("BEGIN EXCLUSIVE")
            self.fault(WORDS, "Unavailable")
            other.execute("ROLLBACK")
        self.see("a register that was held", before, self.content())
        self.tell(WORDS)
        self.is_schema_2(KEYS, FORMS["laid_over"])
        with self.served("--count", "1"):
            self.fault(WORDS, "Unavailable")

    def test_words(self):
        """Words that name no job."""
        for given in ["migrate"], ["migrate", "car.db", "car.db"], ["migrate", "--count", "1", "car.db"]:
            status, written, said = ran(given, self.folder)
            self.see(f"{given}", (2, b"", True), (status, written, said.startswith(b"error: ") or said))
