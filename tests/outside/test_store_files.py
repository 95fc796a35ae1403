"""A register in a file, made by a program over `fr_store` and read by the SQLite of python3, or made by that and opened by the program.

The program makes a register in a file, or opens the one that is there, and prints its cluster file or why there is none. What is wanted comes from
docs/FORMATS.md."""
import shutil
import sqlite3
import subprocess
from contextlib import closing

from tests.drivers.stores import SECONDS, StoreCase
from tests.models import schema1, schema2
from tests.models.schema2 import connected, filled, made_by, of_cluster
from tests.models.scripts import CLUSTER, LARGE, cluster_file, suppliers, suppliers_of
from tests.runner.parameters import for_values

# The rows that this puts into a register, each table's after those that they refer to.
PLANNED = {
    "nodes": [("s1", "n1"), ("s2", "n1")],
    "variants": [("v1", None, 1, 1, 0), ("v2", "v1", 2, 0, 1)],
    "grants": [("v1", 1, "A", "s1", "n1"), ("v1", 1, "B", "s2", "n1")],
    "frames": [("v1", "s1", "f1", "n1"), ("v1", "s1", "f2", "n1")],
    "placements": [("v1", "s1", "f1", 1, "A", 0, 64), ("v1", "s1", "f2", 1, "A", 1, 64)],
    "signals": [("v1", "s1", "f1", "x", 4, 8, 0), ("v1", "s1", "f2", "x", 4, 8, 1)],
    "imports": [("s1", "l1", "v1", b"frame,node\n", 0)],
    "dropped": [("v2", "s1", "f1")],
}

# What no register is to take, since its tables' rules forbid it.
FORBIDDEN = [
    "INSERT INTO register (id, schema) VALUES (2, 2)",
    "INSERT INTO cluster2 SELECT 2, static_slots, slot_macroticks, dynamic_macroticks, symbol_macroticks, idle_macroticks,"
    " macroticks_per_cycle, payload_words, channels, integrator, cycles FROM cluster2",
    "UPDATE cluster2 SET cycles = 7",
    "UPDATE cluster2 SET cycles = 65",
    "UPDATE cluster2 SET cycles = NULL",
    "INSERT INTO suppliers VALUES ('s3', 'supplier01')",
    "INSERT INTO nodes VALUES ('s3', 'n1')",
    "INSERT INTO variants VALUES ('v3', NULL, 17, 0, 0)",
    "INSERT INTO variants VALUES ('v3', NULL, 1, 2, 0)",
    "INSERT INTO grants VALUES ('v1', 1, 'A', 's2', 'n1')",
    "INSERT INTO grants VALUES ('v1', 2, 'A', 's1', 'n2')",
    "INSERT INTO grants VALUES ('v1', 'two', 'A', 's1', 'n1')",
    "INSERT INTO frames VALUES ('v1', 's1', 'f3', NULL)",
    "INSERT INTO placements VALUES ('v1', 's1', 'f3', 1, 'A', 0, 64)",
    "INSERT INTO signals VALUES ('v1', 's1', 'f1', 'y', 4, 8, 2)",
    "DELETE FROM nodes WHERE supplier = 's1'",
]


def printed(cluster):
    """The cluster file as the program prints it: a line for each key, `cycles` first, then one for each supplier."""
    lines = cluster_file({key: value for key, value in ({"cycles": "64"} | cluster).items() if key != "suppliers"})
    return lines + "".join(f'{name} = "{key}"\n' for name, key in sorted(suppliers_of(cluster)))


class StoreFileCase(StoreCase):
    """A test of what the program prints of a register's file, and of what SQLite finds there."""

    name = "store_files"

    def says(self, name, wanted, what, path, given="", end="close"):
        """What the program prints."""
        self.see(name, (wanted, "", 0), self.ran([what, path, end], given))

    def has(self, name, path, wanted):
        """The database is sound, its schema is that of docs/FORMATS.md, and its rows are these."""
        with closing(connected(path)) as conn:
            self.see(f"{name}: integrity", [("ok",)], conn.execute("PRAGMA integrity_check").fetchall())
            self.see(f"{name}: foreign keys", [], conn.execute("PRAGMA foreign_key_check").fetchall())
            listed = conn.execute("SELECT sql FROM sqlite_schema WHERE sql IS NOT NULL ORDER BY rowid")
            self.see(f"{name}: schema", schema2.statements(), [schema2.plain(text) for text, in listed])
            self.see(f"{name}: rows", wanted, schema2.rows(conn))

    def refuses(self, name, conn, statement, error=sqlite3.IntegrityError):
        """SQLite refuses the statement."""
        try:
            conn.execute(statement)
        except error:
            self.see(name, "refused", "refused")
        else:
            self.see(name, "refused", "carried out")

    def planned_by_sqlite(self, path):
        """SQLite writes rows into the register, finds its rules at work, and the program then opens it."""
        with closing(connected(path)) as conn:
            for table, planned in PLANNED.items():
                conn.executemany(f"INSERT INTO {table} VALUES ({','.join('?' * len(planned[0]))})", planned)
            for statement in FORBIDDEN:
                self.refuses(statement, conn, statement)
            conn.execute("DELETE FROM frames WHERE name = 'f2'")
        wanted = of_cluster(CLUSTER) | PLANNED | {table: PLANNED[table][:1] for table in ("frames", "placements", "signals")}
        for end in "leave", "close":
            self.says(f"opened after SQLite wrote, {end}", printed(CLUSTER), "open", path, end=end)
            self.has(f"planned, {end}", path, wanted)


CLUSTERS = {
    "two_suppliers": CLUSTER,
    "64_suppliers": {**LARGE, "channels": '"B"', "suppliers": suppliers(64)},
    "no_supplier": {**CLUSTER, "suppliers": "{}"},
    **{f"{count}_cycles": {**CLUSTER, "cycles": count} for count in ("8", "10", "62", "64")},
}


class MadeHere(StoreFileCase):
    """SQLite finds what `create_at` made sound, with the schema of FORMATS and the rows of a new register; where files were closed, and where not."""

    def is_made(self, kind, end):
        """The register's file."""
        path, cluster = self.folder / "made.db", CLUSTERS[kind]
        self.says("made", printed(cluster), "make", path, cluster_file(cluster), end)
        self.says("opened", printed(cluster), "open", path, end=end)
        if end == "close":
            self.has("without its log", shutil.copyfile(path, self.folder / "alone.db"), of_cluster(cluster))
        self.has("as it was left", path, of_cluster(cluster))
        self.says("opened again", printed(cluster), "open", path, end=end)
        return path

    @for_values(*CLUSTERS)
    def test_closed(self, kind):
        self.is_made(kind, "close")

    @for_values(*CLUSTERS)
    def test_left(self, kind):
        self.is_made(kind, "leave")

    @for_values("close", "leave")
    def test_planned(self, end):
        self.planned_by_sqlite(self.is_made("two_suppliers", end))


class MadeThere(StoreFileCase):
    """What SQLite makes by the statements of FORMATS opens with its cluster, whatever its pages, log and count of cycles."""

    def opens(self, cluster, pragmas=()):
        path = filled(self.folder / "there.db", cluster, pragmas=pragmas)
        self.says(f"made by SQLite {pragmas}", printed(cluster), "open", path)
        self.has(f"made by SQLite {pragmas}", path, of_cluster(cluster))
        return path

    def test_clusters(self):
        large = {**LARGE, "channels": '"A"', "suppliers": suppliers(64)}
        long = {**CLUSTER, "suppliers": f'{{{"s" * 32} = "{"k" * 64}", S_1 = "8letters"}}'}
        for cluster in large, long, *({**CLUSTER, "cycles": count} for count in ("8", "12", "62")):
            self.opens(cluster).unlink()

    def test_pragmas(self):
        for pragmas in ("page_size = 512",), ("page_size = 65536",), ("journal_mode = WAL",), ("journal_mode = TRUNCATE", "user_version = 7"):
            self.opens(CLUSTER, pragmas).unlink()

    def test_planned(self):
        self.planned_by_sqlite(self.opens(CLUSTER))


# Rows that make no cluster, in registers by their number and schema.
NO_CLUSTER = [
    "DELETE FROM cluster2",
    "UPDATE cluster2 SET channels = 'BA'",
    "UPDATE cluster2 SET static_slots = 1",
    "UPDATE cluster2 SET static_slots = -4",
    "UPDATE cluster2 SET static_slots = 4294967300",
    "UPDATE cluster2 SET payload_words = 128",
    "UPDATE cluster2 SET idle_macroticks = 11",
    "UPDATE cluster2 SET cycles = 9",
    "UPDATE cluster2 SET cycles = 63",
    "UPDATE cluster2 SET integrator = 'short07'",
    "UPDATE cluster2 SET integrator = 'supplier01'",
    "UPDATE suppliers SET name = '1s' WHERE name = 's1'",
    "UPDATE suppliers SET key = 'supplier_1' WHERE name = 's1'",
    "INSERT INTO suppliers SELECT 't' || value, 'keyof' || (100 + value) FROM (" + " UNION ALL ".join(f"SELECT {n} AS value" for n in range(63)) + ")",
]

# What makes a schema another, in registers by their number alone.
OTHER_SCHEMAS = [
    "CREATE TABLE other (x INTEGER) STRICT",
    "CREATE INDEX other ON nodes (name)",
    "CREATE VIEW other AS SELECT name FROM nodes",
    "DROP TABLE dropped",
    "DROP TABLE cluster2",
]

# Files that hold no database.
NO_DATABASES = {"no file": None, "an empty file": b"", "a hundred bytes x": b"x" * 100, "two pages of zeros": bytes(8192)}


class NotOpened(StoreFileCase):
    """`open_at` has its fault for each file that is no register; for a wrong schema or cluster, another table, a file that is held."""

    def fault(self, name, word, path):
        self.says(name, f"{word}\n", "open", path)

    def test_no_cluster(self):
        for number, statement in enumerate(NO_CLUSTER):
            self.fault(statement, "Unavailable", filled(self.folder / f"{number}.db", more=[statement]))

    def test_other_tables(self):
        for number, statement in enumerate(OTHER_SCHEMAS):
            self.fault(statement, "Unavailable", filled(self.folder / f"{number}.db", more=[statement]))
        alone = made_by(self.folder / "alone.db", schema2.statements()[0], "INSERT INTO register VALUES (1, 2)")
        self.fault("the table register alone", "Unavailable", alone)
        older = schema1.filled(self.folder / "older.db", {}, more=["UPDATE register SET schema = 2"])
        self.fault("the tables of schema 1", "Unavailable", older)

    def test_other_numbers(self):
        for schema in 0, 1, 3, 7, -1:
            self.fault(f"schema {schema}", "WrongSchema", filled(self.folder / f"{schema}.db", schema=schema))
        for schema in 1, 3:
            alone = made_by(self.folder / f"alone_{schema}.db", schema2.statements()[0], f"INSERT INTO register VALUES (1, {schema})")
            self.fault(f"schema {schema}, no other table", "WrongSchema", alone)
        older = schema1.filled(self.folder / "older.db", PLANNED)
        before = older.read_bytes()
        self.fault("a register of schema 1", "WrongSchema", older)
        self.see("a register of schema 1: its bytes", before, older.read_bytes())

    def test_no_database(self):
        for number, (name, content) in enumerate(NO_DATABASES.items()):
            path = self.folder / f"{number}.db"
            if content is not None:
                path.write_bytes(content)
            self.fault(name, "NotARegister", path)
            if content:
                self.see(f"{name}: its bytes", content, path.read_bytes())
            else:
                self.says(f"make: {name}, after an open", printed(CLUSTER), "make", path, cluster_file(CLUSTER))
                self.has(f"make: {name}, after an open", path, of_cluster(CLUSTER))

    def test_no_register(self):
        self.fault("no number", "NotARegister", filled(self.folder / "unnumbered.db", more=["DELETE FROM register"]))
        self.fault("another table", "NotARegister", made_by(self.folder / "other.db", "CREATE TABLE other (x INTEGER)"))
        named = made_by(self.folder / "named.db", "CREATE TABLE register (x INTEGER)", "INSERT INTO register VALUES (1)")
        self.fault("another table register", "NotARegister", named)

    def test_no_file(self):
        self.fault("a folder that is not there", "Unavailable", self.folder / "nowhere/there.db")
        self.fault("a folder", "Unavailable", self.folder)
        with closing(connected(filled(self.folder / "locked.db"))) as conn:
            conn.execute("BEGIN EXCLUSIVE")
            self.fault("a file that another holds", "Unavailable", self.folder / "locked.db")

    def test_held(self):
        """While the program holds the files, no other gets at them."""
        path = filled(self.folder / "held.db")
        with subprocess.Popen([self.program, "open", path, "close"], stdin=subprocess.PIPE, stdout=subprocess.PIPE, text=True) as holder:
            lines = printed(CLUSTER).splitlines(keepends=True)
            self.see("its cluster", lines, [holder.stdout.readline() for _ in lines])
            self.fault("opened a second time", "Unavailable", path)
            with closing(sqlite3.connect(path, timeout=0)) as conn:
                self.refuses("read by SQLite", conn, "SELECT * FROM register", sqlite3.OperationalError)
            holder.stdin.close()
            self.see("its end", 0, holder.wait(SECONDS))
        self.has("afterwards", path, of_cluster(CLUSTER))


class NotMade(StoreFileCase):
    """`create_at` makes no register over what is there, and leaves it as it was; in an empty file or a database with no table it makes one."""

    given = cluster_file(CLUSTER)

    def test_not_empty(self):
        for name, path in {
            "a register": filled(self.folder / "there.db"),
            "a register of schema 1": schema1.filled(self.folder / "older.db", PLANNED),
            "a table Nodes": made_by(self.folder / "nodes.db", "CREATE TABLE Nodes (x INTEGER)"),
            "a table CLUSTER2": made_by(self.folder / "cluster2.db", "CREATE TABLE CLUSTER2 (x INTEGER)"),
        }.items():
            before = path.read_bytes()
            self.says(name, "NotEmpty\n", "make", path, self.given)
            self.see(f"{name}: its bytes", before, path.read_bytes())

    def test_unavailable(self):
        other = made_by(self.folder / "other.db", "CREATE TABLE other (x INTEGER)")
        self.says("another table", "Unavailable\n", "make", other, self.given)
        with closing(connected(other)) as conn:
            self.see("another table: what is there", [("other",)], conn.execute("SELECT name FROM sqlite_schema").fetchall())
        text = self.folder / "text.db"
        text.write_bytes(b"x" * 100)
        self.says("a hundred bytes x", "Unavailable\n", "make", text, self.given)
        self.see("a hundred bytes x: they stay", b"x" * 100, text.read_bytes())
        self.says("a folder that is not there", "Unavailable\n", "make", self.folder / "nowhere/there.db", self.given)

    def test_made(self):
        (self.folder / "empty.db").touch()
        bare = made_by(self.folder / "bare.db", "CREATE TABLE other (x INTEGER)", "DROP TABLE other", "VACUUM")
        for name, path in ("an empty file", self.folder / "empty.db"), ("a database with no table", bare):
            self.says(name, printed(CLUSTER), "make", path, self.given)
            self.has(name, path, of_cluster(CLUSTER))
