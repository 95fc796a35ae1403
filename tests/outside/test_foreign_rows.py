"""Registers in files whose rows another hand changed, so that they have not their form or make no page, opened by a program over `fr_store`."""
from contextlib import closing

from tests.drivers.stores import PageCase
from tests.models.schema2 import connected, filled
from tests.runner.parameters import for_values

PLANNED = [
    "INSERT INTO nodes VALUES ('s1', 'n1'), ('s2', 'n2')",
    "INSERT INTO variants VALUES ('v1', NULL, 1, 1, 0), ('v2', 'v1', 2, 0, 0)",
    "INSERT INTO grants VALUES ('v1', 1, 'A', 's1', 'n1'), ('v1', 1, 'B', 's2', 'n2'), ('v2', 2, 'B', 's1', 'n1')",
    "INSERT INTO frames VALUES ('v1', 's1', 'f1', 'n1'), ('v1', 's2', 'f2', 'n2')",
    "INSERT INTO placements VALUES ('v1', 's1', 'f1', 1, 'A', 0, 64), ('v1', 's2', 'f2', 1, 'B', 0, 64)",
    "INSERT INTO signals VALUES ('v1', 's1', 'f1', 'x', 0, 8, 0)",
    "INSERT INTO imports VALUES ('s1', 'l1', 'v1', x'00', 1)",
]

# What the register tells before any row is changed.
TOLD = {
    "page s1 v1": ["s1 v1 true", "node n1", "grant 1 A n1", "frame f1 n1", "place f1 1 A 0 64", "signal f1 x 0 8 little"],
    "page s2 v1": ["s2 v1 true", "node n2", "grant 1 B n2", "frame f2 n2", "place f2 1 B 0 64"],
    "page s1 v2": ["s1 v2 false", "node n1", "grant 2 B n1"],
    "variants": ["variant v1 - 1 true", "variant v2 v1 2 false"],
    "nodes s1": ["node n1"],
    "nodes s2": ["node n2"],
    "holder v1 1 A": ["holder s1 n1"],
    "holder v1 1 B": ["holder s2 n2"],
    "import s1 l1": ["imports 1", "import v1 1 1"],
}

HERE = ["page s1 v1"]
BOTH = ["page s1 v1", "page s1 v2", "nodes s1"]
HELD = ["page s1 v1", "holder v1 1 A"]
# Where a name of the supplier stands: its node's, its frame's.
NODE = [("nodes", "name"), ("grants", "node"), ("frames", "node")]
FRAME = [("frames", "name"), ("placements", "frame"), ("signals", "frame")]


def renamed(columns, name):
    """The name is another wherever it stands, so that the tables' rules stay met."""
    return ";".join(f"UPDATE {table} SET {column} = {name} WHERE supplier = 's1'" for table, column in columns)


def many(table, count, row):
    """Rows that a number from 1 makes."""
    numbers = " UNION ALL ".join(f"SELECT {number} AS n" for number in range(1, count + 1))
    return f"INSERT INTO {table} SELECT {row} FROM ({numbers})"


# What is changed within the tables' rules, and what is then Unavailable.
CHANGES = [
    (renamed(NODE, "'1n'"), [*BOTH, *HELD]),
    (renamed(NODE, "''"), [*BOTH, *HELD]),
    (renamed(NODE, "'n' || char(10)"), [*BOTH, *HELD]),
    (renamed(NODE, "'" + "n" * 33 + "'"), [*BOTH, *HELD]),
    ("UPDATE grants SET slot = 0 WHERE variant = 'v1' AND supplier = 's1'", HERE),
    ("UPDATE grants SET slot = 1024 WHERE variant = 'v1' AND supplier = 's1'", HERE),
    ("UPDATE grants SET slot = 4294967297 WHERE variant = 'v1' AND supplier = 's1'", HERE),
    ("UPDATE grants SET channel = 'AB' WHERE variant = 'v1' AND supplier = 's1'", HERE),
    ("DELETE FROM grants WHERE variant = 'v1' AND supplier = 's1'", HERE),
    (renamed(FRAME, "'f-1'"), HERE),
    ("INSERT INTO nodes VALUES ('s1', 'n9'); UPDATE frames SET node = 'n9' WHERE supplier = 's1'", HERE),
    ("UPDATE placements SET channels = 'BA' WHERE supplier = 's1'", HERE),
    ("UPDATE placements SET channels = 'AB' WHERE supplier = 's1'", HERE),
    ("UPDATE placements SET slot = -1 WHERE supplier = 's1'", HERE),
    ("UPDATE placements SET slot = 2 WHERE supplier = 's1'", HERE),
    ("UPDATE placements SET base = 64 WHERE supplier = 's1'", HERE),
    ("UPDATE placements SET repetition = 3 WHERE supplier = 's1'", HERE),
    ("UPDATE placements SET repetition = 4294967360 WHERE supplier = 's1'", HERE),
    ("INSERT INTO placements VALUES ('v1', 's1', 'f1', 1, 'A', 0, 2)", HERE),
    (many("placements", 8, "'v1', 's1', 'f1', 1, 'A', n, 64"), HERE),
    (many("frames", 256, "'v1', 's1', 'g' || n, 'n1'"), HERE),
    (many("nodes", 64, "'s1', 'm' || n"), ["page s1 v1", "page s1 v2"]),
    ("UPDATE signals SET name = 'x y'", HERE),
    ("UPDATE signals SET start = -1", HERE),
    ("UPDATE signals SET start = 9", HERE),
    ("UPDATE signals SET length = 0", HERE),
    ("UPDATE signals SET length = 65", HERE),
    ("INSERT INTO signals VALUES ('v1', 's1', 'f1', 'y', 7, 1, 0)", HERE),
    ("UPDATE imports SET variant = 'v 1'", ["import s1 l1"]),
    ("UPDATE imports SET rows = -1", ["import s1 l1"]),
    # Then v2 shows the frame of v1, which is placed in a slot that its node is not granted in v2.
    ("UPDATE variants SET overlay = 1 WHERE name = 'v2'", ["page s1 v2"]),
]

# Variants that cannot have been opened one from the other: then all is Unavailable.
UNOPENED = [
    "UPDATE variants SET name = 'v 1' WHERE name = 'v1'",
    "UPDATE variants SET parent = '' WHERE name = 'v2'",
    "UPDATE variants SET parent = 'v9' WHERE name = 'v2'",
    "UPDATE variants SET parent = 'v2' WHERE name = 'v2'",
    "UPDATE variants SET parent = CASE name WHEN 'v1' THEN 'v2' ELSE 'v1' END",
    "UPDATE variants SET parent = NULL WHERE name = 'v2'",
    "UPDATE variants SET released = 0 WHERE name = 'v1'",
    *(f"UPDATE variants SET depth = {depth} WHERE name = 'v2'" for depth in (1, 3)),
    "UPDATE variants SET depth = 2 WHERE name = 'v1'",
    "UPDATE variants SET overlay = 1, parent = 'v9' WHERE name = 'v2'",
    "UPDATE variants SET overlay = 1, parent = 'v2' WHERE name = 'v2'",
    "UPDATE variants SET overlay = 1, parent = CASE name WHEN 'v1' THEN 'v2' ELSE 'v1' END",
    many("variants", 63, "'w' || n, NULL, 1, 0, 0"),
]

# What breaks the tables' rules: then the file is not opened either.
BROKEN = [
    *(f"UPDATE variants SET depth = {depth} WHERE name = 'v2'" for depth in (-1, 0, 17)),
    "UPDATE variants SET released = 2 WHERE name = 'v2'",
    "UPDATE variants SET overlay = 2 WHERE name = 'v2'",
    "UPDATE signals SET big = 2",
    "UPDATE nodes SET name = 'n9' WHERE supplier = 's1'",
    "UPDATE grants SET node = 'n9' WHERE variant = 'v1' AND supplier = 's1'",
    "UPDATE grants SET supplier = '1s' WHERE variant = 'v1' AND supplier = 's1'",
    "UPDATE frames SET node = 'n9' WHERE supplier = 's1'",
    "DELETE FROM frames WHERE supplier = 's1'",
    "INSERT INTO placements VALUES ('v1', 's1', 'f9', 1, 'A', 1, 64)",
    "INSERT INTO signals VALUES ('v1', 's1', 'f9', 'x', 0, 1, 0)",
    "UPDATE cluster2 SET cycles = 6",
    "UPDATE cluster2 SET cycles = 66",
]

# Counts of cycles that the repetition of the placements, 64, does not divide: then pages with a placement are Unavailable.
COUNTS = (8, 32, 62)
PLACED = ["page s1 v1", "page s2 v1"]


def changed(path, statements):
    """A register that `sqlite3` makes and then changes, with no rule of its tables at work."""
    filled(path, more=PLANNED)
    with closing(connected(path)) as conn:
        for rule in "foreign_keys = OFF", "ignore_check_constraints = ON":
            conn.execute(f"PRAGMA {rule}")
        conn.executescript(statements)
    return path


def keeps_rules(path):
    """Whether `sqlite3` finds the tables' rules met."""
    with closing(connected(path)) as conn:
        return (conn.execute("PRAGMA integrity_check").fetchall(), conn.execute("PRAGMA foreign_key_check").fetchall()) == ([("ok",)], [])


def content(path):
    with closing(connected(path)) as conn:
        return list(conn.iterdump())


class ForeignRows(PageCase):
    """Where a row without its form is met, the register is `Unavailable`; what meets none is told as before, and the file stays."""

    def answers(self, name, path, question):
        lines = "".join(f"{line}\n" for line in [f"> {question}", *TOLD[question]])
        self.see(f"{name}: {question}", (lines, "", 0), self.asked(path, question))

    def test_as_planned(self):
        for number, question in enumerate(TOLD):
            self.answers("as planned", filled(self.folder / f"{number}.db", more=PLANNED), question)

    def test_changed(self):
        for number, (statements, unavailable) in enumerate(CHANGES):
            path = changed(self.folder / f"{number}.db", statements)
            before = content(path)
            self.see(f"{statements}: the rules are met", True, keeps_rules(path))
            for question in unavailable:
                self.refuses(statements, path, question)
            for question in "page s2 v1", "holder v1 1 B":
                self.answers(statements, path, question)
            self.see(f"{statements}: the file stays", True, content(path) == before)

    @for_values(*COUNTS)
    def test_cycles(self, count):
        path = changed(self.folder / "counted.db", f"UPDATE cluster2 SET cycles = {count}")
        for question in TOLD:
            (self.refuses if question in PLACED else self.answers)(f"{count} cycles", path, question)


class ForeignVariants(PageCase):
    """Where variants cannot have been opened one from the other all is `Unavailable`, and where rows break their tables' rules `NotARegister`; the file stays."""

    def is_refused(self, changes, fault, keeps):
        for number, statements in enumerate(changes):
            path = changed(self.folder / f"{number}.db", statements)
            before = content(path)
            self.see(f"{statements}: the rules are met", keeps, keeps_rules(path))
            for question, edits in ("page s1 v1", ""), ("page s1 v2", ""), ("variants", ""), ("nodes s1", "node s1 n2\n"):
                self.refuses(statements, path, question, edits, fault)
            self.see(f"{statements}: the file stays", True, content(path) == before)

    def test_unopened(self):
        self.is_refused(UNOPENED, "Unavailable", True)

    def test_broken_rules(self):
        self.is_refused(BROKEN, "NotARegister", False)

    def test_wrong_kind(self):
        """A text where a number belongs, written while the table's statement was another."""
        path = filled(self.folder / "kind.db", more=PLANNED)
        for strict, other in (" STRICT", ""), ("", " STRICT"):
            with closing(connected(path)) as conn:
                conn.execute("PRAGMA writable_schema = ON")
                text, = conn.execute("SELECT sql FROM sqlite_schema WHERE name = 'signals'").fetchone()
                conn.execute("UPDATE sqlite_schema SET sql = ? WHERE name = 'signals'", (text.rstrip().removesuffix(strict.strip()).rstrip() + other,))
            if strict:
                with closing(connected(path)) as conn:
                    conn.execute("UPDATE signals SET start = 'four'")
        self.refuses("a text where a number belongs", path, "page s1 v1", fault="NotARegister")
