"""How another SQLite, that of python3, finds the rows of each statement of `fr_tables` and `fr_store`, and of the query of docs/FORMATS.md.

The schema is that of docs/FORMATS.md, the texts are those of the sources. It needs nothing built."""
import re
import sqlite3
from contextlib import closing

from tests.models.levels import LEVELS, SHOWN, frames_found
from tests.models.schema2 import statements, tables
from tests.models.sql import TEXT, sources
from tests.runner.case import Case

READ_WHOLE = {"register", "cluster", "cluster2", "suppliers", "variants"}
# Registers of an earlier schema have its row; now none is added.
LEFT_EMPTY = {"cluster"}
# `ask_and_undo` in schema_number.rt is given its text by its callers.
PASSED_ON = [("schema_number.rt", "sql")]

CALL = re.compile(r"\.(?:execute|query)\w*\(\s*(\"|\w+)")
# A text of two calls, which stands once in their file.
NAMED = re.compile(r"\bconst (\w+): &str =\s+\"")
TABLE = re.compile(r"\b(?:FROM|UPDATE|INTO) (\w+)")
SCANNED = re.compile(r"SCAN (\w+)(?: USING (?:COVERING )?INDEX \w+)?")
SOUGHT = re.compile(r"SEARCH (\w+) USING (?:COVERING INDEX|INDEX|INTEGER PRIMARY KEY) ?\w* ?\((.*)\)")


def carried_out():
    """The statements but those that make the tables, each with its file's name."""
    return [(name, text) for name, source in sources() for text in TEXT.findall(source) if not text.startswith("CREATE")]


def steps(conn, statement):
    """What SQLite says of how it would carry the statement out."""
    count = max(map(int, re.findall(r"\?(\d+)", statement)), default=0)
    return [step for *_, step in conn.execute(f"EXPLAIN QUERY PLAN {statement}", [None] * count)]


def sought(step):
    """The table, and its columns that are sought in one index; or what else SQLite says."""
    seek, scan = SOUGHT.fullmatch(step), SCANNED.fullmatch(step)
    if seek:
        return seek[1], *sorted(term.removesuffix("=?") for term in seek[2].split(" AND "))
    return f"reads {scan[1]} whole" if scan else step


def found(conn, statement):
    """How its rows are found."""
    try:
        return [sought(step) for step in steps(conn, statement)]
    except sqlite3.Error as error:
        return [f"{type(error).__name__}: {error}"]


def table_of(statement):
    """The table whose rows it finds, or adds."""
    return (TABLE.findall(statement) or ["no table"])[-1]


def wanted(statement):
    """How its rows are to be found."""
    table = table_of(statement)
    _, where, test = statement.partition(" WHERE ")
    if where:
        return [(table, *sorted(re.findall(r"(\w+) = \?\d", test)))]
    if statement.startswith("INSERT") and " SELECT " not in statement or statement.startswith("DELETE") and table in LEFT_EMPTY:
        return []
    return [f"reads {table} whole" if table in READ_WHOLE else f"seeks rows of {table}"]


def cascades(conn, tables):
    """Pairs of a table and what deletes the rows that go with one of its rows."""
    for table in tables:
        keys = {}
        for number, _, parent, column, _, _, on_delete, _ in conn.execute(f"PRAGMA foreign_key_list({table})"):
            if on_delete == "CASCADE":
                keys.setdefault((number, parent), []).append(column)
        for (_, parent), columns in keys.items():
            yield parent, f"DELETE FROM {table} WHERE " + " AND ".join(f"{column} = ?{at}" for at, column in enumerate(columns, 1))


class StatementCase(Case):
    """A test over empty tables of this schema, in memory."""

    def setUp(self):
        super().setUp()
        self.conn = self.enterContext(closing(sqlite3.connect(":memory:")))
        self.conn.execute("PRAGMA foreign_keys = ON")
        for statement in statements():
            self.conn.execute(statement)


class Statements(StatementCase):
    """Each statement seeks its rows in one key or index; it sorts nothing, and only lists of all variants and suppliers, and tables of one row, are read
    whole."""

    def test_schema(self):
        made = [text for _, source in sources() for text in TEXT.findall(source) if text.startswith("CREATE")]
        self.see("what makes the tables is that of docs/FORMATS.md", statements(), made)

    def test_all_are_found(self):
        passed_on = [(name, word) for name, source in sources() for word in CALL.findall(source) if word not in ('"', *NAMED.findall(source))]
        self.see("texts that are not found here", PASSED_ON, passed_on)

    def test_tables(self):
        added = {table_of(text) for _, text in carried_out() if text.startswith("INSERT")}
        self.see("the tables that rows are added to", set(tables()) - LEFT_EMPTY, added)

    def test_rows_that_go_too(self):
        """Those that go with a row of another table."""
        for parent, statement in cascades(self.conn, tables()):
            self.see(f"with a row of {parent}: {statement}", wanted(statement), found(self.conn, statement))

    def test_rows(self):
        with_it = {table: [] for table in tables()}
        for parent, statement in cascades(self.conn, tables()):
            with_it[parent] += wanted(statement)
        for name, statement in carried_out():
            # SQLite may tell of the rows that go with those of the table too.
            also = with_it.get(table_of(statement), [])
            self.see(f"{name}: {statement}", wanted(statement), [step for step in found(self.conn, statement) if step not in also])


class QueryOfFormats(StatementCase):
    """The query of FORMATS for what a variant shows finds what was worked out by hand; on variants of four levels, one laid over the other."""

    def test_levels(self):
        self.conn.execute("INSERT INTO suppliers VALUES ('s1', 'supplier01'), ('s2', 'supplier02')")
        for statement in LEVELS:
            self.conn.execute(statement)
        for question, lines in SHOWN.items():
            _, supplier, variant = question.split()
            frames = [line for line in lines if line.split()[0] in ("frame", "place", "signal")]
            self.see(question, frames, list(frames_found(self.conn, variant, supplier)))
