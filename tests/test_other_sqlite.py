"""Registers' files that another SQLite has worked on: each is opened, and says what it said.

That SQLite is python3's, and the command `sqlite3` for `.dump` where it is installed. Registers of schema 1 are worked on before they are migrated, and
after."""
import os
import shutil
import sqlite3
import subprocess
from contextlib import closing

from tests.drivers.program import SECONDS, ran
from tests.drivers.registers import RegisterCase
from tests.models import schema1
from tests.runner.parameters import for_each
from tests.test_migrating import FORMS, HEADER, PLANNED

VARIANTS = "v1", "v2", "v3"
REPORTS = "schedule", "gaps"
MAKES_NONE = b"slotplan: the database is damaged, or its tables and rows make no register\n"
INDEX = "CREATE INDEX grants_by_supplier ON grants (variant, supplier)"


def carried_out(path, *statements):
    with closing(sqlite3.connect(path, isolation_level=None)) as file:
        for statement in statements:
            file.execute(statement).fetchall()


def dumped(path):
    """The text that makes the file again: its tables in the order in which they were made, and then its indexes."""
    shell = shutil.which("sqlite3")
    if shell:
        return subprocess.run([shell, str(path), ".dump"], check=True, capture_output=True, timeout=SECONDS).stdout.decode()
    with closing(sqlite3.connect(path)) as file:
        made = file.execute("SELECT type, name, sql FROM sqlite_schema WHERE sql IS NOT NULL ORDER BY type = 'index', rowid").fetchall()
        lines = [f"{sql};" for kind, _, sql in made if kind == "table"]
        for kind, name, _ in made:
            if kind == "table":
                columns = ", ".join(f"quote({column[1]})" for column in file.execute(f"PRAGMA table_info({name})"))
                lines += [f"INSERT INTO {name} VALUES ({', '.join(row)});" for row in file.execute(f"SELECT {columns} FROM {name}")]
        return "\n".join(lines + [f"{sql};" for kind, _, sql in made if kind == "index"])


def read_back(path, first="PRAGMA encoding"):
    text = dumped(path)
    path.unlink()
    with closing(sqlite3.connect(path)) as file:
        file.execute(first)
        file.executescript(text)


def vacuumed_into(path):
    other = path.with_suffix(".other")
    carried_out(path, f"VACUUM INTO '{other}'")
    os.replace(other, path)


def backed_up(path):
    other = path.with_suffix(".other")
    with closing(sqlite3.connect(path)) as file, closing(sqlite3.connect(other)) as copy:
        file.backup(copy)
    os.replace(other, path)


def by(*statements):
    return lambda path: carried_out(path, *statements)


WORK = {
    "nothing": by(),
    "a_backup": backed_up,
    "vacuum": by("VACUUM"),
    "vacuum_into": vacuumed_into,
    "a_dump": read_back,
    "reindex": by("REINDEX"),
    "analyze": by("ANALYZE"),
    "analyze_and_vacuum": by("ANALYZE", "VACUUM"),
    "analyze_and_a_dump": lambda path: (carried_out(path, "ANALYZE"), read_back(path)),
    "analyze_and_an_index_made_anew": by("ANALYZE", "DROP INDEX IF EXISTS grants_by_supplier", INDEX),
    "a_dropped_index": by("DROP INDEX IF EXISTS grants_by_supplier"),
    "a_dropped_index_and_vacuum": by("DROP INDEX IF EXISTS grants_by_supplier", "VACUUM"),
    "an_index_made_anew": by("DROP INDEX IF EXISTS grants_by_supplier", INDEX),
    "an_index_made_anew_and_vacuum": by("DROP INDEX IF EXISTS grants_by_supplier", INDEX, "VACUUM"),
}


class WorkedOnCase(RegisterCase):
    """A test with a register's file car.db, on which another SQLite works."""

    in_memory = True

    def setUp(self):
        super().setUp()
        self.path = self.folder / "car.db"
        (self.folder / "header.csv").write_bytes(HEADER)

    def told(self):
        """What the register says of itself."""
        words = ["variants", "car.db"], *([report, "car.db", variant] for report in REPORTS for variant in VARIANTS)
        return [ran(each, self.folder) for each in words]

    def says(self, wanted, what):
        self.see(f"what it says after {what}", wanted, self.told())

    def goes_on(self):
        """A change is carried out, and is there; and the file is sound."""
        self.ask(b'integrator1 {"do":"open_variant","variant":"w1"}\n', b'{"ok":"done"}\n')
        self.ask(b'supplier01 {"do":"schedule","variant":"w1"}\n', b'{"lines":[],"ok":"schedule"}\n')
        self.sound()


@for_each(WORK.items())
class WorkedOn(WorkedOnCase):
    """A register of schema 2 that was vacuumed, copied, dumped and read, or analysed, or whose index was dropped or made anew, is opened, says what it said, and is
    changed."""

    def tried(self, work):
        self.create()
        self.ask(PLANNED.encode(), b'{"ok":"done"}\n' * 6 + b'{"ok":"imported","rows":0}\n' + b'{"ok":"done"}\n' * 8)
        before = self.told()
        self.see("it says something", [0] * len(before), [status for status, *_ in before])
        work(self.path)
        self.says(before, "that")
        self.goes_on()


class MadeElsewhere(WorkedOnCase):
    """A register that another SQLite makes anew, whatever it says first of the file."""

    def setUp(self):
        super().setUp()
        self.create()
        self.ask(PLANNED.encode(), b'{"ok":"done"}\n' * 6 + b'{"ok":"imported","rows":0}\n' + b'{"ok":"done"}\n' * 8)

    def test_opened(self):
        before = self.told()
        for first in "page_size = 512", "page_size = 65536", "journal_mode = WAL", "user_version = 7":
            read_back(self.path, f"PRAGMA {first}")
            self.says(before, first)

    def test_not_opened(self):
        for first in "encoding = 'UTF-16'", "auto_vacuum = FULL", "auto_vacuum = INCREMENTAL":
            read_back(self.path, f"PRAGMA {first}")
            self.tell(["check", "--register", "car.db"], said=MAKES_NONE, status=1)
            read_back(self.path)

    def test_row_without_its_form(self):
        """The report that meets it is refused, and no check tells."""
        carried_out(self.path, "UPDATE placements SET repetition = 3")
        self.tell(["check", "--register", "car.db"])
        self.turned_down(["schedule", "car.db", "v1"], b'{"no":28,"refused":"Unavailable"}')


@for_each((f"{form}_{name}", rows, work) for form, rows in FORMS.items() for name, work in WORK.items())
class WorkedOnBefore(WorkedOnCase):
    """A register of schema 1 on which another SQLite worked, before it is migrated, after, or both, says what one says on which it didn't."""

    def migrated(self, rows, before, after):
        self.path.unlink(missing_ok=True)
        schema1.filled(self.path, rows)
        before(self.path)
        self.tell(["migrate", "car.db"])
        after(self.path)

    def tried(self, rows, work):
        self.migrated(rows, by(), by())
        plain = self.told()
        self.see("it says something", [0] * len(plain), [status for status, *_ in plain])
        for when, before, after in ("before", work, by()), ("after", by(), work), ("before and after", work, work):
            self.migrated(rows, before, after)
            self.says(plain, f"work {when} the migration")
            self.goes_on()
