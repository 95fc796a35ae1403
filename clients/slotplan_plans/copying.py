"""A copy of a register's file as it was at one moment, and the keys in it.

The copy is made by python3's SQLite, which reads the file and its log, and takes its lock as any SQLite does. So beside a server, or another program
that has the file, there is no copy, and nothing is read; and while it is made, no other program changes the file."""
import sqlite3
import tempfile
from contextlib import closing, contextmanager
from pathlib import Path

from .faults import Fault
from .keys import Keys


@contextmanager
def copied(path):
    """The path of the copy, which lies in a folder of the user's own, and is gone at the end."""
    with tempfile.TemporaryDirectory(prefix="slotplan-plans-") as folder:
        copy = Path(folder) / "register.db"
        try:
            whole(path)
            with closing(opened(path)) as file, closing(sqlite3.connect(copy)) as other:
                other.execute("PRAGMA synchronous = OFF")
                file.backup(other)
        except sqlite3.Error as fault:
            taken = "locked" in str(fault)
            raise Fault(f"{path}: {'Unavailable: a server or another program has the file' if taken else fault}") from fault
        yield copy


def whole(path):
    """Nothing, where there is a file at the path that no other SQLite left half changed."""
    if not Path(path).is_file():
        raise Fault(f"{path}: there is no such file")
    journal = Path(f"{path}-journal")
    if journal.is_file() and journal.stat().st_size:
        raise Fault(f"{path}: Unavailable: another SQLite was ended as it changed the file, and left {journal.name}")


def opened(path):
    """The file, locked, in the mode in which the program has it: beside it SQLite makes a log alone, and takes it away as it closes the file."""
    file = sqlite3.connect(f"{Path(path).absolute().as_uri()}?mode=rw", uri=True, timeout=0)
    file.execute("PRAGMA locking_mode = EXCLUSIVE")
    # (the first read takes the lock, or says that another has it; a backup would wait for it without end)
    file.execute("SELECT count(*) FROM sqlite_schema").fetchone()
    return file


def keys_in(copy):
    """The keys in a copy; none where it is no register."""
    try:
        with closing(sqlite3.connect(copy)) as file:
            (integrator,) = file.execute("SELECT integrator FROM cluster2").fetchone()
            return Keys(integrator, dict(file.execute("SELECT name, key FROM suppliers ORDER BY name")))
    except (sqlite3.Error, TypeError):
        return None
