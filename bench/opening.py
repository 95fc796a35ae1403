#!/usr/bin/env python3
"""Shows how long a register's file takes to be opened, by its rows: opening.py [--program FILE] [--runs N]

Plans of 56 suppliers are files of some 1, 5, 15 and 45 MB. A command lists the variants of each. Printed are the seconds of a processor that it takes,
less those of the same command on a register without rows, beside what comes nearest in python3's `sqlite3`, which is in C: PRAGMA integrity_check and
foreign_key_check. The least of some runs counts. The last column is how many times as long ours takes."""
import argparse
import sys
import tempfile
import time
from contextlib import closing
from pathlib import Path

from growth import Plan, register
from texts import seconds

TOP = Path(__file__).resolve().parent.parent
sys.path.append(str(TOP))
from tests.models.schema2 import connected

# How many frames each supplier has, and how many signals each of them.
SIZES = (24, 7), (142, 7), (240, 17), (240, 62)


def rows_in(path):
    with closing(connected(path)) as conn:
        tables = [name for (name,) in conn.execute("SELECT name FROM sqlite_master WHERE type = 'table'")]
        return sum(conn.execute(f"SELECT count(*) FROM {table}").fetchone()[0] for table in tables)


def opened(program, path, runs):
    """Seconds of the command that lists the variants."""
    return min(seconds([program, "variants", path], b"")[0] for _ in range(runs))


def checked(path):
    """Seconds of the checks that are nearest."""
    start = time.process_time()
    with closing(connected(path)) as conn:
        for pragma in "integrity_check", "foreign_key_check":
            conn.execute(f"PRAGMA {pragma}").fetchall()
    return time.process_time() - start


def main():
    words = argparse.ArgumentParser(description=__doc__, formatter_class=argparse.RawDescriptionHelpFormatter)
    words.add_argument("--program", default=TOP / "crates/slotplan/out/slotplan", type=Path)
    words.add_argument("--runs", type=int, default=5)
    given = words.parse_args()
    print(f"{'MB':>6} {'rows':>8} {'s':>8} {'us a row':>9} {'sqlite3, s':>11} {'times':>6}")
    with tempfile.TemporaryDirectory() as room:
        empty = opened(given.program, register(Path(room) / "empty.db", Plan(suppliers=1, frames=0, variants=1, depth=1, imports=0)), given.runs)
        for frames, signals in SIZES:
            path = register(Path(room) / f"{frames}_{signals}.db", Plan(suppliers=56, frames=frames, placements=4, signals=signals, variants=1, depth=1, imports=0))
            ours, theirs, rows = opened(given.program, path, given.runs) - empty, min(checked(path) for _ in range(given.runs)), rows_in(path)
            print(f"{path.stat().st_size / 1e6:6.1f} {rows:8,} {ours:8.2f} {ours / rows * 1e6:9.1f} {theirs:11.3f} {ours / theirs:6.1f}", flush=True)


if __name__ == "__main__":
    main()
