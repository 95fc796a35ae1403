#!/usr/bin/env python3
"""Prints how long a register in a file takes, beside python3's `sqlite3` on the same file: store.py [--runs N]

Pages are loaded, of 4, 64 and 256 frames, each of 8 placements and 15 signals; a placement is put and ended, each in a
transaction of its own; so are 512 of them in one. Then the same page and the same edits in a register of 1 and of 64 suppliers,
of 16 frames each: in instructions, which valgrind counts.

`sqlite3` runs the statements of `fr_tables`, in as many transactions, over files of its own making, with a log. Where a page is
loaded it makes tuples of the rows, and no page. One program does our part, out/programs/measure_store.

Figures are of processor time, the least of some runs, less that of a run that does it once, in which starting, opening and closing
count too: what a disk takes is not in them. The ratios hold for their machine: they promise nothing."""
import argparse
import re
import shutil
import subprocess
import sys
import tempfile
import time
from contextlib import closing
from pathlib import Path

from texts import seconds

TOP = Path(__file__).resolve().parent.parent
sys.path.append(str(TOP))
from tests.drivers.rattle import built
from tests.models.schema2 import connected, filled
from tests.models.scripts import LARGE, suppliers
from tests.models.sql import in_table

PLACEMENTS, SIGNALS, BATCH = 8, 15, 512

ONE_VARIANT = in_table("variants", "SELECT name, parent, depth, released, overlay FROM variants WHERE")
NODES = in_table("nodes", "SELECT")
GRANTS = in_table("grants", "SELECT slot")
FRAMES = in_table("frames", "SELECT name, node FROM frames WHERE variant = ?1 AND supplier = ?2 ORDER")
PLACED, SIGNALLED = in_table("placements", "SELECT"), in_table("signals", "SELECT")
PUT, END = in_table("placements", "INSERT INTO placements (variant, supplier, frame, slot, channels, base, repetition) VALUES"), in_table("placements", "DELETE")


def register(path, owners, frames):
    """A register of so many suppliers with so many frames each in `v1`; in `v2` the first has 64 without a placement."""
    slots = max(1, frames // 8)
    rows = {table: [] for table in ("nodes", "variants", "grants", "frames", "placements", "signals")}
    rows["variants"] = [("v1", None, 1, 0, 0), ("v2", None, 1, 0, 0)]
    rows["grants"] = [("v2", slot, "B", "s1", "n1") for slot in range(1, 9)]
    rows["frames"] = [("v2", "s1", f"f{frame}", "n1") for frame in range(64)]
    for owner in range(owners):
        key = ("v1", f"s{owner + 1}")
        rows["nodes"].append((key[1], "n1"))
        rows["grants"] += [("v1", owner * slots + slot + 1, channel, key[1], "n1") for slot in range(slots) for channel in "AB"]
        for frame in range(frames):
            name, slot, base = f"f{frame}", owner * slots + frame % slots + 1, frame // slots * PLACEMENTS
            rows["frames"].append((*key, name, "n1"))
            rows["placements"] += [(*key, name, slot, "A", base + at, 64) for at in range(PLACEMENTS)]
            rows["signals"] += [(*key, name, f"x{at}", 16 * at, 16, 0) for at in range(SIGNALS)]
    filled(path, {**LARGE, "suppliers": suppliers(owners)}, pragmas=("journal_mode = WAL",))
    with closing(connected(path)) as conn:
        conn.execute("BEGIN")
        for table, made in rows.items():
            conn.executemany(f"INSERT INTO {table} VALUES ({','.join('?' * len(made[0]))})", made)
        conn.execute("COMMIT")


def load(conn, times):
    frames = []
    for _ in range(times):
        conn.execute(ONE_VARIANT, ("v1",)).fetchall()
        conn.execute(NODES, ("s1",)).fetchall()
        conn.execute(GRANTS, ("v1", "s1")).fetchall()
        frames = conn.execute(FRAMES, ("v1", "s1")).fetchall()
        for text in PLACED, SIGNALLED:
            conn.execute(text, ("v1", "s1")).fetchall()
    return len(frames)


def change(count):
    rows = [("v2", "s1", f"f{at // 8}", at // 64 % 8 + 1, "B", at % 64, 64) for at in range(count)]

    def changed(conn, times):
        for _ in range(times):
            for text in PUT, END:
                conn.execute("BEGIN")
                conn.execute(ONE_VARIANT, ("v2",)).fetchall()
                conn.executemany(text, rows)
                conn.execute("COMMIT")
        return 0

    return changed


def by_sqlite(path, do, times):
    """What this takes in seconds, once the file is open, and what it gives."""
    with closing(connected(path)) as conn:
        do(conn, 1)
        start = time.process_time()
        given = do(conn, times)
        return time.process_time() - start, given


def measured(program, what, path, times, runs, theirs):
    """Microseconds that doing this once takes us and them, on copies of the file. Both give the same."""
    whole, rest, other = [], [], []
    with tempfile.TemporaryDirectory(dir=path.parent) as room:
        mine, yours = (Path(room) / f"{whose}.db" for whose in ("mine", "yours"))
        for copy in mine, yours:
            shutil.copyfile(path, copy)
        for _ in range(runs):
            used, printed = seconds([program, what, mine, str(times)], b"")
            whole.append(used)
            rest.append(seconds([program, what, mine, "1"], b"")[0])
            taken, given = theirs(yours, times)
            other.append(taken)
            if int(printed) != given:
                sys.exit(f"{what}: {int(printed)} and {given}")
    return (min(whole) - min(rest)) / (times - 1) * 1e6, min(other) / times * 1e6


def instructions(program, what, path, times):
    """How many instructions doing this once takes us, on copies of the file."""

    def counted(times):
        with tempfile.TemporaryDirectory(dir=path.parent) as room:
            copy = shutil.copyfile(path, Path(room) / "copy.db")
            words = ["valgrind", "--tool=callgrind", "--callgrind-out-file=/dev/null", program, what, copy, str(times)]
            said = subprocess.run(words, check=True, capture_output=True, text=True).stderr
        return int(re.search(r"Collected : (\d+)", said)[1])

    return (counted(times) - counted(1)) / (times - 1)


def show(name, ours, theirs):
    print(f"{name:34} {ours:12.1f} {theirs:12.1f} {ours / theirs:7.2f}", flush=True)


def main():
    words = argparse.ArgumentParser(description=__doc__, formatter_class=argparse.RawDescriptionHelpFormatter)
    words.add_argument("--runs", type=int, default=5)
    given = words.parse_args()
    runs = given.runs
    (TOP / "out").mkdir(exist_ok=True)
    with tempfile.TemporaryDirectory(dir=TOP / "out") as room:
        room = Path(room)
        program = built("measure_store")
        for owners, frames in (1, 4), (1, 16), (1, 64), (1, 256), (64, 16):
            register(room / f"{owners}_{frames}.db", owners, frames)
        print(f"{'':34} {'us':>12} {'sqlite3, us':>12} {'time':>7}")

        def pages(owners, frames, times):
            path = room / f"{owners}_{frames}.db"
            return measured(program, "page", path, times, runs, lambda copy, times: by_sqlite(copy, load, times))

        def edits(owners, frames, what, count, times):
            path = room / f"{owners}_{frames}.db"
            return measured(program, what, path, times, runs, lambda copy, times: by_sqlite(copy, change(count), times))

        show("page of 4 frames", *pages(1, 4, 8_000))
        show("page of 64 frames", *pages(1, 64, 1_000))
        show("page of 256 frames", *pages(1, 256, 150))
        show("placement put, and ended", *edits(1, 64, "edit", 1, 4_000))
        show("512 placements put, and ended", *edits(1, 64, "batch", BATCH, 20))
        print("\nwith 64 suppliers, as part of that with 1, in instructions:")
        for name, what, times in ("page of 16 frames", "page", 101), ("placement put, and ended", "edit", 101), ("512 put, and ended", "batch", 3):
            many, one = (instructions(program, what, room / f"{owners}_16.db", times) for owners in (64, 1))
            print(f"{name:26} {many / one:7.2f}", flush=True)


if __name__ == "__main__":
    main()
