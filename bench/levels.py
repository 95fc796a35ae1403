#!/usr/bin/env python3
"""Prints what a variant that keeps its differences alone costs: levels.py

A file has variant v1, in which each of 64 suppliers has 64 frames with 2 placements and 2 signals. Variants are opened from it,
in a transaction each: how long that takes and by how much the file grows, for each. Another file has 16 variants, each laid over
the one before: 64 frames of 4 placements in the first, and 4 of them changed in each of the others. Its supplier's page is read in the
first, the 4th and the 16th.

The program is out/programs/store_pages. Figures are of processor time, the least of seven runs, less that of runs that open the file and do
nothing else. No figure is promised."""
import argparse
import shutil
import sys
import tempfile
from pathlib import Path

from texts import seconds

TOP = Path(__file__).resolve().parent.parent
sys.path.append(str(TOP))
from tests.drivers.rattle import built
from tests.models.schema2 import filled
from tests.models.scripts import DEPTH, LARGE, suppliers

RUNS = 7
SUPPLIERS = 64
FRAMES = 64
OPENED = 32
ASKED = 200
CHANGED = 4


def numbers(count):
    """A table n of one column n, from 1 to the count."""
    return f"(WITH RECURSIVE n (n) AS (SELECT 1 UNION ALL SELECT n + 1 FROM n WHERE n < {count}) SELECT n FROM n)"


def frames_of(variant, count, placements, signals, base):
    """Frames of each supplier in a variant, each in a slot of its own, from this base on."""
    every = f"suppliers CROSS JOIN {numbers(count)} AS f"
    slot = "CAST(substr(suppliers.name, 2) AS INTEGER)"
    yield f"INSERT INTO frames SELECT '{variant}', suppliers.name, 'f' || f.n, 'n1' FROM {every}"
    yield (f"INSERT INTO placements SELECT '{variant}', suppliers.name, 'f' || f.n, {slot} + 64 * (p.n - 1), 'A', f.n - 1 + {base}, 64"
           f" FROM {every} CROSS JOIN {numbers(placements)} AS p")
    if signals:
        yield (f"INSERT INTO signals SELECT '{variant}', suppliers.name, 'f' || f.n, 'x' || x.n, 8 * x.n, 8, 0"
               f" FROM {every} CROSS JOIN {numbers(signals)} AS x")


def granted(variant, slots):
    return (f"INSERT INTO grants SELECT '{variant}', CAST(substr(name, 2) AS INTEGER) + 64 * (g.n - 1), 'A', name, 'n1'"
            f" FROM suppliers CROSS JOIN {numbers(slots)} AS g")


def wide(path):
    """One released variant of many suppliers."""
    rows = ["INSERT INTO nodes SELECT name, 'n1' FROM suppliers", "INSERT INTO variants VALUES ('v1', NULL, 1, 1, 0)", granted("v1", 2)]
    return filled(path, {**LARGE, "suppliers": suppliers(SUPPLIERS)}, more=[*rows, *frames_of("v1", FRAMES, 2, 2, 0)])


def deep(path):
    """Variants of one supplier, each laid over the one before."""
    rows = ["INSERT INTO nodes SELECT name, 'n1' FROM suppliers", "INSERT INTO variants VALUES ('v1', NULL, 1, 1, 0)", granted("v1", 4)]
    rows += frames_of("v1", FRAMES, 4, 0, 0)
    for at in range(2, DEPTH + 1):
        rows += [f"INSERT INTO variants VALUES ('v{at}', 'v{at - 1}', {at}, 1, 1)", granted(f"v{at}", 4), *frames_of(f"v{at}", CHANGED, 4, 0, 0)]
    return filled(path, {**LARGE, "suppliers": suppliers(1)}, more=rows)


def used(program, path, edits, asked):
    """Processor seconds of a run on a copy of the file, and how many bytes the file has after it."""
    copy = path.with_suffix(".copy")
    shutil.copy(path, copy)
    taken, _ = seconds([program, "open", copy], f"---\n{edits}---\n{asked}".encode())
    return taken, copy.stat().st_size


def least(program, path, edits="", asked=""):
    runs = [used(program, path, edits, asked) for _ in range(RUNS)]
    return min(taken for taken, _ in runs), runs[0][1]


def opening(program, path):
    before, size = least(program, path)
    after, larger = least(program, path, edits="\n\n".join(f"variant v{at} v1 2" for at in range(2, OPENED + 2)) + "\n")
    print(f"a variant opened: {1e3 * (after - before) / OPENED:.1f} ms, and {(larger - size) / OPENED / 1024:.0f} KB of {size / 1024:.0f}", flush=True)


def reading(program, path):
    before, _ = least(program, path)
    for depth in 1, 4, DEPTH:
        after, _ = least(program, path, asked=f"page s1 v{depth}\n" * ASKED)
        print(f"a page at depth {depth}: {1e6 * (after - before) / ASKED:.0f} µs, its text with it", flush=True)


def main():
    words = argparse.ArgumentParser(description=__doc__, formatter_class=argparse.RawDescriptionHelpFormatter)
    words.parse_args()
    (TOP / "out").mkdir(exist_ok=True)
    with tempfile.TemporaryDirectory(dir=TOP / "out") as room:
        room = Path(room)
        program = built("store_pages")
        opening(program, wide(room / "wide.db"))
        reading(program, deep(room / "deep.db"))


if __name__ == "__main__":
    main()
