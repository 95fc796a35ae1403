#!/usr/bin/env python3
"""Prints how long a register of schema 1 takes to be migrated, beside opening it twice: migrating.py [--program FILE] [--runs N] [--part P]

The registers are made by python3's `sqlite3`, each as large as the limits allow in one way: a variant in which 64 suppliers have 256
frames each, all cells are granted and filled, and each frame has 64 signals; 64 variants, all cells of each granted, with four frames of
each supplier; and 1,000 imports of 65,536 bytes. With --part P a Pth of those suppliers, variants and imports is there.

`slotplan migrate` is run on a copy of the file, and then, on what it made, `slotplan schedule` of a variant that is not there: it opens
the register, is refused and closes the file. Figures are of processor time, the least of some runs; what a disk takes is not in
them. The last column is the migration's time as part of that of two openings: the aim is 1 at most. The ratios hold for their machine:
they promise nothing."""
import argparse
import os
import shutil
import subprocess
import sys
import tempfile
from pathlib import Path

TOP = Path(__file__).resolve().parent.parent
sys.path.append(str(TOP))
from tests.models import schema1
from tests.models.scripts import CYCLES, FRAMES, IMPORTS, IMPORT_BYTES, LARGE, NODES, PLACEMENTS, SIGNALS, SLOTS, SUPPLIERS, VARIANTS, suppliers

MIGRATED = 0, b"", b""
OPENED = 1, b"", b'{"no":10,"refused":"NoVariant"}\n'


def held(owner):
    """The slots and channels that a supplier holds; all that there are, are parted among 64."""
    return [(slot, channel) for slot in range(1, SLOTS + 1) for channel in "AB"][owner - 1 :: SUPPLIERS]


def frames_of(variant, owner, frames, signals):
    """A supplier's grants in a variant, and so many frames, each in eight cells of its own where there are so many."""
    key = variant, f"s{owner}"
    cells = [(*cell, base) for cell in held(owner) for base in range(CYCLES)][: PLACEMENTS * frames]
    return {
        "grants": [(variant, *cell, key[1], "n1") for cell in held(owner)],
        "frames": [(*key, f"f{frame}", "n1") for frame in range(frames)],
        "placements": [(*key, f"f{at // PLACEMENTS}", *cell, CYCLES) for at, cell in enumerate(cells)],
        "signals": [(*key, f"f{frame}", f"x{at}", 31 * at, 31, 0) for frame in range(frames) for at in range(signals)],
    }


def planned(variants, owners, frames, signals):
    rows = {
        "nodes": [(f"s{owner}", f"n{node}") for owner in range(1, owners + 1) for node in range(1, NODES + 1)],
        "variants": [(f"v{variant}", None, 1, 0, 0) for variant in range(variants)],
    }
    for variant, owner in ((variant, owner) for variant in range(variants) for owner in range(1, owners + 1)):
        for table, more in frames_of(f"v{variant}", owner, frames, signals).items():
            rows.setdefault(table, []).extend(more)
    return rows


def with_imports(count):
    body = b"frame,node,slot,channels,base,repetition\n".ljust(IMPORT_BYTES, b"\n")
    return {"variants": [("v0", None, 1, 0, 0)], "imports": [("s1", f"l{at}", "v0", body, 0) for at in range(count)]}


def registers(part):
    yield "a full variant", lambda: planned(1, SUPPLIERS // part, FRAMES, SIGNALS)
    yield f"{VARIANTS // part} variants", lambda: planned(VARIANTS // part, SUPPLIERS, 4, SIGNALS // 4)
    yield f"{IMPORTS // part} imports", lambda: with_imports(IMPORTS // part)


def seconds(words, wanted):
    """The processor time of a command that ends so."""
    with subprocess.Popen(words, stdin=subprocess.DEVNULL, stdout=subprocess.PIPE, stderr=subprocess.PIPE) as child:
        said = child.stdout.read(), child.stderr.read()
        _, status, used = os.wait4(child.pid, 0)
        child.returncode = os.waitstatus_to_exitcode(status)
    if (child.returncode, *said) != wanted:
        sys.exit(f"{words}: ended with {(child.returncode, *said)} in place of {wanted}")
    return used.ru_utime + used.ru_stime


def measured(program, file):
    """The seconds of a migration, and of opening what it made."""
    copy = file.with_suffix(".copy")
    shutil.copyfile(file, copy)
    migrated = seconds([program, "migrate", copy], MIGRATED)
    return migrated, seconds([program, "schedule", copy, "nowhere"], OPENED)


def main():
    words = argparse.ArgumentParser(description=__doc__, formatter_class=argparse.RawDescriptionHelpFormatter)
    words.add_argument("--program", default=TOP / "crates/slotplan/out/slotplan", type=Path)
    words.add_argument("--runs", type=int, default=3)
    words.add_argument("--part", type=int, default=1)
    given = words.parse_args()
    print(f"{'register':16} {'rows':>9} {'MB':>6} {'migrated, s':>12} {'opened, s':>10} {'of two':>7}")
    for name, rows in registers(given.part):
        with tempfile.TemporaryDirectory() as room:
            made = rows()
            count = sum(map(len, made.values()))
            file = schema1.filled(Path(room) / "register.db", made, {**LARGE, "suppliers": suppliers(SUPPLIERS)}, ("synchronous = OFF",))
            del made
            runs = [measured(given.program, file) for _ in range(given.runs)]
            size = file.stat().st_size / 1e6
        migrated, opened = (min(each) for each in zip(*runs))
        print(f"{name:16} {count:9} {size:6.0f} {migrated:12.2f} {opened:10.2f} {migrated / opened / 2:7.2f}", flush=True)


if __name__ == "__main__":
    main()
