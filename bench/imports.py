#!/usr/bin/env python3
"""Prints how long an import of 512 rows takes to read, beside `csv` finding the same records alone: imports.py [--times N]

One program, out/programs/measure_imports, does both, and reads the file N times. Figures are of processor time, the least of 21 runs, less that of starting. The ratios hold for their machine: they
promise nothing."""
import argparse
import sys
from pathlib import Path

from texts import seconds

TOP = Path(__file__).resolve().parent.parent
sys.path.append(str(TOP))
from tests.drivers.rattle import built

ROWS = 512
RUNS = 21


def placements():
    yield "frame,node,slot,channels,base,repetition"
    for row in range(ROWS):
        yield f"frame_{row // 8},node_{row % 4},{row % 64 + 1},{'AB'[row % 2]},{row % 64},64"


def signals():
    yield "frame,signal,start,length,order"
    for row in range(ROWS):
        yield f"frame_{row // 8},signal_{row % 8},{row % 8 * 8},8,{('little', 'big')[row % 2]}"


def microseconds(program, counts, body, times):
    """What reading the file once takes, each way. There must be so many. The ways take turns, so that both meet the same machine."""
    taken = {what: [] for what in counts}
    for _ in range(RUNS):
        for what, count in counts.items():
            used, printed = seconds([program, what, str(times)], body)
            if int(printed) != count:
                sys.exit(f"{what}: {int(printed)} in place of {count}")
            taken[what].append((used, seconds([program, what, "0"], body)[0]))
    return [(min(used for used, _ in runs) - min(start for _, start in runs)) / times * 1e6 for runs in taken.values()]


def main():
    words = argparse.ArgumentParser(description=__doc__, formatter_class=argparse.RawDescriptionHelpFormatter)
    words.add_argument("--times", type=int, default=500)
    times = words.parse_args().times
    program = built("measure_imports")
    print(f"{'512 rows of':12} {'bytes':>8} {'rows, us':>10} {'csv, us':>10} {'time':>6}")
    for name, lines in (("placements", placements()), ("signals", signals())):
        body = "".join(f"{line}\n" for line in lines).encode()
        ours, theirs = microseconds(program, {"rows": ROWS, "records": ROWS + 1}, body, times)
        print(f"{name:12} {len(body):8} {ours:10.1f} {theirs:10.1f} {ours / theirs:6.2f}", flush=True)


if __name__ == "__main__":
    main()
