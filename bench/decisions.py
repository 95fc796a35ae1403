#!/usr/bin/env python3
"""Prints how long a placement takes to decide on a page, and the rows of an import: decisions.py [--times N]

A program, out/programs/measure_decisions, decides one placement again and again on a page of 4, 64 and 256 frames of 8 placements; the last column is that time
as part of the first. Then it builds a page of 256 frames of 4 placements anew and reads the rows of an import, and then decides
them; or leaves it at that, which is taken off. The last column there is a row's time as part of that of an import of one row,
which is a placement alone. Figures are of processor time, the least of seven runs. It is no test."""
import argparse
import sys
from pathlib import Path

from texts import seconds

TOP = Path(__file__).resolve().parent.parent
sys.path.append(str(TOP))
from tests.drivers.rattle import built

FRAMES = (4, 64, 256)
COUNTS = (1, 64, 128, 256, 512)
PLACES = 100_000
RUNS = 7


def placements(count):
    yield "frame,node,slot,channels,base,repetition"
    for row in range(count):
        yield f"f{row % 256},n1,{row // 64 + 17},A,{row % 64},64"


def place(program, frames):
    """What deciding a placement once takes on a page of so many frames."""
    runs, rests = [], []
    for _ in range(RUNS):
        used, printed = seconds([program, "place", str(PLACES), str(frames)], b"")
        if int(printed) != PLACES:
            sys.exit(f"{printed} edits in place of {PLACES}")
        runs.append(used)
        rests.append(seconds([program, "place", "0", str(frames)], b"")[0])
    return (min(runs) - min(rests)) / PLACES * 1e6


def microseconds(program, body, times):
    """What deciding the file's rows once takes, and how many edits they come to."""
    runs, rests, count = [], [], 0
    for _ in range(RUNS):
        used, printed = seconds([program, "decide", str(times)], body)
        count = int(printed)
        runs.append(used)
        rests.append(seconds([program, "read", str(times)], body)[0])
    return (min(runs) - min(rests)) / times * 1e6, count


def main():
    words = argparse.ArgumentParser(description=__doc__, formatter_class=argparse.RawDescriptionHelpFormatter)
    words.add_argument("--times", type=int, default=100)
    times = words.parse_args().times
    program = built("measure_decisions")
    print(f"{'frames':>6} {'us':>8} {'of first':>8}")
    least = None
    for frames in FRAMES:
        taken = place(program, frames)
        least = least or taken
        print(f"{frames:6} {taken:8.3f} {taken / least:8.3f}", flush=True)
    print(f"{'rows':>5} {'us':>10} {'us/row':>8} {'of one':>7}")
    one = None
    for count in COUNTS:
        body = "".join(f"{line}\n" for line in placements(count)).encode()
        taken, edits = microseconds(program, body, times)
        if edits != count:
            sys.exit(f"{edits} edits in place of {count}")
        one = one or taken
        print(f"{count:5} {taken:10.1f} {taken / count:8.2f} {taken / count / one:7.3f}", flush=True)


if __name__ == "__main__":
    main()
