#!/usr/bin/env python3
"""Prints requests per second and peak memory of `slotplan run` beside two programs of python3: run.py [--program FILE] [--lines N] [--suppliers S] [--seed X]

The register is `tests/models/naive.py`, which answers the same script, by python3's sqlite3 in memory; its answers have to be the
same. The reader reads the same lines with python3's json and answers nothing. All run in turn, and the best of three runs
counts. Ratios are those of one run on one machine: they promise nothing."""
import argparse
import subprocess
import sys
import tempfile
import time
from pathlib import Path

HERE = Path(__file__).resolve().parent
sys.path.append(str(HERE.parent))
from tests.models.random_scripts import random_script

MIXES = ("refused", "queries", "plan", "place", "imports", "revising", "comparing", "all")
RUNS = 3

READER = r"""
import json, sys
lines = iter(sys.stdin.buffer.read().split(b"\n"))
for line in lines:
    if line == b"---":
        break
for line in lines:
    try:
        json.loads(line.partition(b" ")[2])
    except ValueError:
        pass
"""


def peak_of(process):
    """The most memory that a process has had so far, in bytes; 0 where it has ended."""
    try:
        lines = Path(f"/proc/{process}/status").read_text().splitlines()
    except OSError:
        return 0
    return next((int(line.split()[1]) * 1024 for line in lines if line.startswith("VmHWM:")), 0)


def measured(words, script, answers):
    """Seconds and bytes of peak memory of one run. The peak is asked for every few milliseconds: what the
    system tells of an ended process counts in the memory of the one that started it."""
    with open(script, "rb") as given, open(answers, "wb") as taken:
        began = time.monotonic()
        child = subprocess.Popen(words, stdin=given, stdout=taken)
        peak = 0
        while child.poll() is None:
            peak = max(peak, peak_of(child.pid))
            time.sleep(0.002)
        seconds = time.monotonic() - began
    if child.returncode:
        sys.exit(f"{words[0]} ended with status {child.returncode}")
    return seconds, peak


def best(runs):
    return min(seconds for seconds, _ in runs), max(memory for _, memory in runs)


def tally(answers):
    """How many requests were carried out, answered with lines, and refused."""
    lines = Path(answers).read_bytes().splitlines()
    done = sum(line == b'{"ok":"done"}' for line in lines)
    refused = sum(b'"refused":' in line for line in lines)
    return len(lines), done, refused


def main():
    words = argparse.ArgumentParser(description=__doc__, formatter_class=argparse.RawDescriptionHelpFormatter)
    words.add_argument("--program", default=HERE.parent / "crates/slotplan/out/slotplan", type=Path)
    words.add_argument("--lines", type=int, default=20_000)
    words.add_argument("--suppliers", type=int, default=8)
    words.add_argument("--seed", type=int, default=1)
    given = words.parse_args()
    print(f"{'mix':9} {'lines':>7} {'done':>6} {'refused':>7} {'lines/s':>9} {'MB':>6}   {'register: times':>15} {'MB':>6}   {'reader: times':>13} {'MB':>6}")
    for mix in MIXES:
        with tempfile.TemporaryDirectory() as room:
            script, answers, expected, nothing = (Path(room) / name for name in ("script", "answers", "expected", "nothing"))
            script.write_bytes(random_script(mix, given.lines, given.suppliers, given.seed))
            runs = {name: [] for name in ("ours", "register", "reader")}
            for _ in range(RUNS):
                runs["ours"].append(measured([given.program, "run"], script, answers))
                runs["register"].append(measured([sys.executable, "-m", "tests.models.naive"], script, expected))
                runs["reader"].append(measured([sys.executable, "-c", READER], script, nothing))
            if answers.read_bytes() != expected.read_bytes():
                sys.exit(f"{mix}: the answers differ from those of tests/models/naive.py")
            lines, done, refused = tally(answers)
        (seconds, memory), *others = (best(of) for of in runs.values())
        beside = "   ".join(f"{other / seconds:{width}.2f} {more / 1e6:6.1f}" for (other, more), width in zip(others, (15, 13)))
        print(f"{mix:9} {lines:7} {done:6} {refused:7} {lines / seconds:9.0f} {memory / 1e6:6.1f}   {beside}", flush=True)


if __name__ == "__main__":
    main()
