#!/usr/bin/env python3
"""Prints what a request's instructions go to, counted by valgrind: profile.py [--program FILE]

A supplier has 4, 64 or 256 frames of 8 placements. A placement is taken back and made again, and the schedule is asked for, on
a page that is kept. Counted are the instructions of the run less those of a run without these requests, each function with
what it calls. For a change: all of it; the request's text read; the page lent; the decision, with the page amended; the
statements; their commit; the answer's text; and all of it as a multiple of statements and commit. For a schedule: all of it, the
request's text, the rows, the answer's text, and all of it as a multiple of the answer's text. It is no test."""
import argparse
import os
import re
import subprocess
import sys
import tempfile
from pathlib import Path

from turns import FRAMES, change, in_turn, plan, schedule

HERE = Path(__file__).resolve().parent
sys.path.append(str(HERE.parent))
from tests.models.random_scripts import cluster_file

# By these the C library copies and clears memory in steps of many bytes. By its string instructions, which it takes for
# more than 2,048 bytes, valgrind would count each byte as an instruction.
STEPS = "glibc.cpu.x86_rep_stosb_threshold=1073741824:glibc.cpu.x86_rep_movsb_threshold=1073741824"
COST = re.compile(r"\s*([\d,]+) \(\s*[\d.]+%\)\s+[^:]*:(.*?)(?:::<#\w+>)?(?:'\d+)?(?: \[.*)?$")
SUPPLIER = [("s0", "v0")]
CHANGES, SCHEDULES = 400, 40


def counts(program, lines, room):
    """The instructions of each function, with those of what it calls."""
    out = Path(room) / "callgrind"
    words = ["valgrind", "--tool=callgrind", f"--callgrind-out-file={out}", program, "run"]
    script = "\n".join([*cluster_file(["s0"]), *lines, ""]).encode()
    subprocess.run(words, input=script, env={**os.environ, "GLIBC_TUNABLES": STEPS}, capture_output=True, check=True)
    listed = subprocess.run(["callgrind_annotate", "--inclusive=yes", "--threshold=100", out], capture_output=True, text=True, check=True)
    found = {}
    for cost in filter(None, map(COST.match, listed.stdout.splitlines())):
        found[cost[2]] = found.get(cost[2], 0) + int(cost[1].replace(",", ""))
    return found


def each(program, before, more, room):
    """So for one of the requests."""
    with_them, without = counts(program, [*before, *more], room), counts(program, before, room)
    # A function that was renamed, or that the compiler put into its callers, would else count as nothing.
    return lambda name: (with_them[name] - without.get(name, 0)) / len(more)


def of_change(of):
    every, commit = of("fr_cli::perform::perform"), of("sqlite::connection::Connection::commit")
    applied = of("fr_store::store_records::StoreRecords::apply")
    page = of("fr_office::warm::WarmLender::lend")
    decision = of("fr_world::decision::decide") + of("fr_world::page::Page::amend")
    text, answer = of("fr_text::request_text::read_command"), of("fr_text::answer_text::write_answer")
    return [every, text, page, decision, applied - commit, commit, answer, every / applied]


def of_schedule(of):
    every, answer = of("fr_cli::perform::perform"), of("fr_text::answer_text::write_answer")
    return [every, of("fr_text::request_text::read_command"), of("fr_office::queries::show"), answer, every / answer]


def show(frames, costs):
    print(f"{frames:6}", *(f"{cost:11.0f}" for cost in costs[:-1]), f"{costs[-1]:9.2f}", flush=True)


def main():
    words = argparse.ArgumentParser(description=__doc__, formatter_class=argparse.RawDescriptionHelpFormatter)
    words.add_argument("--program", default=HERE.parent / "crates/slotplan/out/slotplan", type=Path)
    program = words.parse_args().program
    heads = ("change", "text", "page", "decision", "statements", "commit", "answer"), ("schedule", "text", "rows", "answer")
    asked = (change, CHANGES, of_change), (schedule, SCHEDULES, of_schedule)
    with tempfile.TemporaryDirectory() as room:
        for head, (asks, count, parts) in zip(heads, asked):
            print("frames", *(f"{word:>11}" for word in head), f"{'times':>9}")
            for frames in FRAMES:
                before = list(plan(["s0"], frames))
                show(frames, parts(each(program, before, in_turn(asks, SUPPLIER, count, frames), room)))


if __name__ == "__main__":
    main()
