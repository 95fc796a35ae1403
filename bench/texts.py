#!/usr/bin/env python3
"""Prints how fast `slotplan run` reads requests and writes answers, as ratios to python3's json: texts.py [--program FILE] [--lines N] [--queries Q]

Read: a script of N requests of one kind, each under a key of nobody. Its text is read whole as a request, the register is
never asked, and one short refusal is written. The plain reader does json.loads of the same texts and writes as many
refusals. Written: Q times the schedule of one plan, as the integrator sees it, in 16,384 lines. The plain writer has the
rows in memory, puts each into words and does json.dumps of all; `slotplan` finds the rows in its register too, so its
figure is below that of writing alone. Both write the same bytes.

Figures are of processor time, the least of three runs, less that of the same script without those requests: so starting,
the cluster file and the plan do not count. Ratios are those of one run on one machine: they promise nothing."""
import argparse
import json
import os
import subprocess
import sys
import tempfile
from pathlib import Path

HERE = Path(__file__).resolve().parent
RUNS = 3
SLOTS = 128
REPORT_LINES = SLOTS * 2 * 64

CLUSTER = f"""channels = "AB"
static_slots = {SLOTS}
slot_macroticks = 10
dynamic_macroticks = 0
symbol_macroticks = 0
idle_macroticks = 10
macroticks_per_cycle = {SLOTS * 10 + 10}
payload_words = 16
integrator = "integrator1"

[suppliers]
supplier_1 = "keyforsupplier1"
---
"""

PLACED = {"variant": "variant_1", "frame": "frame_1", "slot": 17, "channels": "AB", "base": 3, "repetition": 4}
REQUESTS = {
    "open_variant": {"variant": "variant_1"},
    "release": {"variant": "variant_1"},
    "add_node": {"supplier": "supplier_1", "node": "node_1"},
    "grant": {"variant": "variant_1", "slot": 17, "channel": "A", "supplier": "supplier_1", "node": "node_1"},
    "revoke": {"variant": "variant_1", "slot": 17, "channel": "A", "supplier": "supplier_1"},
    "add_frame": {"variant": "variant_1", "frame": "frame_1", "node": "node_1"},
    "drop_frame": {"variant": "variant_1", "frame": "frame_1"},
    "place": PLACED,
    "unplace": PLACED,
    "add_signal": {"variant": "variant_1", "frame": "frame_1", "signal": "signal_1", "start": 12, "length": 8, "order": "big"},
    "drop_signal": {"variant": "variant_1", "frame": "frame_1", "signal": "signal_1"},
    "grants": {"variant": "variant_1"},
    "frames": {"variant": "variant_1"},
    "schedule": {"variant": "variant_1"},
    "gaps": {"variant": "variant_1"},
    "layout": {"variant": "variant_1", "frame": "frame_1"},
}

READER = r"""
import json, sys
encode = json.JSONEncoder(separators=(",", ":")).encode
lines = iter(sys.stdin.buffer.read().split(b"\n"))
for line in lines:
    if line == b"---":
        break
for line in lines:
    if line:
        json.loads(line.partition(b" ")[2])
        sys.stdout.buffer.write(encode({"no": 2, "refused": "UnknownKey"}).encode() + b"\n")
"""

WRITER = r"""
import json, sys
encode = json.JSONEncoder(separators=(",", ":")).encode
rows = json.load(sys.stdin)
for _ in range(int(sys.argv[1])):
    lines = [f"{cycle:02} {slot:04} {channel} {frame} {node} {supplier}" for cycle, slot, channel, frame, node, supplier in rows]
    sys.stdout.buffer.write(encode({"lines": lines, "ok": "schedule"}).encode() + b"\n")
"""


def line(key, do, **fields):
    return f"{key} {json.dumps({'do': do, **fields}, separators=(',', ':'))}\n"


def plan():
    """One variant whose every static slot is used on both channels in all 64 cycles."""
    yield line("integrator1", "open_variant", variant="v1")
    yield line("integrator1", "add_node", supplier="supplier_1", node="node_1")
    for slot in range(1, SLOTS + 1):
        for channel in "AB":
            yield line("integrator1", "grant", variant="v1", slot=slot, channel=channel, supplier="supplier_1", node="node_1")
        yield line("keyforsupplier1", "add_frame", variant="v1", frame=f"frame_{slot}", node="node_1")
        yield line("keyforsupplier1", "place", variant="v1", frame=f"frame_{slot}", slot=slot, channels="AB", base=0, repetition=1)


def seconds(words, given):
    """Processor seconds of one run, and what it wrote."""
    with tempfile.TemporaryFile() as stdin, tempfile.TemporaryFile() as stdout:
        stdin.write(given)
        stdin.seek(0)
        child = subprocess.Popen(words, stdin=stdin, stdout=stdout)
        _, status, used = os.wait4(child.pid, 0)
        child.returncode = os.waitstatus_to_exitcode(status)
        if child.returncode:
            sys.exit(f"{words[0]} ended with status {child.returncode}")
        stdout.seek(0)
        return used.ru_utime + used.ru_stime, stdout.read()


def figures(ours, theirs):
    """Of two pairs of runs, each with and without what is measured, the seconds that this takes, and what was written."""
    taken = []
    for whole, without in (ours, theirs):
        runs = [(seconds(*whole), seconds(*without)[0]) for _ in range(RUNS)]
        taken.append((min(used for (used, _), _ in runs) - min(used for _, used in runs), runs[0][0][1]))
    return taken


def show(name, count, size, ours, theirs):
    rates = (f"{count / used:12.0f} {size / used / 1e6:6.1f}" for used in (ours, theirs))
    print(f"{name:20} {count:8} {'   '.join(rates)}   {ours / theirs:6.2f}", flush=True)


def main():
    words = argparse.ArgumentParser(description=__doc__, formatter_class=argparse.RawDescriptionHelpFormatter)
    words.add_argument("--program", default=HERE.parent / "crates/slotplan/out/slotplan", type=Path)
    words.add_argument("--lines", type=int, default=50_000)
    words.add_argument("--queries", type=int, default=25)
    given = words.parse_args()
    program, reader, writer = [given.program, "run"], [sys.executable, "-c", READER], [sys.executable, "-c", WRITER]
    cluster = CLUSTER.encode()

    print(f"{'':20} {'lines':>8} {'lines/s':>12} {'MB/s':>6}   {'json lines/s':>12} {'MB/s':>6}   {'time':>6}")
    for do, fields in REQUESTS.items():
        asked = line("nobody0000", do, **fields).encode() * given.lines
        script = cluster + asked
        (ours, answers), (theirs, _) = figures(((program, script), (program, cluster)), ((reader, script), (reader, cluster)))
        if [b'"refused"' in answer for answer in answers.splitlines()] != [True] * given.lines:
            sys.exit(f"{do}: not each line is refused")
        show("read " + do, given.lines, len(asked), ours, theirs)

    planned = (CLUSTER + "".join(plan())).encode()
    done = seconds(program, planned)[1]
    queries = line("integrator1", "schedule", variant="v1").encode() * given.queries
    report = json.loads(seconds(program, planned + queries)[1].splitlines()[-1])["lines"]
    rows = json.dumps([[int(cycle), int(slot), *texts] for cycle, slot, *texts in map(str.split, report)]).encode()
    (ours, answers), (theirs, written) = figures(
        ((program, planned + queries), (program, planned)), ((writer + [str(given.queries)], rows), (writer + ["0"], rows))
    )
    if len(report) != REPORT_LINES or answers != done + written:
        sys.exit("the schedules differ")
    show("written schedule", given.queries * REPORT_LINES, len(written), ours, theirs)


if __name__ == "__main__":
    main()
