#!/usr/bin/env python3
"""Prints what a request costs on a page that is kept, on one that is read anew, and beside other suppliers: turns.py [--program FILE] [--requests N]

In each variant two suppliers have as many frames as the row says, each with 8 placements. One placement is taken back and
made again, in the only variant. A layout is asked for: in one of 64 variants (its page is kept), in 63 of them by both
suppliers in turn (126 pages, kept as far as they have room), and so again where each supplier gets a node before each turn,
which lets go of all its pages, so that each is read anew. Then a placement is taken back and made again by one
supplier beside 0, 15 and 63 others that have as many rows in the variant, and its schedule is asked for. The processor time
is that of the whole run less that of a run without these requests, each the least of three, in microseconds a request. Like
all of bench/, it promises nothing."""
import argparse
import json
import resource
import subprocess
import sys
from pathlib import Path

HERE = Path(__file__).resolve().parent
sys.path.append(str(HERE.parent))
from tests.models.random_scripts import cluster_file, key_of

PLACEMENTS = 8
CYCLES = 64
RUNS = 3
FRAMES = (4, 64, 256)
BESIDE = 16  # frames of each supplier where others have rows too
OTHERS = (0, 15, 63)
VARIANTS = 64


def line(key, do, **fields):
    return f"{key} {json.dumps({'do': do, **fields}, separators=(',', ':'))}"


def placement(frame, nth):
    """Each placement of each frame is one cell of its own."""
    slot, base = divmod(frame * PLACEMENTS + nth, CYCLES)
    return dict(frame=f"frame{frame}", slot=slot + 1, channels="A", base=base, repetition=CYCLES)


def processor_seconds():
    """Those of all processes that were started here and have ended."""
    return resource.getrusage(resource.RUSAGE_CHILDREN).ru_utime


def seconds_of(program, cluster, lines):
    """The least of some runs; no request may be refused."""
    script = "\n".join([*cluster, *lines]).encode()
    runs = []
    for _ in range(RUNS):
        before = processor_seconds()
        answers = subprocess.run([program, "run"], input=script, stdout=subprocess.PIPE, check=True).stdout
        runs.append(processor_seconds() - before)
        if answers.count(b"\n") != len(lines) or b"refused" in answers:
            sys.exit("a request was refused")
    return min(runs)


def plan(suppliers, frames, variant="v0"):
    """A variant in which each supplier has so many frames, each with all its placements, in slots of its own."""
    yield line("integrator1", "open_variant", variant=variant)
    slots = max(1, frames * PLACEMENTS // CYCLES)
    for nth, supplier in enumerate(suppliers):
        node = dict(supplier=supplier, node="node0")
        yield line("integrator1", "add_node", **node)
        for slot in range(slots):
            yield line("integrator1", "grant", variant=variant, slot=nth * slots + slot + 1, channel="A", **node)
        for frame in range(frames):
            yield line(key_of(supplier), "add_frame", variant=variant, frame=f"frame{frame}", node="node0")
            for place in range(PLACEMENTS):
                at = placement(frame, place)
                yield line(key_of(supplier), "place", variant=variant, **{**at, "slot": nth * slots + at["slot"]})


def copies():
    """The variant is released, and all others are opened from it."""
    yield line("integrator1", "release", variant="v0")
    for n in range(1, VARIANTS):
        yield line("integrator1", "open_variant", variant=f"v{n}", **{"from": "v0"})


def change(nth, supplier, variant, frames):
    """A placement in the middle of the plan, taken back and made again, in turn."""
    at = placement(frames // 2, 0)
    slots = max(1, frames * PLACEMENTS // CYCLES)
    fields = {**at, "slot": int(supplier[1:]) * slots + at["slot"]}
    return line(key_of(supplier), ("unplace", "place")[nth % 2], variant=variant, **fields)


def layout(_, supplier, variant, frames):
    return line(key_of(supplier), "layout", variant=variant, frame=f"frame{frames // 2}")


def schedule(_, supplier, variant, frames):
    return line(key_of(supplier), "schedule", variant=variant)


def in_turn(asked, places, count, frames):
    """So many requests, each place in turn; all places before the next request of a pair."""
    return [asked(n // len(places), *places[n % len(places)], frames) for n in range(count - count % (2 * len(places)))]


def in_turn_anew(asked, places, count, frames):
    """The same, and before each turn of the places a node for each supplier, which lets go of its pages."""
    names = sorted({supplier for supplier, _ in places})
    lines = []
    for n, asks in enumerate(in_turn(asked, places, count, frames)):
        if n % len(places) == 0:
            lines += [line("integrator1", "add_node", supplier=name, node=f"more{n}") for name in names]
        lines.append(asks)
    return lines


def each(program, names, lines, more):
    cluster = cluster_file(names)
    return (seconds_of(program, cluster, lines + more) - seconds_of(program, cluster, lines)) / len(more) * 1e6


def main():
    words = argparse.ArgumentParser(description=__doc__, formatter_class=argparse.RawDescriptionHelpFormatter)
    words.add_argument("--program", default=HERE.parent / "crates/slotplan/out/slotplan", type=Path)
    words.add_argument("--requests", type=int, default=1_008)
    given = words.parse_args()
    names = ["s0", "s1"]
    anew = [(supplier, f"v{n}") for n in range(1, VARIANTS) for supplier in names]
    print(f"{'frames':>6} {'change':>8} {'layout, kept':>13} {'of 126 pages':>13} {'read anew':>10}")
    for frames in FRAMES:
        first = list(plan(names, frames))
        lines = [*first, *copies()]
        asked = (
            (first, in_turn(change, [("s0", "v0")], given.requests, frames)),
            (lines, in_turn(layout, [("s0", "v1")], given.requests, frames)),
            (lines, in_turn(layout, anew, given.requests, frames)),
            (lines, in_turn_anew(layout, anew, given.requests, frames)),
        )
        costs = [each(given.program, names, before, more) for before, more in asked]
        print(f"{frames:6} {costs[0]:8.0f} {costs[1]:13.1f} {costs[2]:13.1f} {costs[3]:10.0f}", flush=True)
    print(f"\n{'others':>6} {'change':>8} {'ratio':>6} {'schedule':>9} {'ratio':>6}")
    alone = None
    for others in OTHERS:
        names = [f"s{n}" for n in range(others + 1)]
        lines = list(plan(names, BESIDE))
        costs = [each(given.program, names, lines, in_turn(asked, [("s0", "v0")], given.requests, BESIDE)) for asked in (change, schedule)]
        alone = alone or costs
        print(f"{others:6} {costs[0]:8.0f} {costs[0] / alone[0]:6.2f} {costs[1]:9.0f} {costs[1] / alone[1]:6.2f}", flush=True)


if __name__ == "__main__":
    main()
