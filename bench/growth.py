#!/usr/bin/env python3
"""Shows how each report and each change grows with a plan, and fails by name where one grows too fast: growth.py [--program FILE] [--only NAME]..

A dimension, as the frames of each supplier, is doubled twice, while all else stays. Over each plan, which is an SQLite file, a server is asked each
report, as the integrator and as a supplier, and each change. Printed is the processor time of a request in milliseconds, and how many times the one
before it is; `opening` is the start of the server. A request's time is the least of up to five. Where doubling seems to more than triple it, the
dimension is measured again, twice at most, and the least counts: other work on the machine makes a time longer, never shorter. If it still does, the
last lines name it and the status is 1. A time below 0.1 ms counts as 0.1 ms."""
import argparse
import ctypes
import json
import os
import sqlite3
import sys
import tempfile
import time
from contextlib import closing
from itertools import pairwise
from pathlib import Path
from typing import NamedTuple

HERE = Path(__file__).resolve().parent
TOP = HERE.parent
sys.path.append(str(TOP))
from tests.drivers.server import sent, started
from tests.models.messages import command, head
from tests.models.schema2 import filled
from tests.models.scripts import LARGE, suppliers

MOST, LEAST_TIME, TRIES = 3, 1e-4, 3
ASKED, FEWEST, ENOUGH = 5, 2, 1.0  # how often a request is asked; how often at least, where that takes so many seconds
CELLS = 32  # of a lane, in which something is sent: every second one
FREE = 3  # lanes of each supplier in which nothing is sent
ROWS = 32  # of a file
MOST_PLACEMENTS = 8  # of a frame


class Plan(NamedTuple):
    """What a register holds: of each supplier frames, of each of them placements and signals. Of variants that lie over one another the last is open."""

    suppliers: int = 8
    frames: int = 32
    placements: int = 2
    signals: int = 2
    variants: int = 4
    depth: int = 2
    imports: int = 4

    def lanes(self):
        return -(-self.frames * self.placements // CELLS) + FREE


# Of each dimension the plan beside it, and its sizes. Some room is left for what is added.
DIMENSIONS = {
    "frames": (Plan(suppliers=56, placements=1, signals=1), (60, 120, 240)),
    "placements": (Plan(), (2, 4, 8)),
    "signals": (Plan(), (15, 30, 60)),
    "suppliers": (Plan(), (14, 28, 56)),
    "variants": (Plan(), (13, 26, 52)),
    "depth": (Plan(variants=16), (4, 8, 16)),
    "imports": (Plan(), (240, 480, 960)),
}


# ---- a plan's rows


def lane(plan, supplier, nth):
    """The slot and channel of a supplier's lane."""
    at = supplier * plan.lanes() + nth
    return at // 2 + 1, "AB"[at % 2]


def frame_rows(plan, variant, supplier, frame, shift):
    """A frame's placements, each in a cell of its own, and its signals. There is room for a placement more of f1."""
    name = f"s{supplier + 1}"
    for nth in range(min(plan.placements, MOST_PLACEMENTS - (frame == 1))):
        row, base = divmod(frame * plan.placements + nth, CELLS)
        slot, channel = lane(plan, supplier, row)
        yield "placements", (variant, name, f"f{frame}", slot, channel, 2 * base + shift, 64)
    for nth in range(plan.signals):
        yield "signals", (variant, name, f"f{frame}", f"x{nth}", 8 * nth + shift, 8, 0)


def levels(plan):
    """The variants that lie over one another, v1 the lowest."""
    return [f"v{level + 1}" for level in range(plan.depth)]


def rows(plan):
    """Each row of the register with its table. In the variants over v1 a quarter of the frames have other placements and signals, but not
    the frame f1."""
    others = [f"w{nth}" for nth in range(plan.variants - plan.depth)]
    for nth, name in enumerate(levels(plan)):
        yield "variants", (name, f"v{nth}" if nth else None, nth + 1, int(nth + 1 < plan.depth), int(nth > 0))
    for name in others:
        yield "variants", (name, "v1", 2, 0, 1)
    for supplier in range(plan.suppliers):
        name = f"s{supplier + 1}"
        yield "nodes", (name, "n1")
        for variant in [*levels(plan), *others]:
            for nth in range(plan.lanes()):
                yield "grants", (variant, *lane(plan, supplier, nth), name, "n1")
        for frame in range(plan.frames):
            yield "frames", ("v1", name, f"f{frame}", "n1")
            yield from frame_rows(plan, "v1", supplier, frame, 0)
        for level, variant in enumerate(levels(plan)[1:], 1):
            for frame in range(2 * (level % 2), plan.frames, 4 * (plan.depth - 1)):
                yield "frames", (variant, name, f"f{frame}", "n1")
                yield from frame_rows(plan, variant, supplier, frame, 1)
    for nth in range(plan.imports):
        yield "imports", ("s1", f"kept{nth}", "v1", b"frame,node\n" + b"f0,n1\n" * 500, 500)


def register(path, plan):
    """A register's file with these rows."""
    filled(path, {**LARGE, "suppliers": suppliers(plan.suppliers)}, pragmas=["synchronous = OFF"])
    with closing(sqlite3.connect(path)) as file, file:
        for table, row in rows(plan):
            file.execute(f"INSERT INTO {table} VALUES ({','.join('?' * len(row))})", row)
    return path


# ---- what is asked


def asks(key, do, /, **fields):
    return command(key, json.dumps({"do": do, **fields}).encode())


def reports(plan):
    """Each report by its name, as the requests that are asked for it; of try there are two."""
    variant = f"v{plan.depth}"
    of_variant = ("grants", "frames", "schedule", "gaps", "load", "rows", "export_frames", "export_placements", "export_signals")
    for who, key in ("integrator", "integrator1"), ("supplier", "supplier01"):
        for do in "cluster", "variants", "nodes":
            yield f"{do}, {who}", asks(key, do)
        for do in of_variant:
            yield f"{do}, {who}", asks(key, do, variant=variant, **({"part": 0} if do.startswith("export") else {}))
        yield f"layout, {who}", asks(key, "layout", variant=variant, frame="f1")
        yield f"diff, {who}", asks(key, "diff", variant=variant, **{"from": "v1"})
        yield f"picture, {who}", head("GET", f"/v1/variants/{variant}/picture", key)
    yield "room", asks("supplier01", "room", variant=variant, frame="f1", repetition=64)
    for replace in False, True:
        yield "try" + ", replace" * replace, asks("supplier01", "try", variant=variant, replace=replace, body=file_of(plan, "more", 1))
    yield "try, whole", asks("supplier01", "try", variant=variant, replace=True, whole=True, body=file_of(plan, "more", 1))


def file_of(plan, frame, free):
    """Placements of new frames in a lane that is free, eight of each."""
    slot, channel = lane(plan, 0, plan.lanes() - free)
    placed = (f"{frame}{nth // 8},n1,{slot},{channel},{nth},64\n" for nth in range(ROWS))
    return "frame,node,slot,channels,base,repetition\n" + "".join(placed)


def frames_of(plan, more):
    """All frames of the first supplier, or one more."""
    others = [f"other{frame}" for frame in range(ROWS // 8)]
    names = [*(f"f{frame}" for frame in range(plan.frames)), *others, *["onemore"] * more]
    return "frame,node\n" + "".join(f"{name},n1\n" for name in names)


def changes(plan):
    """Each change by its name, as the requests of its nth turn: what a turn adds it takes away, where that can be."""
    variant = f"v{plan.depth}"
    slot, channel = lane(plan, 0, plan.lanes() - 3)
    at = dict(variant=variant, slot=slot, channel=channel, supplier="s1")
    _, (*_, sent_in, on, base, repetition) = next(frame_rows(plan, variant, 0, 1, 0))
    cell = dict(variant=variant, frame="f1", slot=sent_in, channels=on, base=base, repetition=repetition)
    signal = dict(variant=variant, frame="f1", signal="more")
    last = f"s{plan.suppliers}"
    integrator = lambda do, /, **fields: asks("integrator1", do, **fields)
    supplier = lambda do, /, **fields: asks("supplier01", do, **fields)
    yield "revoke and grant", lambda nth: [integrator("revoke", **at), integrator("grant", node="n1", **at)]
    yield "add_frame and drop_frame", lambda nth: [
        supplier("add_frame", variant=variant, frame="more", node="n1"), supplier("drop_frame", variant=variant, frame="more")
    ]
    yield "unplace and place", lambda nth: [supplier("unplace", **cell), supplier("place", **cell)]
    yield "add_signal and drop_signal", lambda nth: [
        supplier("add_signal", **signal, start=1000, length=8, order="little"), supplier("drop_signal", **signal)
    ]
    yield "import", lambda nth: [
        supplier("import", variant=variant, label=f"more{nth}", body=file_of(plan, "more", 1)),
        *(supplier("drop_frame", variant=variant, frame=f"more{frame}") for frame in range(ROWS // 8)),
    ]
    yield "replace", lambda nth: [supplier("replace", variant=variant, body=file_of(plan, "other", 2))]
    yield "replace, whole", lambda nth: [supplier("replace", variant=variant, body=frames_of(plan, nth % 2), whole=True)]
    yield "frames of a page that is read anew", lambda nth: [
        integrator("add_node", supplier="s1", node=f"more{nth}"), supplier("frames", variant=variant)
    ]
    yield "set_key", lambda nth: [integrator("set_key", supplier=last, key=f"anotherKey{nth}")]
    yield "add_node", lambda nth: [integrator("add_node", supplier=last, node=f"more{nth}")]
    yield "add_supplier", lambda nth: [integrator("add_supplier", supplier=f"more{nth}", key=f"keyOfMore{nth}")]
    yield "open_variant and release", lambda nth: [
        integrator("open_variant", variant=f"more{nth}", **{"from": "v1"}), integrator("release", variant=f"more{nth}")
    ]
    yield "open_variant, flat", lambda nth: [integrator("open_variant", variant=f"flat{nth}", **{"from": f"v{plan.depth - 1}"}, flat=True)]


# ---- what it takes


class Clock:
    """The processor time of a process."""

    def __init__(self, pid):
        clock = ctypes.c_int()
        if ctypes.CDLL(None).clock_getcpuclockid(pid, ctypes.byref(clock)):
            sys.exit("the system tells no processor time of another process")
        self.pid, self.clock = pid, clock.value

    def seconds(self):
        """Those so far, once it waits: it has work behind a reply too."""
        while Path(f"/proc/{self.pid}/stat").read_text().rpartition(")")[2].split()[0] != "S":
            pass
        return time.clock_gettime(self.clock)


def timed(plan):
    """Seconds of each request over this plan, by its name."""
    with tempfile.TemporaryDirectory() as folder:
        register(Path(folder) / "car.db", plan)
        with started(Path(folder), "--seconds", "3600") as (server, _, port):
            clock = Clock(server.pid)
            found = {"opening": clock.seconds()}
            for name, asked in reports(plan):
                found[name] = least(clock, port, lambda nth: [asked])
            for name, asked in changes(plan):
                found[name] = least(clock, port, asked)
    return found


def least(clock, port, asked):
    """The least time of some turns."""
    turns = []
    while len(turns) < FEWEST or len(turns) < ASKED and sum(turns) < ENOUGH:
        requests, before = asked(len(turns)), clock.seconds()
        for request in requests:
            reply = sent(port, request)
            if not reply.startswith(b"HTTP/1.1 200 "):
                sys.exit(f"a request was refused: {request!r:.200}: {reply!r:.200}")
        turns.append(clock.seconds() - before)
    return min(turns)


def too_fast(times, sizes):
    """What grows too fast, and from which size to which."""
    for name in times[sizes[0]]:
        for size, double in pairwise(sizes):
            rate = max(times[double][name], LEAST_TIME) / max(times[size][name], LEAST_TIME)
            if rate > MOST:
                yield f"{name}: {rate:.1f} times as long at {double} as at {size}"


def measured(dimension, plan, sizes):
    """The times at each size, and what grows too fast each time that it is measured."""
    times = {}
    for _ in range(TRIES):
        for size in sizes:
            new = timed(plan._replace(**{dimension: size}))
            times[size] = {name: min(taken, times.get(size, new)[name]) for name, taken in new.items()}
        if not list(too_fast(times, sizes)):
            break
    return times, list(too_fast(times, sizes))


def told(dimension, sizes, times):
    print(f"\n{dimension:36}" + "".join(f"{size:>10} {'':6}" for size in sizes))
    for name in times[sizes[0]]:
        taken = [max(times[size][name], LEAST_TIME) for size in sizes]
        rates = ["", *(f"{double / one:6.2f}" for one, double in pairwise(taken))]
        print(f"{name:36}" + "".join(f"{it * 1e3:10.2f} {rate:6}" for it, rate in zip(taken, rates)), flush=True)


def main():
    words = argparse.ArgumentParser(description=__doc__, formatter_class=argparse.RawDescriptionHelpFormatter)
    words.add_argument("--program", default=TOP / "crates/slotplan/out/slotplan", type=Path)
    words.add_argument("--only", action="append", choices=DIMENSIONS, help="of these dimensions alone")
    given = words.parse_args()
    if not os.access(given.program, os.X_OK):
        sys.exit(f"{given.program} is no program")
    os.environ["SLOTPLAN"] = str(given.program.resolve())
    grown = []
    for dimension in given.only or DIMENSIONS:
        plan, sizes = DIMENSIONS[dimension]
        times, fast = measured(dimension, plan, sizes)
        told(dimension, sizes, times)
        grown += [f"{dimension}: {it}" for it in fast]
    print("", *grown, f"{len(grown)} grow too fast", sep="\n")
    return 1 if grown else 0


if __name__ == "__main__":
    sys.exit(main())
