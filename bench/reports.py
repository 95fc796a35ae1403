#!/usr/bin/env python3
"""Prints what a report and a file of rows cost beside another of the same rows: reports.py [--program FILE] [--requests N]

One supplier has 256 frames of 8 placements, and every slot on both channels; one frame has 7, so that there is room for it. The variant is released, and
in a variant that was opened from it each fourth frame has another placement. The room for the frame stands beside the gaps, the load beside the grants,
the rows and an export beside the frames, the differences beside the frames of both variants. A proposal for 512 wishes of 64 frames, which keep what
they have or seek other places in all slots, stands beside the trial of as many rows. Then a file of 512 placements is sent: as a replacement,
as a trial of one, and whole, with other rows, the same rows and one row changed. It stands beside the import of as many rows into a variant without
frames. The plan is in a file, and `ask` answers the requests. The processor time is that of the whole run less that of a run without requests, each
the least of three, in milliseconds a request; beside it stands the length of its answer. Like all of bench/, it promises nothing."""
import argparse
import shutil
import subprocess
import sys
import tempfile
from pathlib import Path

from turns import CYCLES, PLACEMENTS, RUNS, line, processor_seconds

HERE = Path(__file__).resolve().parent
TOP = HERE.parent
sys.path.append(str(TOP))
from tests.models.random_scripts import FRAMES, SLOTS, cluster_file, key_of

NODE = dict(supplier="s0", node="node0")
KEY = key_of("s0")
ROWS = 512
FEW = 64  # slots, which have room for two files of so many rows
VARIANTS = 60  # into which a file is imported, once each
LONG = 10  # of how many requests one asks for the longest answer


def cell(nth, slots=SLOTS):
    """One cell of its own for each number below 64 times that of the slots: slots first, then cycles."""
    return dict(slot=nth % slots + 1, channels="A", base=nth // slots, repetition=CYCLES)


def grants(variant, slots=SLOTS):
    yield line("integrator1", "open_variant", variant=variant)
    for slot in range(1, slots + 1):
        for channel in "AB":
            yield line("integrator1", "grant", variant=variant, slot=slot, channel=channel, **NODE)


def plan():
    """The variant old with all frames, released; and new, opened from it, in which each fourth frame differs."""
    yield line("integrator1", "add_node", **NODE)
    yield from grants("old")
    for frame in range(FRAMES):
        yield line(KEY, "add_frame", variant="old", frame=f"frame{frame}", node="node0")
        for nth in range(PLACEMENTS - (frame == FRAMES - 1)):
            yield line(KEY, "place", variant="old", frame=f"frame{frame}", **cell(frame * PLACEMENTS + nth))
    yield line("integrator1", "release", variant="old")
    yield line("integrator1", "open_variant", variant="new", **{"from": "old"})
    for frame in range(0, FRAMES, 4):
        at = cell(frame * PLACEMENTS)
        yield line(KEY, "unplace", variant="new", frame=f"frame{frame}", **at)
        yield line(KEY, "place", variant="new", frame=f"frame{frame}", **{**at, "base": at["base"] + 32})


def rows(turn, moved=0):
    """A file of 512 placements of 64 frames. The next turn's has other cells; so have the last rows, where some are moved."""
    cells = (cell(row + (turn or row >= ROWS - moved) * ROWS, FEW) for row in range(ROWS))
    records = (f"frame{row // PLACEMENTS},node0,{at['slot']},A,{at['base']},{CYCLES}" for row, at in enumerate(cells))
    return "".join(f"{it}\n" for it in ("frame,node,slot,channels,base,repetition", *records))


def own_rows():
    """A file of the placements that 64 frames have in the variant old."""
    records = (f"frame{row // PLACEMENTS},node0,{at['slot']},A,{at['base']},{CYCLES}" for row, at in enumerate(map(cell, range(ROWS))))
    return "".join(f"{it}\n" for it in ("frame,node,slot,channels,base,repetition", *records))


def wishes(repetition):
    """A file of as many wishes of these frames."""
    return "".join(f"{it}\n" for it in ("frame,node,channels,repetition", *(f"frame{row // PLACEMENTS},node0,A,{repetition}" for row in range(ROWS))))


def reports(count):
    """Of each report, the requests for it, and the name of the one that it stands beside."""
    new = dict(variant="new")
    room = dict(new, frame=f"frame{FRAMES - 1}")
    asked = {
        "gaps": ("gaps", new),
        "room, repetition 1": ("room", dict(room, repetition=1)),
        "room, repetition 64": ("room", dict(room, repetition=CYCLES)),
        "grants": ("grants", new),
        "load": ("load", new),
        "frames": ("frames", new),
        "rows": ("rows", new),
        "differences": ("diff", {**new, "from": "old"}),
        "export of placements": ("export_placements", dict(new, part=0)),
        "trial of 512 rows": ("try", dict(new, body=own_rows(), replace=True)),
        "proposal, kept": ("propose", dict(new, body=wishes(CYCLES), replace=True)),
        "proposal, sought": ("propose", dict(new, body=wishes(CYCLES // 2), replace=True)),
    }
    beside = {"room": "gaps", "load": "grants", "rows": "frames", "differences": "frames", "export": "frames", "proposal": "trial of 512 rows"}
    for name, (do, fields) in asked.items():
        asks = count // LONG if fields.get("repetition") == CYCLES or "body" in fields else count
        yield name, beside.get(name.split()[0].strip(",")), [line(KEY, do, **fields)] * asks


def files():
    """A file of rows, sent in each way, and the name of the way that it stands beside."""
    yield "import of 512 rows", None, [line(KEY, "import", variant=f"v{n}", label=f"a{n}", body=rows(0)) for n in range(VARIANTS)]
    yield "replacement", "import of 512 rows", [line(KEY, "replace", variant="v0", body=rows(n % 2)) for n in range(VARIANTS)]
    yield "trial", "import of 512 rows", [line(KEY, "try", variant="v0", body=rows(0), replace=True)] * VARIANTS
    whole = [line(KEY, "replace", variant="v0", body=body, whole=True) for body in (rows(0), rows(1), rows(0, 1))]
    yield "whole, other rows", "import of 512 rows", [whole[n % 2] for n in range(VARIANTS)]
    yield "whole, the same rows", "import of 512 rows", [whole[0]] * VARIANTS
    yield "whole, one row changed", "import of 512 rows", [whole[n % 2 * 2] for n in range(VARIANTS)]


class Table:
    """A row for each request, and what it cost beside another one of the table."""

    def __init__(self, program, folder, lines):
        self.program, self.folder, self.found = program, folder, {}
        (folder / "cluster.toml").write_text("\n".join(cluster_file(["s0"])[:-1]))
        subprocess.run([program, "create", folder / "plan.db", folder / "cluster.toml"], check=True)
        self.asked(folder / "plan.db", lines)
        self.alone = self.least([])[0]

    def asked(self, file, lines):
        """The answers; no request may be refused."""
        answers = subprocess.run([self.program, "ask", file], input="\n".join(lines).encode(), stdout=subprocess.PIPE, check=True).stdout
        if answers.count(b"\n") != len(lines) or b'"refused"' in answers:
            sys.exit("a request was refused")
        return answers.splitlines()

    def least(self, lines):
        """The least processor time of some runs, each on a copy of the plan, and the answers."""
        runs = []
        for _ in range(RUNS):
            copy = shutil.copyfile(self.folder / "plan.db", self.folder / "copy.db")
            before = processor_seconds()
            answers = self.asked(copy, lines)
            runs.append(processor_seconds() - before)
        return min(runs), answers

    def row(self, name, beside, asks):
        seconds, answers = self.least(asks)
        each = self.found[name] = (seconds - self.alone) / len(asks)
        other = self.found.get(beside)
        print(f"{name:24} {len(answers[0]):7} {each * 1e3:9.2f} {f'{each / other:6.2f}' if other else ''}", flush=True)


def main():
    words = argparse.ArgumentParser(description=__doc__, formatter_class=argparse.RawDescriptionHelpFormatter)
    words.add_argument("--program", default=HERE.parent / "crates/slotplan/out/slotplan", type=Path)
    words.add_argument("--requests", type=int, default=500)
    given = words.parse_args()
    print(f"{'request':24} {'bytes':>7} {'ms':>9} {'times':>6}")
    few = [line("integrator1", "add_node", **NODE), *(it for n in range(VARIANTS) for it in grants(f"v{n}", FEW))]
    for lines, rows_of in (plan(), reports(given.requests)), (few, files()):
        with tempfile.TemporaryDirectory(dir=TOP / "out") as folder:
            table = Table(given.program.resolve(), Path(folder), list(lines))
            for name, beside, asks in rows_of:
                table.row(name, beside, asks)


if __name__ == "__main__":
    main()
