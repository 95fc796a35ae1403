"""Tests of the command `slotplan-plans` over registers that scripts have made. It runs within the test, since a start of python3 takes longer
than most of what it does."""
import io
import json
from contextlib import chdir, redirect_stderr, redirect_stdout
from unittest.mock import patch

from clients.slotplan_plans.__main__ import main
from clients.slotplan_plans.sources import Source
from tests.models.messages import FIGURE_LINES

from .program import ran
from .registers import RegisterCase

REPORTS = "grants", "frames", "schedule", "gaps", "load", "rows"
EXPORTS = "export_frames", "export_placements", "export_signals"


def ended(folder, words, given=""):
    """How the command ends in a folder: its status, what it writes and what it says."""
    written, said = io.StringIO(), io.StringIO()
    try:
        with chdir(folder), redirect_stdout(written), redirect_stderr(said), patch("sys.stdin", io.StringIO(given)):
            main([*map(str, words)])
    except SystemExit as end:
        return end.code, written.getvalue(), said.getvalue()


class ClientCase(RegisterCase):
    """A test of the command in the test's folder."""

    in_memory = True

    def client(self, *words, given="", program=True):
        """How it ends."""
        return ended(self.folder, [*words, *(["--program", self.program] if program else [])], given)

    def writes(self, text, *words, given="", status=0):
        """It writes this and says nothing."""
        self.see(f"slotplan-plans {' '.join(map(str, words))}", (status, text, ""), self.client(*words, given=given))

    def stops(self, said, *words, given="", written="", program=True):
        """It ends with status 2 and this line."""
        wanted = 2, written, f"slotplan-plans: {said}\n"
        self.see(f"slotplan-plans {' '.join(map(str, words))}", wanted, self.client(*words, given=given, program=program))

    def has(self, name, text):
        (self.folder / name).write_text(text)

    def text(self, name):
        return (self.folder / name).read_text()

    def made_of(self, script, db="car.db"):
        """A register of a script; its answers count for nothing."""
        cluster, _, requests = script.partition("\n---\n")
        self.has("of.toml", f"{cluster}\n")
        self.create(db, "of.toml")
        return self.answers(requests, db)

    def answers(self, requests, db="car.db"):
        """What the register answers to these lines."""
        status, written, said = ran(["ask", db], self.folder, requests.encode())
        self.see(f"{db} is asked", (0, b""), (status, said))
        return written.decode().splitlines()


class TypedSource(Source):
    """A source that tells typed lines: of the first script's cluster and suppliers, and of one variant, `v1`."""

    key = None

    def __init__(self, channels="AB", state="open", nodes=("n1 s1",), **told):
        cluster = FIGURE_LINES.decode().replace("channels AB", f"channels {channels}").splitlines()
        self.told = {"cluster": [*cluster, "supplier s1", "supplier s2"], "variants": [f"v1 - 1 {state}"], "nodes": nodes, **told}

    def report(self, name, *variant):
        return self.told[name]


def request(key, do, **fields):
    return f"{key} {json.dumps({'do': do, **fields})}\n"


def questions(answers_to, keys):
    """Requests for all reports of all actors, first the integrator. A call answers lines; each actor has a key, the integrator's name is empty."""
    lines = lambda *asked: [json.loads(answer)["lines"] for answer in answers_to("".join(request(keys[""], do, **fields) for do, fields in asked))]
    parents = dict(line.split(" ")[:2] for line in lines(("variants", {}))[0])
    told = lines(*(("frames", {"variant": variant}) for variant in parents)) if parents else []
    frames = {variant: [line.split(" ") for line in its if line.startswith("FRAME ")] for variant, its in zip(parents, told, strict=True)}
    for supplier in sorted(keys):
        ask = lambda do, **fields: (supplier, do, fields)
        yield from (ask(do) for do in ("cluster", "variants", "nodes"))
        for variant, parent in parents.items():
            yield from (ask(do, variant=variant) for do in REPORTS)
            yield from (ask(do, variant=variant, part=part) for do in EXPORTS for part in range(2))
            yield from (ask("diff", **{"variant": variant, "from": other}) for other in {parent, min(parents)} - {"-"})
            yield from (ask("layout", variant=variant, frame=frame) for _, frame, _, holder in frames[variant] if supplier in ("", holder))
            yield from (ask("room", variant=variant, frame=frame, repetition=2) for _, frame, _, holder in frames[variant] if supplier == holder)


def asked(questions, keys):
    """The lines of questions, by these keys."""
    return "".join(request(keys[supplier], do, **fields) for supplier, do, fields in questions)
