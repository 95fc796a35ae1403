"""The command `adopt`: the next release of a description comes into a variant; what was planned there meanwhile stays."""
import csv
import os
from dataclasses import replace
from itertools import groupby
from pathlib import Path

from ..arranging import send, steps_to
from ..comparing import differences
from ..faults import Fault
from ..files import made, written
from ..plan import FIGURES, Grant, Node
from ..reading import read
from ..words import add_source, source_of
from .described import add_reading, described
from .folder import names_of
from .handing import Handed
from .merging import Merged

KINDS = {"FRAME": "frames", "AT": "placements", "SIGNAL": "signals"}


def add_commands(commands):
    parser = commands.add_parser("adopt", help=adopt.__doc__, description=adopt.__doc__)
    parser.set_defaults(work=adopt)
    parser.add_argument("file", metavar="IN", help="the description's next release")
    add_source(parser, supplier=False)
    parser.add_argument("--part", metavar="FILE", action="append", default=[], help="another file of a description that has several")
    parser.add_argument("--since", metavar="FILE", action="append", default=[], help="the last release; what the variant changed of it stays")
    parser.add_argument("--do", metavar="FOLDER", help="send nodes and grants, with --key, and write suppliers' files to this folder")
    add_reading(parser)


def adopt(given):
    """Says what the next release of a description has otherwise than a variant, by supplier and kind; with --do it carries that out."""
    source, words = source_of(given, asked=True), described(given)
    plan = read(source, given.variant)
    if plan.reader:
        raise Fault(f"the key is of {plan.reader}: a description is the integrator's")
    if plan.variant.is_released:
        raise Fault(f"{given.variant} is released; open a variant from it, and adopt the file there")
    proposal = words.proposed([given.file, *given.part], given.variant)
    before = words.proposed(given.since, given.variant).plan if given.since else None
    adopted = Adopted(plan, proposal, words.names, before)
    if given.do and os.path.lexists(given.do):
        raise Fault(f"{given.do} is there already; name another folder, or move it away")
    print("".join(f"{line}\n" for line in adopted.told()), end="")
    if given.do:
        if source.key:
            send(source, given.variant, adopted.ahead, told=False)
        adopted.write(given.do)
    print(f"{adopted.counts()}{adopted.left_to_do(given.do, source.key)}")
    return 1 if adopted.open else 0


class Adopted:
    """What a file's next release makes of a variant: `steps` are the integrator's, and `now` is the plan of what suppliers can send behind those that
    are `ahead`."""

    def __init__(self, plan, proposal, known, before=None):
        self.plan, self.proposal = plan, proposal
        self.merged = Merged(plan, proposal, known, before)
        wanted = self.merged.plan
        self.steps = steps_to(plan, [(0, node) for node in wanted.nodes], [(0, grant) for grant in wanted.grants])
        self.ahead = [step for step in self.steps if not step.why]
        self.now, self.waiting = self.sendable(wanted)
        self.figures = self.of_figures()

    def of_figures(self):
        """The figures that the file has otherwise: no request changes them."""
        mine, theirs = self.plan.cluster, self.proposal.plan.cluster
        pairs = [("channels", mine.channels, theirs.channels), *((key, mine.figures[key], theirs.figures[key]) for key in FIGURES)]
        return [f"{sign} {key} {value}" for key, *values in pairs if values[0] != values[1] for sign, value in zip("-+", values)]

    def sendable(self, wanted):
        """The plan without the placements whose slots are not yet the node's, and the lines of these."""
        held = {grant.lane: Node(grant.supplier, grant.node) for grant in self.plan.grants}
        for step in self.ahead:
            if isinstance(step.row, Grant):
                held |= {step.row.lane: Node(step.row.supplier, step.row.node) if step.sign == "+" else None}
        frames = []
        for frame in wanted.frames:
            node = Node(frame.supplier, frame.node)
            has = [it for it in frame.placements if all(held.get((it.slot, channel)) == node for channel in it.channels)]
            frames.append(replace(frame, placements=tuple(has)))
        now = replace(wanted, frames=tuple(frames))
        return now, [line for line in differences(now, wanted) if line.startswith("+ AT")]

    @property
    def open(self):
        """What stays to be done by people, or by another call."""
        return [*self.figures, *(step for step in self.steps if step.why), *self.waiting, *self.merged.both, *self.merged.held]

    def changes(self):
        """The rows of suppliers that differ, as lines."""
        return [line for line in differences(self.plan, self.merged.plan) if not line[2:].startswith("GRANT")]

    def told(self):
        """What differs, the integrator's first, then each supplier's by kind; then what stays of the variant, and what waits."""
        yield from (f"cluster: {line}" for line in self.figures)
        for kind, name in (Node, "nodes"), (Grant, "grants"):
            rows = [step for step in self.ahead if isinstance(step.row, kind)]
            yield from headed(f"integrator, {name}", [str(step) for step in rows])
        place = lambda line: (line.rpartition(" ")[2], list(KINDS).index(line.split(" ")[1]))
        for (supplier, kind), lines in groupby(sorted(self.changes(), key=place), key=place):
            yield from headed(f"{supplier}, {list(KINDS.values())[kind]}", list(lines))
        yield from (f"kept: {line}" for line in differences(self.proposal.plan, self.merged.plan) if not line[2:].startswith("GRANT"))
        yield from (f"both: {line}" for line in self.merged.both)
        yield from (f"held: {line}" for line in self.merged.held)
        yield from (f"waits: {step}" for step in self.steps if step.why)
        yield from (f"waits: {line}: the slot is not the node's yet" for line in self.waiting)

    def counts(self):
        return f"integrator: {len(self.ahead)}, suppliers: {len(self.changes())}, open: {len(self.open)}"

    def left_to_do(self, done, key):
        if not self.ahead and not self.changes():
            return ""
        if not done:
            return "; nothing was sent: --do FOLDER carries it out"
        return "" if key or not self.ahead else "; nodes and grants were not sent: --key sends them"

    def write(self, folder):
        """Makes a folder with the new names, and each supplier's files."""
        folder = Path(folder)
        made(folder)
        with written(folder / "names.csv") as file:
            csv.writer(file, lineterminator="\n").writerows(names_of(self.proposal))
        for supplier in self.plan.cluster.suppliers:
            if found := list(Handed(supplier, self.plan, self.now).files()):
                made(folder / supplier)
            for number, (name, text) in enumerate(found):
                with written(folder / supplier / f"part{number:02}_{name}.csv") as file:
                    file.write(text)


def headed(head, lines):
    """Lines below a head that counts them."""
    return [f"{head}: {len(lines)}", *lines] if lines else []
