"""The command `update`: a description with a plan's timings in it, and every other byte as it was."""
from contextlib import ExitStack
from pathlib import Path

from ..comparing import differences
from ..faults import Fault
from ..files import replaceable, written
from ..reading import read
from ..words import add_source, source_of
from . import beside
from .carrying import Carrying
from .described import add_reading, described

# How often a plan is carried back at most: each time some that were left out may have room.
ROUNDS = 8


def add_commands(commands):
    parser = commands.add_parser("update", help=update.__doc__, description=update.__doc__)
    parser.set_defaults(work=update)
    parser.add_argument("file", metavar="IN", help="the description that was imported")
    add_source(parser, supplier=False)
    parser.add_argument("new", metavar="OUT", help="the description that is written")
    parser.add_argument("--part", metavar=("IN", "OUT"), nargs=2, action="append", default=[], help="another file of a description that has several")
    parser.add_argument("--remove", action="store_true", help="take out the frames that the variant has no more; else they stay, and are told")
    parser.add_argument("--leave", action="store_true", help="write what can be carried back, where something cannot; else nothing is written")
    add_reading(parser)


def update(given):
    """Writes a description anew with a variant's timings in it, and every other byte as it was. What it cannot carry back it lists."""
    files = dict([(given.file, given.new), *given.part])
    if len({Path(new).absolute() for new in files.values()}) <= len(given.part):
        raise Fault("each file needs another name to be written by")
    for new in files.values():
        replaceable(new)
    plan = read(source_of(given), given.variant)
    if plan.reader:
        raise Fault(f"the key is of {plan.reader}: a description is the integrator's")
    updated = Updated(described(given), list(files), plan, given.remove)
    kept = bool(updated.left) and not given.leave
    print("".join(f"{line}\n" for line in updated.told()), end="")
    print(f"{updated.counts()}{'; nothing was written: --leave writes the rest' if kept else ''}")
    if not kept:
        with ExitStack() as stack:
            for old, new in files.items():
                stack.enter_context(written(new, 0o666, "wb")).write(updated.texts[old] if old in updated.texts else Path(old).read_bytes())
    return 1 if kept else 0


class Updated:
    """A description with a plan in it. `texts` has the bytes of the files that change, `lines` are the rows that go and come, in the lines of
    `slotplan diff`; `gone` are the frames that the plan has no more and that stay, and `left` is what cannot be carried back."""

    def __init__(self, words, files, plan, remove=False):
        self.words, self.files, self.plan, self.remove = words, files, plan, remove
        self.texts, self.lines, self.gone, self.left = {}, {}, {}, []
        self.carry()

    def read(self):
        """What is proposed of the files as they are now. Frames that are gone and stay take no room there."""
        found, keys = self.words.found(self.files, self.texts), {frame.key for frame in self.plan.frames}
        while True:
            proposal = self.words.proposal(found, self.plan.variant.name, self.gone)
            gone = {path: key for key, path in sorted(proposal.paths.items()) if key not in keys}
            if self.remove or not gone:
                return proposal
            self.gone |= gone

    def carry(self):
        """Carries the plan back until the files have it: what was left out of the first proposal may come into the next, where it has room now."""
        proposal = self.read()
        for _ in range(ROUNDS):
            carrying = Carrying(proposal, self.plan)
            made = carrying.changes.made()
            if not made:
                break
            self.texts |= made
            before, proposal = proposal, self.read()
            self.note(before, proposal)
        self.left = [*carrying.left, *beside.compared(self.plan, proposal)]

    def note(self, before, after):
        """Keeps which rows go and come. One that came only since it has room now was in the file before."""
        for line in differences(before.plan, after.plan):
            if before.found.variant is not None or not line[2:].startswith("GRANT"):
                self.lines[line[2:]] = line[0]

    def told(self):
        """What is done: `-` is what the file had, `+` what it has; then what is not."""
        yield from (f"{sign} {line}" for line, sign in self.lines.items())
        for supplier, name in self.gone.values():
            yield f"gone: FRAME {name} {supplier}: the variant has it no more; --remove takes it out of the file"
        yield from (f"left: {line}" for line in self.left)

    def counts(self):
        signs = list(self.lines.values())
        return f"rows out: {signs.count('-')}, rows in: {signs.count('+')}, gone: {len(self.gone)}, left: {len(self.left)}"
