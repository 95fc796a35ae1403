"""The commands for AUTOSAR system descriptions, and for FIBEX: `export`, `import`, `compare` and `ecus`."""
import csv
import re
import sys
from collections import Counter

from ..faults import Fault
from ..fibex import writing as fibex
from ..files import written
from ..reading import read
from ..words import add_source, microseconds, source_of
from . import beside, folder, writing
from .described import SUPPLIERS, add_reading, described
from .found import KINDS

SHORT_NAME = re.compile("[A-Za-z][A-Za-z0-9_]{0,127}")


def add_commands(commands):
    made = command(commands, "export", export)
    add_source(made)
    made.add_argument("file", metavar="FILE", help="the description that is written, as car.arxml")
    made.add_argument("--open", action="store_true", help="an open variant too, which may change later")
    made.add_argument("--macrotick", metavar="MICROSECONDS", help="how long a macrotick lasts, as 1 or 1.375")
    made.add_argument("--cluster", metavar="NAME", default="FlexRay", help="the cluster's name in the file")
    made.add_argument("--each", action="store_true", help="a triggering for each timing, for tools that read one timing of each triggering")
    made.add_argument("--fibex", metavar="RELEASE", choices=fibex.RELEASES, help="FIBEX of the release 3.1 or 4.1, in place of AUTOSAR")
    listed = command(commands, "ecus", ecus)
    add_files(listed)
    add_reading(listed, tables=False)
    read_in = command(commands, "import", import_files)
    read_in.add_argument("folder", metavar="FOLDER", help="the folder that is made")
    add_files(read_in)
    add_reading(read_in)
    read_in.add_argument("--variant", metavar="NAME", help="how the variant is called; else as the file says, or v1")
    compared = command(commands, "compare", compare)
    add_source(compared)
    add_files(compared)
    add_reading(compared)


def command(commands, name, work):
    parser = commands.add_parser(name, help=work.__doc__, description=work.__doc__)
    parser.set_defaults(work=work)
    return parser


def add_files(parser):
    parser.add_argument("files", metavar="FILE", nargs="+", help="a description, which may be parted into several files")


def export(given):
    """Writes a released variant as an AUTOSAR system description, or as FIBEX."""
    options = short_name(given.cluster), microseconds(given.macrotick), given.each
    plan = read(source_of(given), given.variant)
    if not (plan.variant.is_released or given.open):
        raise Fault(f"the variant {given.variant} is open, so it may change; --open writes it as it is now")
    with written(given.file, 0o666) as file:
        if given.fibex:
            fibex.write(file, plan, fibex.Options(given.fibex, *options))
        else:
            writing.write(file, plan, writing.Options(*options))
    print(counts(plan))


def short_name(text):
    if not SHORT_NAME.fullmatch(text):
        raise Fault(f"--cluster: {text!a:.60} is no short name of AUTOSAR")
    return text


def counts(plan):
    """How many rows of each kind a plan has."""
    rows = {"suppliers": plan.cluster.suppliers, "nodes": plan.nodes, "grants": plan.grants, "frames": plan.frames}
    of_frames = {"placements": sum(len(it.placements) for it in plan.frames), "signals": sum(len(it.signals) for it in plan.frames)}
    return ", ".join(f"{kind}: {count}" for kind, count in [*((kind, len(found)) for kind, found in rows.items()), *of_frames.items()])


def ecus(given):
    """Prints a table of the ECUs in which their suppliers are to be filled in."""
    found = described(given).found(given.files)
    csv.writer(sys.stdout, lineterminator="\n").writerows([SUPPLIERS, *((path, ecu.supplier or "") for path, ecu in sorted(found.ecus.items()))])


def import_files(given):
    """Reads a description, and makes a folder with a cluster file, requests and files of rows for a new register, and notes of what does not fit."""
    proposal = described(given).proposed(given.files, given.variant)
    folder.write(given.folder, proposal)
    print(counts(proposal.plan))
    print(", ".join(f"{kind}: {count}" for kind, count in told(proposal.notes).items()))
    if not proposal.plan.frames and proposal.found.variant is None:
        print(f"no frame could be taken: {given.folder}/notes.csv says why{unsent(proposal)}", file=sys.stderr)
        return 1
    return 0


def unsent(proposal):
    """What helps where no frame has a sender."""
    count = sum(not frame.senders for frame in proposal.found.frames.values())
    return f"; of {count} frames the file does not tell who sends them, and --senders may" if count else ""


def told(notes):
    """How many notes of each kind there are."""
    counted = Counter(note.kind for note in notes)
    return {kind: counted[kind] for kind in KINDS}


def compare(given):
    """Prints what differs between a variant and a description, as `slotplan diff` does; the status is 1 where something differs."""
    plan = read(source_of(given), given.variant)
    proposal = described(given).proposed(given.files, given.variant)
    lines = beside.compared(plan, proposal, plan.reader)
    print("".join(f"{line}\n" for line in lines), end="")
    for note in proposal.notes:
        if note.kind == "left out":
            print(f"{note.kind}: {note.what}: {note.why}", file=sys.stderr)
    return 1 if lines else 0
