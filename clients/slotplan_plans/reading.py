"""Reads a variant from a file or a server: whatever a source tells is made a plan here, and nowhere else."""
from contextlib import contextmanager

from .faults import Fault
from .plan import FIGURES, Cluster, Frame, Grant, Node, Placement, Plan, Signal, Variant

# The kinds of rows, and how many fields each has before the supplier.
WIDTHS = {"GRANT": 3, "FRAME": 2, "AT": 5, "SIGNAL": 5, "GAP": 2}


@contextmanager
def understood():
    """Whatever is told that is no report is a fault: another server may answer at an address, and another program than slotplan be named."""
    try:
        yield
    except (ValueError, LookupError) as fault:
        raise Fault("what SOURCE tells is no report of a register") from fault


@understood()
def read(source, variant):
    """The plan of a variant. Its rows are told by one report, and so are of one moment."""
    with source.opened() as told:
        known = {it.name: it for it in variants(told)}
        if variant not in known:
            raise Fault(f"there is no variant {variant}; there are: {' '.join(sorted(known)) or 'none'}")
        whole, lines = cluster(told), told.nodes()
        # (a supplier's own lines do not name it)
        reader = whole.suppliers[0] if lines and " " not in lines[0] else None
        return Plan(whole, known[variant], nodes(lines, whole), *rows(told, whole, variant), reader)


@understood()
def cluster(source):
    """The cluster's figures and its suppliers."""
    told = [line.split(" ") for line in source.cluster()]
    values = dict(told)
    return Cluster(values["channels"], {key: int(values[key]) for key in FIGURES}, tuple(value for key, value in told if key == "supplier"))


@understood()
def variants(source):
    """The variants, by name."""
    told = (line.split(" ") for line in source.variants())
    return tuple(Variant(name, None if parent == "-" else parent, int(depth), state == "released") for name, parent, depth, state in told)


@understood()
def nodes(lines, whole):
    """The nodes, by supplier and name."""
    return tuple(Node(holder, name) for name, holder in with_supplier(split(lines), 1, whole))


@understood()
def rows(source, whole, variant):
    """The grants of a variant, and its frames with their rows, all at one moment."""
    told = {kind: [] for kind in WIDTHS}
    for kind, *fields in (line.split() for line in source.rows(variant)):
        told[kind].append(fields)
    of = lambda kind: with_supplier(told[kind], WIDTHS[kind], whole)
    grants = tuple(Grant(int(slot), channel, holder, node) for slot, channel, node, holder in of("GRANT"))
    frames = {(holder, name): (node, [], []) for name, node, holder in of("FRAME")}
    for name, slot, channels, base, repetition, holder in of("AT"):
        frames[holder, name][1].append(Placement(int(slot), channels, int(base), int(repetition)))
    for name, start, length, order, signal, holder in of("SIGNAL"):
        frames[holder, name][2].append(Signal(int(start), int(length), order, signal))
    made = tuple(Frame(*key, node, tuple(placements), tuple(signals)) for key, (node, placements, signals) in sorted(frames.items()))
    if not are_granted(grants, made):
        raise ValueError("a frame is sent where its node holds no slot")
    return grants, made


def are_granted(grants, frames):
    """Whether each placement is in slots that its frame's node holds."""
    held = {it.lane: (it.supplier, it.node) for it in grants}
    return all(
        held.get((placed.slot, channel)) == (frame.supplier, frame.node)
        for frame in frames
        for placed in frame.placements
        for channel in placed.channels
    )


def split(lines):
    return (line.split(" ") for line in lines)


def with_supplier(told, width, whole):
    """Each row with its supplier last. The integrator's have it; a supplier's own have not, and are of the only supplier that it sees."""
    for row in told:
        yield row if len(row) > width else [*row, whole.suppliers[0]]
