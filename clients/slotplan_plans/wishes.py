"""The wishes of all suppliers: tables of frames, nodes, channels and how often, one of each supplier or several in one."""
from collections import Counter
from fractions import Fraction
from pathlib import Path
from typing import NamedTuple

from . import rowtables
from .faults import Fault
from .plan import Node
from .spans import Gap

FORMS = {".csv", ".tsv", ".txt", ".xlsx", ".ods"}
PLACEMENTS, FRAMES = 8, 256


class Wanted(NamedTuple):
    """A wish of a supplier: a repetition; or, where a cycle is too long, the macroticks of its gap. `place` says where it stands."""

    node: Node
    frame: str
    channels: str
    repetition: int | None
    macroticks: Fraction | None
    place: str


def read(paths, cluster, clock):
    """The wishes in files and in folders of files."""
    return [it for path in paths for file in files(Path(path)) for it in wishes_in(file, cluster, clock)]


def files(path):
    """A file, or the tables below a folder, but for those that a spreadsheet keeps beside a table while it is open."""
    if not path.is_dir():
        return [path]
    found = [it for it in sorted(path.rglob("*")) if it.suffix.lower() in FORMS and it.is_file() and it.name[0] not in ".~"]
    if not found:
        raise Fault(f"{path}: there is no table in the folder")
    return found


def wishes_in(path, cluster, clock):
    """The wishes of a table. Whose they are a column says, or else the name of the file or of its folder."""
    table = rowtables.read(path)
    if table.kind != "wishes":
        raise Fault(f"{path}: it has {table.kind}, and no wishes, whose columns are frame, node, channels, repetition or gap")
    own = next((name for name in (path.stem, path.absolute().parent.name) if name in cluster.suppliers), None)
    for record in table.records:
        try:
            yield wanted(f"{path}: {record.place}", record, own, cluster, clock)
        except Fault as fault:
            raise Fault(f"{path}: {record.place}: {fault}") from fault


def wanted(place, record, own, cluster, clock):
    values, supplier = record.values, record.supplier or own
    if supplier is None:
        raise Fault("whose wish it is neither a column supplier says nor the name of the file")
    if supplier not in cluster.suppliers:
        raise Fault(f"there is no supplier {supplier}")
    if not set(values["channels"]) <= set(cluster.channels):
        raise Fault(f"the cluster has no channel {(set(values['channels']) - set(cluster.channels)).pop()}")
    often = values["repetition"]
    repetition = clock.repetition(often) if isinstance(often, Gap) else often
    if repetition and clock.cycles % repetition:
        raise Fault(f"the repetition {repetition} does not divide the {clock.cycles} cycles")
    macroticks = None if repetition else clock.macroticks_of(often)
    return Wanted(Node(supplier, values["node"]), values["frame"], values["channels"], repetition, macroticks, place)


def checked(wishes, frames):
    """Nothing, where each wish is of the node that its frame has, be it in a variant or by another wish, and no supplier has too many frames."""
    nodes, supplier_frames = {it.key: it.node for it in frames}, Counter(it.supplier for it in frames)
    for it in wishes:
        key = it.node.supplier, it.frame
        if key not in nodes:
            nodes[key] = it.node.name
            supplier_frames[it.node.supplier] += 1
        if nodes[key] != it.node.name:
            raise Fault(f"{it.place}: the frame {it.frame} is sent by the node {nodes[key]}, and not by {it.node.name}")
        if supplier_frames[it.node.supplier] > FRAMES:
            raise Fault(f"{it.place}: {it.node.supplier} would have more than {FRAMES} frames")
