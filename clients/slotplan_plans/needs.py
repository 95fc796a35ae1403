"""The command `needs`: how many slots the wishes of all suppliers need, and which to grant."""
import csv
from pathlib import Path

from . import reading, wishes
from .clusters import add_cluster, clock_of, cluster_of, source_in
from .faults import Fault
from .files import absent, made, replaceable, written
from .plan import Node
from .planning import Lacking, Planner, needs, within_limits
from .rowfiles import parts, text_of
from .tables import GRANTS, NODES
from .words import microseconds


def add_commands(commands):
    parser = commands.add_parser("needs", help=tell.__doc__, description=tell.__doc__)
    parser.set_defaults(work=tell)
    parser.add_argument("wishes", metavar="WISHES", nargs="+", help="a table of wishes, or a folder of them; the file's name says whose they are")
    add_cluster(parser)
    parser.add_argument("--variant", metavar="NAME", help="with --source: the variant whose grants and placements stay")
    parser.add_argument("--grants", metavar="FILE", help="writes the table of all grants, as `arrange` reads it")
    parser.add_argument("--nodes", metavar="FILE", help="writes the table of all nodes, as `arrange` reads it")
    parser.add_argument("--placements", metavar="FOLDER", help="makes a folder with each supplier's placements, as the register imports them")


def tell(given):
    """Tells how many slots each node needs for the wishes of all suppliers, and whether the cluster has them; and writes which to grant."""
    can_be_written(given)
    cluster, grants, frames, nodes = beside(given)
    asked = wishes.read(given.wishes, cluster, clock_of(cluster, microseconds(given.macrotick)))
    wishes.checked(asked, frames)
    within_limits(cluster, asked, frames)
    found, planner = needs(cluster, asked), Planner(cluster, asked, grants, frames)
    for node, need in found.items():
        print(f"{node.supplier} {node.name}: A {need.a}, B {need.b}, both {need.both}{'' if need.is_exact else ', or more'}")
    sums = {channel: sum(getattr(it, channel.lower()) for it in found.values()) for channel in cluster.channels}
    print("all: " + ", ".join(f"{channel} {count} of {cluster.figures['static_slots']}" for channel, count in sums.items()))
    try:
        planned = planner.plan()
    except Lacking as short:
        print(why(short))
        return 1
    print(f"the cluster has them; new grants: {len(planned.new)}")
    write(given, planned, nodes | found.keys())
    return 0


def can_be_written(given):
    """Nothing, where what is to be written would take nothing's place that has to stay."""
    for path in filter(None, (given.grants, given.nodes)):
        replaceable(path)
    if given.placements:
        absent(given.placements)


def beside(given):
    """The cluster, and what is there already: grants, frames and nodes of a variant."""
    if given.source and given.variant:
        plan = reading.read(source_in(given), given.variant)
        if plan.reader:
            raise Fault(f"the key is of {plan.reader}: grants are the integrator's")
        return plan.cluster, plan.grants, plan.frames, set(plan.nodes)
    if given.source or given.variant:
        raise Fault("--source and --variant go together: a register has its grants by variants")
    cluster = cluster_of(given)
    if cluster is None:
        raise Fault("needs wants the cluster: its file by --cluster, or a register by --source and --variant")
    return cluster, (), (), set()


def why(short):
    """What is lacking, as a line."""
    if short.wish:
        return f"no slots that are free keep the gap of {float(short.wish.macroticks):g} macroticks: {short.wish.place}"
    return "lacking: " + ", ".join(f"{count} on {'A and B at once' if where == 'both' else where}" for where, count in short.slots.items())


def write(given, planned, nodes):
    """Writes the tables that are asked for."""
    if given.placements:
        write_placements(Path(given.placements), planned.placements)
    for path, rows in (
        (given.grants, [GRANTS, *((it.slot, it.channel, it.supplier, it.node) for it in planned.grants)]),
        (given.nodes, [NODES, *((it.supplier, it.name) for it in sorted(nodes))]),
    ):
        if path:
            with written(path, 0o666) as file:
                csv.writer(file, lineterminator="\n").writerows(rows)


def write_placements(folder, placements):
    """A folder for each supplier, whose files are imported in the order of their names."""
    made(folder)
    for supplier in sorted({wish.node.supplier for wish, _ in placements}):
        made(folder / supplier)
        rows = [(wish.frame, wish.node.name, *place) for wish, places in placements for place in places if wish.node.supplier == supplier]
        for number, part in enumerate(parts(rows)):
            with written(folder / supplier / f"part{number:02}_placements.csv", 0o666) as file:
                file.write(text_of("placements", part))
