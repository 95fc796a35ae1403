"""A proposal as a folder: the cluster file, the integrator's requests, each supplier's key and files of rows, and the notes."""
import csv
import json
from pathlib import Path

from ..files import made, written
from ..keys import Keys, made_up
from ..plan import FIGURES
from ..rowfiles import parts, text_of
from ..tables import GRANTS, NODES
from .found import KINDS, Note
from .known import KINDS as ROW_KINDS
from .known import Row


def write(folder, proposal):
    """Makes the folder, which only its owner may read: it has keys."""
    folder, plan, suppliers = Path(folder), proposal.plan, proposal.plan.cluster.suppliers
    made(folder)
    keys = Keys(made_up(), {name: made_up() for name in suppliers})
    with written(folder / "cluster.toml") as file:
        file.write(cluster_file(plan.cluster, keys, proposal.found.comment))
    with written(folder / "requests.txt") as file:
        file.writelines(f"{keys.integrator} {json.dumps(it, separators=(',', ':'))}\n" for it in requests(plan))
    for supplier in suppliers:
        made(folder / supplier)
        with written(folder / supplier / "key.txt") as file:
            file.write(f"{keys.of(supplier)}\n")
        for name, text in files(plan, supplier):
            with written(folder / supplier / name) as file:
                file.write(text)
    tables = {
        "notes.csv": [Note._fields, *sorted(proposal.notes, key=lambda note: KINDS.index(note.kind))],
        "names.csv": names_of(proposal),
        "nodes.csv": [NODES, *((it.supplier, it.name) for it in plan.nodes)],
        "grants.csv": [GRANTS, *((it.slot, it.channel, it.supplier, it.node) for it in plan.grants)],
    }
    for name, rows in tables.items():
        with written(folder / name) as file:
            csv.writer(file, lineterminator="\n").writerows(rows)


def names_of(proposal):
    """The table of what is called how: its header and its rows."""
    return [Row._fields, *sorted(proposal.rows, key=lambda row: (ROW_KINDS.index(row.kind), row.supplier, row.frame, row.name))]


def cluster_file(cluster, keys, comment):
    lines = [f"# {''.join(letter if letter.isprintable() else '?' for letter in comment)}", f'channels = "{cluster.channels}"']
    lines += [f"{key} = {cluster.figures[key]}" for key in FIGURES]
    lines += [f'integrator = "{keys.integrator}"', "", "[suppliers]", *(f'{name} = "{key}"' for name, key in keys.suppliers.items())]
    return "\n".join(lines) + "\n"


def requests(plan):
    """The integrator's requests: the variant, the nodes and the grants."""
    variant = plan.variant.name
    yield {"do": "open_variant", "variant": variant}
    for it in plan.nodes:
        yield {"do": "add_node", "supplier": it.supplier, "node": it.name}
    for it in plan.grants:
        yield {"do": "grant", "variant": variant, "slot": it.slot, "channel": it.channel, "supplier": it.supplier, "node": it.node}


def files(plan, supplier):
    """The supplier's files, whose names are in the order in which they are imported: all frames, then placements, then signals."""
    mine = [it for it in plan.frames if it.supplier == supplier]
    rows = {
        "frames": [(it.name, it.node) for it in mine],
        "placements": [(it.name, it.node, at.slot, at.channels, at.base, at.repetition) for it in mine for at in it.placements],
        "signals": [(it.name, signal.name, signal.start, signal.length, signal.order) for it in mine for signal in it.signals],
    }
    for number, (kind, part) in enumerate((kind, part) for kind in rows for part in parts(rows[kind])):
        yield f"part{number:02}_{kind}.csv", text_of(kind, part)
