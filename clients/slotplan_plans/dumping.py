"""A register as a script that makes it again: the cluster file, and requests in an order in which each is done."""
from collections import defaultdict
from pathlib import Path

from . import reading
from .faults import Fault
from .files import written
from .keys import new_keys
from .plan import FIGURES, Frame
from .sources import json_of
from .words import add_source, is_server, source_of

# What `slotplan run` and `slotplan ask` read at once.
SCRIPT_BYTES = 16_777_216
INTEGRATOR = None


def add_commands(commands):
    parser = commands.add_parser("dump", help=dump.__doc__, description=dump.__doc__)
    parser.set_defaults(work=dump)
    add_source(parser, variant=False, supplier=False)
    parser.add_argument("script", metavar="SCRIPT", type=Path, help="the file to write, which only its owner may read")
    parser.add_argument("--new-keys", action="store_true", help="made-up keys in place of the register's; SCRIPT.keys keeps them")


def dump(given):
    """Writes the register as a script that makes it again, with all keys."""
    if is_server(given.source) and not given.new_keys:
        raise Fault("a server tells no keys: dump it with --new-keys, or stop it and dump its file")
    with source_of(given).opened() as source:
        cluster, told = reading.cluster(source), common(source)
        keys = new_keys(given.script.with_name(f"{given.script.name}.keys"), cluster.suppliers) if given.new_keys else source.keys
        with written(given.script) as file:
            file.write(cluster_file(cluster, keys) + "---\n")
            count = 0
            for block in blocks(source, cluster, keys, *told):
                count += len(block)
                file.writelines(f"{keys.of(who)} {json_of(request)}\n" for who, request in block)
                file.write("\n" if block else "")
            size = file.tell()
            if (reading.cluster(source), common(source)) != (cluster, told):
                raise Fault(f"{given.source} was changed while it was read; dump it again")
    nodes, variants = told
    print(f"suppliers: {len(cluster.suppliers)}, nodes: {len(nodes)}, variants: {len(variants)}, requests: {count}")
    if size > SCRIPT_BYTES:
        print(f"slotplan takes {SCRIPT_BYTES} bytes at once: create the register of the part before ---, and ask it the rest in pieces")


def common(source):
    """What all variants share: the nodes, and which variants there are."""
    return reading.nodes(source.nodes(), reading.cluster(source)), reading.variants(source)


def cluster_file(cluster, keys):
    figures = "".join(f"{key} = {cluster.figures[key]}\n" for key in FIGURES)
    return f'channels = "{cluster.channels}"\n{figures}integrator = "{keys.integrator}"\n\n[suppliers]\n'


def blocks(source, cluster, keys, nodes, variants):
    """The requests in blocks, each with who asks it: the suppliers, their nodes, and a block for each variant."""
    yield [(INTEGRATOR, {"do": "add_supplier", "supplier": name, "key": keys.of(name)}) for name in cluster.suppliers]
    yield [(INTEGRATOR, {"do": "add_node", "supplier": node.supplier, "node": node.name}) for node in nodes]
    children = defaultdict(list)
    for variant in variants:
        children[variant.parent].append(variant)
    yield from branch(source, cluster, children, None, ((), ()))


def branch(source, cluster, children, parent, before):
    """The blocks of the variants that were opened from this one, each with those behind it; these are the parent's rows."""
    for variant in children[parent]:
        after = reading.rows(source, cluster, variant.name)
        told = [(INTEGRATOR, {"do": "open_variant", "variant": variant.name, **({"from": parent} if parent else {})})]
        told += [(who, {"do": do, "variant": variant.name, **fields}) for who, do, fields in changes(before, after)]
        told += [(INTEGRATOR, {"do": "release", "variant": variant.name})] if variant.is_released else []
        yield told
        yield from branch(source, cluster, children, variant.name, after)


def changes(before, after):
    """The requests that make of a parent's rows a variant's: what goes comes first, so that nothing that comes finds its place taken."""
    (old_grants, old_frames), (grants, frames) = before, after
    old, new = {frame.key: frame for frame in old_frames}, {frame.key: frame for frame in frames}
    stay = {key for key in old.keys() & new.keys() if old[key].node == new[key].node}
    for key in sorted(old.keys() - stay):
        yield key[0], "drop_frame", {"frame": key[1]}
    for key in sorted(stay):
        yield from rows_of(old[key], new[key], "unplace", "drop_signal")
    for it in sorted(set(old_grants) - set(grants)):
        yield INTEGRATOR, "revoke", {"slot": it.slot, "channel": it.channel, "supplier": it.supplier}
    for it in sorted(set(grants) - set(old_grants)):
        yield INTEGRATOR, "grant", {"slot": it.slot, "channel": it.channel, "supplier": it.supplier, "node": it.node}
    for key, frame in new.items():
        if key not in stay:
            yield key[0], "add_frame", {"frame": frame.name, "node": frame.node}
        yield from rows_of(frame, old[key] if key in stay else Frame(*key, frame.node), "place", "add_signal")


def rows_of(frame, other, of_placement, of_signal):
    """Requests for the placements and signals that this frame has and the other one has not."""
    for it in sorted(set(frame.placements) - set(other.placements)):
        fields = {"slot": it.slot, "channels": it.channels, "base": it.base, "repetition": it.repetition}
        yield frame.supplier, of_placement, {"frame": frame.name, **fields}
    for it in sorted(set(frame.signals) - set(other.signals)):
        fields = {} if of_signal == "drop_signal" else {"start": it.start, "length": it.length, "order": it.order}
        yield frame.supplier, of_signal, {"frame": frame.name, "signal": it.name, **fields}
