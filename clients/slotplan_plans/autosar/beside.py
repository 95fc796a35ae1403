"""A description beside a register's plan: what differs, in the words of the reports and of `slotplan diff`."""
from dataclasses import replace

from ..comparing import differences
from ..plan import FIGURES, Node


def compared(plan, proposal, supplier=None):
    """The lines of what differs: `-` is the register's, `+` the file's. A supplier sees its own rows, whose lines do not name it."""
    proposed = proposal.plan if proposal.found.variant is not None else with_silent(plan, proposal.plan)
    if supplier:
        plan, proposed = own(plan, supplier), own(proposed, supplier)
    lines = [*unlike(common(plan), common(proposed)), *differences(plan, proposed), *unlike(gaps(plan), gaps(proposed))]
    return [line.removesuffix(f" {supplier}") if supplier and line[2:].split(" ")[0].isupper() else line for line in lines]


def with_silent(plan, proposed):
    """What another tool's file tells, with what such a file has no words for: grants that no frame uses, and suppliers without a node."""
    told = {it.lane for it in proposed.grants}
    grants = [it for it in plan.grants if it.lane not in told and Node(it.supplier, it.node) in proposed.nodes]
    silent = set(plan.cluster.suppliers) - {it.supplier for it in plan.nodes}
    cluster = replace(proposed.cluster, suppliers=tuple(sorted({*proposed.cluster.suppliers, *silent})))
    return replace(proposed, cluster=cluster, grants=tuple(sorted([*proposed.grants, *grants])))


def own(plan, supplier):
    """What a supplier sees of a plan."""
    mine = lambda rows: tuple(it for it in rows if it.supplier == supplier)
    cluster = replace(plan.cluster, suppliers=tuple(name for name in plan.cluster.suppliers if name == supplier))
    return replace(plan, cluster=cluster, nodes=mine(plan.nodes), grants=mine(plan.grants), frames=mine(plan.frames))


def unlike(before, after):
    """A line for each pair of a key and a line that stands on one side alone."""
    old, new = set(before), set(after)
    told = [(place, 0, line) for place, line in old - new] + [(place, 1, line) for place, line in new - old]
    return [f"{'-+'[sign]} {line}" for _, sign, line in sorted(told)]


def common(plan):
    """What is common to all variants: the lines of the report `cluster`, and the nodes."""
    cluster = plan.cluster
    figures = [("channels", cluster.channels), *((key, cluster.figures[key]) for key in FIGURES)]
    rows = [((0, place), f"{key} {value}") for place, (key, value) in enumerate(figures)]
    rows += [((1, name), f"supplier {name}") for name in cluster.suppliers]
    return rows + [((2, it.supplier, it.name), f"NODE {it.name} {it.supplier}") for it in plan.nodes]


def gaps(plan):
    """The gap of each frame: the longest time from one of its slots to its next, round the ring of all cycles."""
    return [(frame.key, f"GAP {gap(frame, plan.cluster.figures):>7} {frame.name} {frame.supplier}") for frame in plan.frames]


def gap(frame, figures):
    cycle, cycles = figures["macroticks_per_cycle"], figures["cycles"]
    moments = sorted({
        cycle * number + (it.slot - 1) * figures["slot_macroticks"] for it in frame.placements for number in range(it.base, cycles, it.repetition)
    })
    if not moments:
        return "never"
    return max(later - earlier for earlier, later in zip(moments, [*moments[1:], moments[0] + cycle * cycles]))
