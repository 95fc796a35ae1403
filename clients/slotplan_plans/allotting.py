"""Which slots nodes are granted: those of a node beside one another, and what is left spread between the nodes, for their growth."""
from typing import NamedTuple


class Demand(NamedTuple):
    """How many slots a node is to be granted on A and on B; so many of them have to be the same."""

    a: int
    b: int
    both: int

    @property
    def width(self):
        return max(self.a, self.b)

    def on(self, channel):
        return self.a if channel == "A" else self.b


def lacking(free, demands):
    """How many slots are lacking on A, on B and on both at once."""
    count = lambda of: sum(map(of, demands.values()))
    found = {channel: count(lambda it, on=channel: it.on(on)) - len(free[channel]) for channel in "AB"}
    found["both"] = count(lambda it: it.both) - len(free["A"] & free["B"])
    return {where: short for where, short in found.items() if short > 0}


def allotted(free, demands, held):
    """Who is granted which lanes, where none are lacking. `free` has the slots on each channel that nobody holds, `held` those that a node has."""
    demands = {node: it for node, it in sorted(demands.items()) if it.width}
    # (on a cluster of one channel the slots of the other are nobody's)
    wide = sorted(free["A"] & free["B"]) if free["A"] and free["B"] else sorted(free["A"] | free["B"])
    if sum(it.width for it in demands.values()) <= len(wide):
        return in_blocks(wide, demands, held)
    return tightly(free, demands)


def in_blocks(wide, demands, held):
    """A block for each node: first beside the slots that it holds; the others one after another, with room behind each."""
    lanes, left = {}, list(wide)
    beside = [node for node in demands if held.get(node)]
    for node in beside:
        width = demands[node].width
        at = min(range(len(left) - width + 1), key=lambda it: distance(left[it : it + width], held[node]))
        lanes.update(block(node, left[at : at + width], demands[node]))
        del left[at : at + width]
    others = [node for node in demands if not held.get(node)]
    spare, at = len(left) - sum(demands[node].width for node in others), 0
    for number, node in enumerate(others):
        begin = at + number * spare // len(others)
        lanes.update(block(node, left[begin : begin + demands[node].width], demands[node]))
        at += demands[node].width
    return lanes


def distance(slots, held):
    """How far a block is from a node's slots, and how far it is drawn out."""
    return min(abs(slot - other) for slot in (slots[0], slots[-1]) for other in held) + slots[-1] - slots[0], slots[0]


def block(node, slots, demand):
    return {(slot, channel): node for channel in "AB" for slot in slots[: demand.on(channel)]}


def tightly(free, demands):
    """First the slots that have to be the same on both channels, and as many more as there are, then the others, channel by channel."""
    left, lanes = {channel: sorted(free[channel]) for channel in "AB"}, {}
    wide = sorted(free["A"] & free["B"])
    alike = {node: min(it.a, it.b) for node, it in demands.items()}
    if sum(alike.values()) > len(wide):
        alike = {node: it.both for node, it in demands.items()}
    for node, count in alike.items():
        lanes.update({(slot, channel): node for slot in wide[:count] for channel in "AB"})
        del wide[:count]
    for channel in "AB":
        rest = [slot for slot in left[channel] if (slot, channel) not in lanes]
        for node, demand in demands.items():
            count = demand.on(channel) - alike[node]
            lanes.update({(slot, channel): node for slot in rest[:count]})
            del rest[:count]
    return lanes
