"""The integrator's plan for the wishes of all suppliers: how many slots each node needs, which of them it is granted, and where its frames go."""
from collections import Counter, defaultdict
from dataclasses import dataclass, field
from fractions import Fraction
from math import ceil
from typing import NamedTuple

from . import evenly
from .allotting import Demand, allotted, lacking
from .faults import Fault
from .placing import KINDS, Place, Slots, Wish, in_turn, mask, opened
from .plan import Grant, Node
from .wishes import PLACEMENTS


class Need(NamedTuple):
    """The fewest slots for a node's wishes, if it held none: on A, on B, and on both at once. Where its repetitions are no chain it may need more."""

    a: int
    b: int
    both: int
    is_exact: bool


def needs(cluster, wishes):
    """What each node needs, by the sum of what its wishes take of a slot, rounded up."""
    found = {}
    for node, mine in sorted(by_node(wishes).items()):
        count = {}
        for channels in KINDS:
            on = [it for it in mine if set(channels) <= set(it.channels)]
            whole = sum(count_of(cluster, it) for it in on if it.repetition is None)
            count[channels] = whole + ceil(sum(Fraction(1, it.repetition) for it in on if it.repetition))
        repetitions = sorted({it.repetition for it in mine if it.repetition})
        is_exact = all(later % earlier == 0 for earlier, later in zip(repetitions, repetitions[1:]))
        found[node] = Need(count["A"], count["B"], count["AB"], is_exact)
    return found


def by_node(wishes):
    found = defaultdict(list)
    for it in wishes:
        found[it.node].append(it)
    return found


def count_of(cluster, wish):
    """How many slots a wish takes whose gap is shorter than a cycle."""
    count = evenly.fewest(cluster.figures, wish.macroticks)
    if count is None or count > PLACEMENTS:
        many = f"it needs {count} slots in each cycle, and a frame has at most {PLACEMENTS} placements"
        why = "no slots of this cluster keep it" if count is None else many
        raise Fault(f"{wish.place}: the gap is {float(wish.macroticks):g} macroticks: {why}")
    return count


def within_limits(cluster, wishes, frames):
    """Nothing, where no frame would have more than 8 placements."""
    counts = Counter({it.key: len(it.placements) for it in frames})
    for it in wishes:
        key = it.node.supplier, it.frame
        counts[key] += 1 if it.repetition else count_of(cluster, it)
        if counts[key] > PLACEMENTS:
            raise Fault(f"{it.place}: the frame {it.frame} would have more than {PLACEMENTS} placements")


class Lacking(Exception):
    """The cluster has not the slots: on which channels, and how many are lacking; or a wish for which no slots are left."""

    def __init__(self, slots, wish=None):
        self.slots, self.wish = slots, wish


@dataclass
class Planned:
    """All grants, those that are new, and the placements of each supplier's wishes, in their order: pairs of a wish and its places."""

    grants: list
    new: list
    placements: list = field(default_factory=list)


class Planner:
    """Grants slots of a cluster for wishes. What is granted and placed already stays."""

    def __init__(self, cluster, wishes, grants=(), frames=()):
        self.cluster, self.wishes, self.grants = cluster, wishes, grants
        self.cycles = cluster.figures["cycles"]
        self.owner = {it.lane: Node(it.supplier, it.node) for it in grants}
        self.taken = {lane: 0 for lane in self.owner}
        for frame in frames:
            for it in frame.placements:
                for channel in it.channels:
                    self.taken[it.slot, channel] |= mask(self.cycles, it.base, it.repetition)
        self.placed = {}

    def free(self, channel):
        """The slots that nobody holds on a channel."""
        if channel not in self.cluster.channels:
            return set()
        return {slot for slot in range(1, self.cluster.figures["static_slots"] + 1) if (slot, channel) not in self.owner}

    def held(self, node):
        """The slots of a node in which its wishes may go."""
        return Slots(self.cycles, {lane: self.taken[lane] for lane, owner in self.owner.items() if owner == node})

    def plan(self):
        """Grants what is lacking, and places all wishes."""
        short = [number for number, it in enumerate(self.wishes) if it.repetition is None]
        for number in sorted(short, key=lambda it: (self.wishes[it].macroticks, self.wishes[it][:3])):
            self.reserve(number)
        long = [number for number, it in enumerate(self.wishes) if it.repetition]
        while left := self.lacking(long):
            self.grant(left)
        for node, numbers in self.numbers_by_node(long).items():
            for number, place in zip(numbers, in_turn(self.held(node), self.asked(numbers))):
                self.placed[number] = [place]
        grants = sorted(Grant(*lane, owner.supplier, owner.name) for lane, owner in self.owner.items())
        return Planned(grants, sorted({*grants} - {*self.grants}), [(it, self.placed[number]) for number, it in enumerate(self.wishes)])

    def reserve(self, number):
        """Slots for a gap below a cycle: of those that are nobody's, or the node's own and empty."""
        wish = self.wishes[number]
        mine = {lane for lane, owner in self.owner.items() if owner == wish.node and not self.taken[lane]}
        on = [self.free(channel) | {slot for slot, its in mine if its == channel} for channel in wish.channels]
        slots = evenly.chosen(set.intersection(*on), self.cluster.figures, wish.macroticks)
        if slots is None:
            raise Lacking({}, wish)
        for lane in ((slot, channel) for slot in slots for channel in wish.channels):
            self.owner[lane], self.taken[lane] = wish.node, mask(self.cycles, 0, 1)
        self.placed[number] = [Place(slot, wish.channels, 0, 1) for slot in slots]

    def numbers_by_node(self, numbers):
        found = defaultdict(list)
        for number in numbers:
            found[self.wishes[number].node].append(number)
        return found

    def asked(self, numbers):
        return [Wish(it.frame, it.channels, it.repetition) for it in (self.wishes[number] for number in numbers)]

    def lacking(self, numbers):
        """What each node lacks beside the slots that it holds."""
        found = {node: self.demand(node, self.asked(mine)) for node, mine in self.numbers_by_node(numbers).items()}
        return {node: it for node, it in found.items() if it.width}

    def demand(self, node, wishes):
        """The slots that a node lacks: first on both channels at once, then on each."""
        held, count, behind = self.held(node), dict.fromkeys(KINDS, 0), self.cluster.figures["static_slots"]
        for channels in KINDS:
            places = in_turn(held.with_lanes(()), wishes)
            short = [it for it, place in zip(wishes, places) if place is None and it.channels == channels]
            count[channels] = opened(self.cycles, short)
            held = held.with_lanes((behind + number, channel) for number in range(1, count[channels] + 1) for channel in channels)
            behind += count[channels]
        return Demand(count["AB"] + count["A"], count["AB"] + count["B"], count["AB"])

    def grant(self, demands):
        """Grants these slots."""
        free = {channel: self.free(channel) for channel in "AB"}
        if short := lacking(free, demands):
            raise Lacking(short)
        held = {node: sorted({slot for (slot, _), owner in self.owner.items() if owner == node}) for node in demands}
        for lane, node in allotted(free, demands, held).items():
            self.owner[lane], self.taken[lane] = node, 0
