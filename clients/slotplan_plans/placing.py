"""Where wishes find places in the slots of a node, as the register's proposals have it: the least repetition first, each at the fittest place.

A lane is a slot and a channel. What is taken of it is a mask, whose bit n is cycle n."""
from functools import cache
from typing import NamedTuple

KINDS = "AB", "A", "B"


class Wish(NamedTuple):
    """A frame that is to be sent once more: on which channels, and how often."""

    frame: str
    channels: str
    repetition: int


@cache
def mask(cycles, base, repetition):
    """The cycles of a base and a repetition."""
    return sum(1 << cycle for cycle in range(base, cycles, repetition))


@cache
def coarser(repetition):
    return [it for it in range(1, repetition) if repetition % it == 0]


@cache
def fittest_base(cycles, lanes, repetition):
    """The fittest base in a slot of which this is taken on each channel, behind what it breaks; none where none is free.

    A place breaks each coarser repetition that is whole until then: on the channels together, and on each."""
    taken, found = 0, []
    for lane in lanes:
        taken |= lane
    for base in range(repetition):
        if not taken & mask(cycles, base, repetition):
            wider = [mask(cycles, base % it, it) for it in coarser(repetition)]
            found.append((sum(not taken & it for it in wider), sum(not lane & it for lane in lanes for it in wider), base))
    return min(found, default=None)


class Slots:
    """The slots that a node holds, by lane, with what is taken of each."""

    def __init__(self, cycles, taken=()):
        self.cycles, self.taken = cycles, dict(taken)

    def with_lanes(self, lanes):
        """These slots, and these lanes, of which nothing is taken."""
        return Slots(self.cycles, self.taken | {lane: self.taken.get(lane, 0) for lane in lanes})

    def put(self, place):
        for channel in place.channels:
            self.taken[place.slot, channel] |= mask(self.cycles, place.base, place.repetition)

    def fittest(self, channels, repetition):
        """The slot and base of the fittest place, or none."""
        found = []
        for slot in sorted({slot for slot, _ in self.taken}):
            if all((slot, channel) in self.taken for channel in channels):
                best = fittest_base(self.cycles, tuple(self.taken[slot, channel] for channel in channels), repetition)
                if best:
                    found.append((*best[:2], slot, best[2]))
        return min(found)[2:] if found else None


class Place(NamedTuple):
    """Where a wish goes."""

    slot: int
    channels: str
    base: int
    repetition: int


def turn(wish):
    return KINDS.index(wish.channels), wish.repetition


def in_turn(slots, wishes):
    """The place of each wish, or none, by its number. They are put into the slots."""
    found = {}
    for number, wish in sorted(enumerate(wishes), key=lambda it: turn(it[1])):
        best = slots.fittest(wish.channels, wish.repetition)
        found[number] = Place(best[0], wish.channels, best[1], wish.repetition) if best else None
        if best:
            slots.put(found[number])
    return [found[number] for number in range(len(wishes))]


def opened(cycles, wishes):
    """How many empty slots these wishes, all of the same channels, take in turn: another one is opened where none has a place."""
    slots, count = Slots(cycles), 0
    for wish in sorted(wishes, key=turn):
        best = slots.fittest(wish.channels, wish.repetition)
        if best is None:
            count += 1
            slots = slots.with_lanes((count, channel) for channel in wish.channels)
            best = count, 0
        slots.put(Place(best[0], wish.channels, best[1], wish.repetition))
    return count
