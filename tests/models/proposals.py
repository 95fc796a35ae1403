"""What is proposed for a supplier's wishes, in the plainest way: of all places each is tried, and a cell is a member of a set.

It was written from docs/FORMATS.md, and nothing of it is the program's own. Whether there is any way at all for some wishes is sought here too, by trying
all ways; that is for few cycles and slots."""
from dataclasses import dataclass

LIMIT_OF_FRAMES, LIMIT_OF_PLACEMENTS = 256, 8
TURNS = ("AB", "A", "B")  # the order of turns
LISTED = ("A", "AB", "B")  # the order of reports


@dataclass(frozen=True)
class Wish:
    """A line of a file, by which a frame is to have one more placement."""

    line: int
    frame: str
    node: str
    channels: str
    repetition: int


@dataclass
class Page:
    """A supplier's rows in a variant: of a slot and a channel the node that holds them; of a frame its node and its placements, each a slot, channels, a base
    and a repetition."""

    cycles: int
    nodes: list
    grants: dict
    frames: dict

    def cells(self, slot, channels, base, repetition):
        return {(slot, channel, cycle) for channel in channels for cycle in range(base, self.cycles, repetition)}

    def filled(self, frames):
        return set().union(*(self.cells(*placement) for _, placements in frames.values() for placement in placements))

    def slots(self, node, channels):
        """Those that the node holds on all of these channels."""
        return [slot for slot in sorted({slot for slot, _ in self.grants}) if all(self.grants.get((slot, channel)) == node for channel in channels)]


def broken(page, filled, slot, channels, base, repetition):
    """How many repetitions that divide this one lose a place."""
    divisors = [it for it in range(1, repetition) if repetition % it == 0]
    return sum(filled.isdisjoint(page.cells(slot, channels, base % it, it)) for it in divisors)


def fittest(page, filled, slots, channels, repetition):
    """The free place that breaks fewest repetitions on its channels together, then on each by itself; then the first by slot and base."""
    free = [(slot, channels, base, repetition) for slot in slots for base in range(repetition) if filled.isdisjoint(page.cells(slot, channels, base, repetition))]
    rates = {it: (broken(page, filled, *it), sum(broken(page, filled, it[0], channel, *it[2:]) for channel in channels)) for it in free}
    return min(free, key=lambda it: (rates[it], it[0], it[2]), default=None)


def in_turn(page, filled, wishes, slots_of):
    """Of each wish's line the place that it takes in its turn, or None."""
    filled, taken = set(filled), {}
    for wish in sorted(wishes, key=lambda it: (TURNS.index(it.channels), it.repetition, it.line)):
        place = fittest(page, filled, slots_of(wish), wish.channels, wish.repetition)
        taken[wish.line] = place
        filled |= page.cells(*place) if place else set()
    return taken


def held_by(page):
    return lambda wish: page.slots(wish.node, wish.channels)


def refusals(page, frames, wishes):
    """Of a line what refuses its wish, where these frames are there."""
    counted = {frame: [node, len(placements)] for frame, (node, placements) in frames.items()}
    told = {}
    for wish in wishes:
        there = counted.get(wish.frame)
        if wish.node not in page.nodes:
            told[wish.line] = "NoNode"
        elif there and there[0] != wish.node:
            told[wish.line] = "NodeDiffers"
        elif not page.slots(wish.node, wish.channels):
            told[wish.line] = "NotGranted"
        elif there[1] >= LIMIT_OF_PLACEMENTS if there else len(counted) >= LIMIT_OF_FRAMES:
            told[wish.line] = "Limit"
        else:
            counted.setdefault(wish.frame, [wish.node, 0])[1] += 1
    return told


def kept_places(page, wishes):
    """What wishes keep of the placements that their frames have, in the order of lines and of reports."""
    left = {frame: sorted(placements, key=lambda it: (it[0], LISTED.index(it[1]), *it[2:])) for frame, (_, placements) in page.frames.items()}
    kept = {}
    for wish in wishes:
        same = [it for it in left.get(wish.frame, ()) if (it[1], it[3]) == (wish.channels, wish.repetition)]
        if same:
            kept[wish.line] = same[0]
            left[wish.frame].remove(same[0])
    return kept


def of_node(page, filled, wishes, replace):
    """What the wishes of one node are given."""
    kept = kept_places(page, wishes) if replace else {}
    beside = filled.union(*(page.cells(*place) for place in kept.values()))
    first = {**kept, **in_turn(page, beside, [it for it in wishes if it.line not in kept], held_by(page))}
    if None not in first.values() or not replace:
        return first
    anew = in_turn(page, filled, wishes, held_by(page))
    return first if None in anew.values() else anew


def slots_lacking(page, wishes):
    """The least number of empty slots in which these wishes take a place each."""
    return next(count for count in range(1, len(wishes) + 1) if None not in in_turn(page, set(), wishes, lambda _: range(1, count + 1)).values())


def propose(page, wishes, replace):
    """Of each line a place, or what refuses its wish; and of each node and channels how many slots lack."""
    named = {it.frame for it in wishes}
    frames = {frame: (node, [] if replace and frame in named else placements) for frame, (node, placements) in page.frames.items()}
    told = refusals(page, frames, wishes)
    asked = [it for it in wishes if it.line not in told]
    given = {}
    for node in sorted({it.node for it in asked}):
        given |= of_node(page, page.filled(frames), [it for it in asked if it.node == node], replace)
    without = [it for it in asked if given[it.line] is None]
    lacks = []
    for node in sorted({it.node for it in without}):
        for channels in LISTED:
            short = [it for it in without if (it.node, it.channels) == (node, channels)]
            lacks += [(node, channels, slots_lacking(page, short))] if short else []
    return {**told, **{line: place or "NoRoom" for line, place in given.items()}}, lacks


# ---- all ways


def is_chain(wishes):
    """Whether of each two repetitions one divides the other."""
    repetitions = sorted({it.repetition for it in wishes})
    return all(more % less == 0 for less, more in zip(repetitions, repetitions[1:]))


def there_is_a_way(page, filled, wishes):
    """Whether each of the wishes can have a place, no two with a cell in common, beside what is filled."""
    return each_placed(page, frozenset(filled), sorted(wishes, key=lambda it: (it.channels, it.repetition, it.line)), (0, 0))


def each_placed(page, filled, wishes, first):
    """Whether the wishes can be placed, the first of them at this slot and base or later. Of two that wish the same, the other's place comes later."""
    if not wishes:
        return True
    wish, *others = wishes
    is_same = bool(others) and (others[0].channels, others[0].repetition) == (wish.channels, wish.repetition)
    for slot in page.slots(wish.node, wish.channels):
        for base in range(wish.repetition):
            cells = page.cells(slot, wish.channels, base, wish.repetition)
            if (slot, base) >= first and filled.isdisjoint(cells) and each_placed(page, filled | cells, others, (slot, base + 1) if is_same else (0, 0)):
                return True
    return False
