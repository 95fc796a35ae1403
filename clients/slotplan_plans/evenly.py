"""Slots for a gap below a cycle: a frame is sent in each of them in every cycle, and they lie as evenly apart as may be."""
from bisect import bisect_left, bisect_right
from math import ceil

MOST = 8


def fewest(figures, macroticks):
    """How many slots keep the gap at least, if all are free: within the cycle the longest steps that keep it, and the first slot of the next cycle
    within the gap from the last. None where no slots do."""
    step = int(macroticks // figures["slot_macroticks"])
    across = ceil((figures["macroticks_per_cycle"] - macroticks) / figures["slot_macroticks"])
    if step < 1 or across > figures["static_slots"] - 1:
        return None
    return 1 + ceil(across / step)


def widest(slots, figures):
    """The longest time from one of these slots to the next, round the ring of a cycle."""
    moments = sorted((slot - 1) * figures["slot_macroticks"] for slot in slots)
    return max(later - earlier for earlier, later in zip(moments, [*moments[1:], moments[0] + figures["macroticks_per_cycle"]]))


def chosen(slots, figures, macroticks):
    """The fewest of these slots that keep the gap, as evenly apart as may be; none where no eight do."""
    slots = sorted(slots)
    moments = [(slot - 1) * figures["slot_macroticks"] for slot in slots]
    least = by_longest_steps(moments, figures["macroticks_per_cycle"], macroticks)
    if least is None:
        return None
    even = (apart(moments, first, len(least), figures["macroticks_per_cycle"]) for first in range(len(slots)))
    found = [[slots[place] for place in places] for places in [least, *filter(None, even)]]
    return min(found, key=lambda it: (widest(it, figures), it))


def by_longest_steps(moments, cycle, macroticks):
    """The places of the fewest moments that keep the gap: from each moment on the longest steps round the ring. None where no eight do."""
    ring, best = [*moments, *(it + cycle for it in moments)], None
    for first in range(len(moments)):
        found, at = [], first
        while at < first + len(moments) and len(found) < MOST:
            found.append(at % len(moments))
            further = min(bisect_right(ring, ring[at] + macroticks) - 1, first + len(moments))
            if further == at:
                break
            at = further
        if at == first + len(moments) and (best is None or len(found) < len(best)):
            best = sorted(found)
    return best


def apart(moments, first, count, cycle):
    """The places of so many moments, each the nearest to where it would be if all were evenly apart; none where two are one."""
    found = {nearest(moments, (moments[first] + number * cycle / count) % cycle, cycle) for number in range(count)}
    return sorted(found) if len(found) == count else None


def nearest(moments, moment, cycle):
    """The place of the moment that is nearest, round the ring."""
    at = bisect_left(moments, moment)
    away = lambda place: min(abs(moments[place] - moment), cycle - abs(moments[place] - moment))
    return min({at % len(moments), at - 1 if at else len(moments) - 1}, key=lambda place: (away(place), place))
