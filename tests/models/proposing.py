"""What the register proposes for wishes, cell by cell: a second way beside the clients', written from the definition.

Wishes take their places on AB first, then on A, then on B; there by repetition, the least first; then by line. Each takes, of the places of which no
cell is filled, the one that breaks fewest coarser repetitions on its channels together, then on each by itself, then the first by slot and base."""

KINDS = "AB", "A", "B"


def cells(slot, channels, base, repetition, cycles):
    return [(slot, channel, cycle) for channel in channels for cycle in range(base, cycles, repetition)]


def breaks(filled, slot, channels, base, repetition, cycles):
    """How many coarser repetitions a place breaks, on the channels together and on each."""
    coarser = [it for it in range(1, repetition) if repetition % it == 0]
    is_whole = lambda its, it: not any(cell in filled for cell in cells(slot, its, base % it, it, cycles))
    return sum(is_whole(channels, it) for it in coarser), sum(is_whole(channel, it) for channel in channels for it in coarser)


def proposed(cycles, lanes, filled, wishes):
    """The slot and base of each wish (node, channels, repetition), or none. `lanes` has the node of each slot and channel, `filled` the cells in which
    something is sent."""
    filled, found = set(filled), {}
    order = sorted(range(len(wishes)), key=lambda number: (KINDS.index(wishes[number][1]), wishes[number][2], number))
    for number in order:
        node, channels, repetition = wishes[number]
        best = None
        for slot in sorted({slot for slot, _ in lanes}):
            if all(lanes.get((slot, channel)) == node for channel in channels):
                for base in range(repetition):
                    if not any(cell in filled for cell in cells(slot, channels, base, repetition, cycles)):
                        key = *breaks(filled, slot, channels, base, repetition, cycles), slot, base
                        best = key if best is None or key < best else best
        found[number] = best and best[2:]
        if best:
            filled.update(cells(best[2], channels, best[3], repetition, cycles))
    return [found[number] for number in range(len(wishes))]
