"""What a variant becomes by the next release of its file, where what was planned in the variant meanwhile stays."""
from dataclasses import replace

from ..bits import bits
from ..plan import Grant, Node


class Merged:
    """The plan that a variant becomes. `before` is the plan of the file's last release, where it is at hand; else the names that are known tell what
    that had. `both` has what the file and the variant changed each in its own way, and `held` the file's placements that have no room; of both the
    variant's stays."""

    def __init__(self, variant, proposal, known, before=None):
        self.variant, self.file, self.known, self.before = variant, proposal.plan, known, before
        self.is_whole = proposal.found.variant is not None
        self.both, self.held = [], []
        self.plan = self.made()

    def made(self):
        mine, theirs = frames_of(self.variant), frames_of(self.file)
        base = frames_of(self.before) if self.before else {}
        found = {}
        for key in sorted(mine.keys() | theirs.keys()):
            frame = self.frame(key, mine.get(key), theirs.get(key), base.get(key))
            if frame is not None:
                found[key] = frame
        frames = self.placed(found, mine)
        nodes = tuple(sorted({*self.variant.nodes, *self.file.nodes}))
        return replace(self.variant, nodes=nodes, grants=self.grants(frames), frames=tuple(sorted(frames.values())))

    def frame(self, key, mine, theirs, base):
        """The frame as it becomes, or none."""
        if mine and theirs:
            return self.merged(mine, theirs, base)
        if theirs:
            if not self.was_there(key):
                return theirs
            if base not in (None, theirs):
                self.both.append(f"FRAME {key[1]} {key[0]}: the file changes it, and the variant has it no more")
            return None
        if not self.was_there(key):
            return mine
        if base not in (None, mine):
            self.both.append(f"FRAME {key[1]} {key[0]}: the file has it no more, and the variant changed it")
            return mine
        return None

    def was_there(self, key):
        """Whether the last release of the file had a frame. Where nothing tells, all that the variant has was in the file."""
        if self.before:
            return key in frames_of(self.before)
        return key in self.known.frames.values() if self.known.frames else key in frames_of(self.variant)

    def merged(self, mine, theirs, base):
        """A frame that both have. Without its last release it is as the file has it, but for signals that the file never had."""
        if base is None:
            names = {name for (supplier, frame, *_), known in self.known.signals.items() if (supplier, frame) == mine.key for name in known}
            used = {place for it in theirs.signals for place in bits(it)}
            new = [it for it in mine.signals if self.known.frames and it.name not in names and not used & set(bits(it))]
            own = {it.name for it in theirs.signals}
            return replace(theirs, signals=tuple(sorted([*theirs.signals, *(it for it in new if it.name not in own)])))
        what = f"FRAME {mine.name} {mine.supplier}"
        node = self.one(f"{what}: its node", mine.node, theirs.node, base.node)
        placements = self.rows(f"{what}: its placements", mine.placements, theirs.placements, base.placements)
        signals = self.rows(f"{what}: its signals", mine.signals, theirs.signals, base.signals)
        places = [place for it in signals for place in bits(it)]
        if len(set(places)) < len(places) or len({it.name for it in signals}) < len(signals):
            self.both.append(f"{what}: its signals")
            signals = mine.signals
        return replace(mine, node=node, placements=placements, signals=signals)

    def one(self, what, mine, theirs, base):
        """What becomes of a thing that each may have changed."""
        if theirs in (base, mine):
            return mine
        if mine == base:
            return theirs
        self.both.append(what)
        return mine

    def rows(self, what, mine, theirs, base):
        """What becomes of rows: changes of other rows are both kept. A row that the variant gave up, as a slot that another waits for, has the file's
        in its place; one for which it has another stays as it is."""
        if set(theirs) in (set(base), set(mine)):
            return mine
        gone, own, new = set(base) - set(theirs), set(base) - set(mine), set(mine) - set(base) - set(theirs)
        if gone & own and new:
            self.both.append(what)
            return mine
        return tuple(sorted((set(mine) - gone) | (set(theirs) - set(base))))

    def placed(self, frames, mine):
        """The frames with the placements that have room beside those that stay: a cell has one frame, and a slot one node."""
        cycles, filled, lanes = self.variant.cluster.figures["cycles"], {}, {}
        found = {key: [] for key in frames}
        is_mine = lambda key, it: key in mine and it in mine[key].placements and frames[key].node == mine[key].node
        wanted = [(key, it) for key, frame in frames.items() for it in frame.placements]
        for key, it in sorted(wanted, key=lambda row: (not is_mine(*row), *row)):
            node = Node(key[0], frames[key].node)
            cells = [(it.slot, channel, cycle) for channel in it.channels for cycle in range(it.base, cycles, it.repetition)]
            other = next((filled[cell] for cell in cells if cell in filled), None)
            holder = next((lanes[lane] for channel in it.channels if lanes.get(lane := (it.slot, channel), node) != node), None)
            if other or holder:
                told = f"AT {key[1]} {it.slot:04} {it.channels} {it.base:02} {it.repetition:02} {key[0]}"
                why = f"{' '.join(reversed(other))} is sent there" if other else f"{holder.name} {holder.supplier} sends in the slot"
                self.held.append(f"{told}: {why}")
            else:
                found[key].append(it)
                filled |= dict.fromkeys(cells, key)
                lanes |= {(it.slot, channel): node for channel in it.channels}
        return {key: replace(frame, placements=tuple(sorted(found[key]))) for key, frame in frames.items()}

    def grants(self, frames):
        """The grants that the frames need, and those that the variant has of other slots; of a plan's own file, also those that no frame uses."""
        held = {it.lane: it for it in (*(self.file.grants if self.is_whole else ()), *self.variant.grants)}
        for frame in frames.values():
            for it in frame.placements:
                held |= {(it.slot, channel): Grant(it.slot, channel, frame.supplier, frame.node) for channel in it.channels}
        return tuple(sorted(held.values()))


def frames_of(plan):
    return {frame.key: frame for frame in plan.frames}
