"""A supplier's rows as files that it sends: what takes them from one plan to another."""
from ..rowfiles import ROWS, parts, text_of
from .merging import frames_of

BYTES = 65536


class Handed:
    """The files by which a supplier takes its rows from one plan to another, as replacements: whole ones where they fit."""

    def __init__(self, supplier, before, after):
        own = lambda plan: {name: frame for (holder, name), frame in frames_of(plan).items() if holder == supplier}
        self.before, self.after = own(before), own(after)
        # (a frame with another node begins anew, without rows)
        self.anew = {name for name, frame in self.after.items() if name in self.before and self.before[name].node != frame.node}

    def files(self):
        """The name and the text of each file, in the order in which they are sent."""
        kinds = {kind: self.changed(kind) for kind in ("placements", "signals")}
        small = {kind: self.fits(kind) for kind in kinds}
        emptied = {name for kind in kinds if not small[kind] for name in kinds[kind] if not self.rows(kind, [name])}
        if emptied:
            yield "frames_whole", text_of("frames", self.rows("frames", self.after.keys() - emptied))
        if emptied or self.rows("frames", self.after) != [(name, frame.node) for name, frame in sorted(self.before.items())]:
            yield "frames_whole", text_of("frames", self.rows("frames", self.after))
        for kind, names in kinds.items():
            if small[kind] and names | emptied:
                yield f"{kind}_whole", text_of(kind, self.rows(kind, self.after))
            elif names | emptied:
                yield from ((kind, text_of(kind, part)) for part in parts(self.rows(kind, names | emptied)))

    def changed(self, kind):
        """The names of the frames whose rows of a kind are others."""
        return {name for name, frame in self.after.items() if name in self.anew or getattr(frame, kind) != getattr(self.before.get(name), kind, ())}

    def fits(self, kind):
        """Whether a supplier's rows of a kind fit one file."""
        rows = self.rows(kind, self.after)
        return len(rows) <= ROWS and len(text_of(kind, rows)) <= BYTES

    def rows(self, kind, names):
        """The rows of a kind that these frames have."""
        return [row for name in sorted(names) for row in rows_of(kind, self.after[name])]


def rows_of(kind, frame):
    """The rows of a file of this kind that a frame has."""
    if kind == "frames":
        return [(frame.name, frame.node)]
    if kind == "placements":
        return [(frame.name, frame.node, it.slot, it.channels, it.base, it.repetition) for it in frame.placements]
    return [(frame.name, it.name, it.start, it.length, it.order) for it in frame.signals]
