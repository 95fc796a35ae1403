"""A plan in which rows have changed by chance, as a register's suppliers and its integrator may change them."""
from dataclasses import replace

from clients.slotplan_plans.plan import Frame, Grant, Node, Placement, Signal

from .damaged import cells_of

TRIES = 200


class Changing:
    """Changes a plan row by row, and keeps to the register's rules: a lane has one node, a cell one frame, a frame at most 8 placements."""

    def __init__(self, plan, dice):
        self.plan, self.dice = plan, dice
        self.cycles, self.slots = plan.cluster.figures["cycles"], plan.cluster.figures["static_slots"]
        self.lanes = {it.lane: Node(it.supplier, it.node) for it in plan.grants}
        self.frames = {frame.key: frame for frame in plan.frames}

    def made(self):
        """The plan as it is now; lanes that are used no more stay granted."""
        grants = sorted(Grant(*lane, node.supplier, node.name) for lane, node in self.lanes.items())
        return replace(self.plan, grants=tuple(grants), frames=tuple(sorted(self.frames.values())))

    def a_frame(self, placed=True):
        found = [it for it in self.frames.values() if it.placements or not placed]
        return self.dice.choice(found) if found else None

    def filled(self, without=None):
        """The cells that are sent in, but for one frame's placement."""
        for frame in self.frames.values():
            rest = [it for it in frame.placements if (frame.key, it) != without]
            yield from cells_of(replace(frame, placements=tuple(rest)), self.cycles)

    def place(self, frame, wanted, without=None):
        """A free place for a frame of this form: `wanted` gives slot, channels, base and repetition by chance."""
        filled, node = set(self.filled(without)), Node(frame.supplier, frame.node)
        for _ in range(TRIES):
            it = Placement(*wanted())
            cells = set(cells_of(replace(frame, placements=(it,)), self.cycles))
            free = all(self.lanes.get((it.slot, channel), node) == node for channel in it.channels)
            if free and not cells & filled and it not in frame.placements:
                self.lanes |= {(it.slot, channel): node for channel in it.channels}
                return it
        return None

    def anywhere(self):
        repetition = self.dice.choice([it for it in (1, 2, 4, 5, 8, 16, 32, 64) if self.cycles % it == 0])
        channels = self.dice.choice([self.plan.cluster.channels, *self.plan.cluster.channels])
        return self.dice.randint(1, self.slots), channels, self.dice.randrange(repetition), repetition

    def move(self, same_channels=False):
        """A placement goes elsewhere. Gives it before and after, with its frame's key; or nothing, where there is no room."""
        if (frame := self.a_frame()) is None:
            return None
        old = self.dice.choice(frame.placements)
        new = self.place(frame, lambda: self.like(old) if same_channels else self.anywhere(), (frame.key, old))
        if new is not None:
            rest = [it for it in frame.placements if it != old]
            self.frames[frame.key] = replace(frame, placements=tuple(sorted([*rest, new])))
        return None if new is None else (frame.key, old, new)

    def like(self, old):
        slot, _, base, repetition = self.anywhere()
        return slot, old.channels, base, repetition

    def more(self):
        """A frame has a placement more."""
        frame = self.a_frame(placed=False)
        if frame and len(frame.placements) < 8 and (new := self.place(frame, self.anywhere)):
            self.frames[frame.key] = replace(frame, placements=tuple(sorted([*frame.placements, new])))

    def less(self):
        """A frame has a placement less, or none any more."""
        if frame := self.a_frame():
            rest = frame.placements[1:] if self.dice.random() < 0.7 else ()
            self.frames[frame.key] = replace(frame, placements=rest)

    def apart(self):
        """A frame is sent on A and on B by two placements in place of one."""
        for frame in self.frames.values():
            both = [it for it in frame.placements if it.channels == "AB"]
            if both and len(frame.placements) < 8:
                rest = [it for it in frame.placements if it != both[0]]
                parts = [replace(both[0], channels=channel) for channel in "AB"]
                self.frames[frame.key] = replace(frame, placements=tuple(sorted([*rest, *parts])))
                return

    def new(self):
        """A node sends a new frame with signals."""
        node = self.dice.choice(self.plan.nodes)
        name = self.dice.choice([f"new_{len(self.frames)}", f"N{len(self.frames)}"])
        frame = Frame(node.supplier, name, node.name)
        if (placed := self.place(frame, self.anywhere)) and frame.key not in self.frames:
            bits = self.plan.cluster.payload_bits
            signals = [Signal(0, min(9, bits), "little", "speed"), Signal(23, 8, "big", "torque")][: 2 if bits >= 32 else bool(bits)]
            self.frames[frame.key] = replace(frame, placements=(placed,), signals=tuple(signals))

    def dropped(self):
        """A frame is gone."""
        if self.frames:
            del self.frames[self.dice.choice(sorted(self.frames))]

    def resent(self):
        """A frame is sent by another node of its supplier, elsewhere."""
        if (frame := self.a_frame(placed=False)) is None:
            return
        others = [it for it in self.plan.nodes if it.supplier == frame.supplier and it.name != frame.node]
        if others:
            moved = replace(frame, node=self.dice.choice(others).name, placements=())
            new = self.place(moved, self.anywhere)
            self.frames[frame.key] = replace(moved, placements=(new,) if new else ())
