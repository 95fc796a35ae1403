"""Frames that a description does not have: they come in a package of their own, as `export` writes them, and are sent by its ECUs."""
from dataclasses import replace

from ..plan import Node
from .bus import Bus, timings
from .markup import lines_of
from .naming import Names, sender
from .parts import Parts
from .tree import plain
from .writing import Options, members, types

# The package's name.
TOP = "Slotplan"
FRAMES, SIGNALS = ("FLEXRAY-FRAME", "I-SIGNAL-I-PDU"), ("I-SIGNAL", "SYSTEM-SIGNAL")
PORTS = {"Frames": "FRAME-PORT", "Pdus": "I-PDU-PORT", "Signals": "I-SIGNAL-PORT"}


class Added(Names):
    """The short names of new frames, and the paths by which they and the elements of the file refer to one another."""

    def __init__(self, plan, carrying, top):
        tree = carrying.tree
        short = lambda tags: [name.lower() for tag in tags for it in tree.of_kind(tag) if (name := plain(it.findtext("SHORT-NAME")))]
        super().__init__(plan, None, top, short(FRAMES), short(SIGNALS))
        self.types, self.carrying = f"{top}/Types", carrying

    def of_channel(self, channel, name):
        return f"{self.carrying.tree.path_of[self.carrying.source.channels[channel]]}/{name}"

    def ecu_path(self, node):
        return self.carrying.ecus[node]

    def port_path(self, frame, channel, kind):
        return self.carrying.crossing.port(self.ecu_path(sender(frame)), channel, PORTS[kind])


class Adding:
    """Adds frames to a description."""

    def __init__(self, carrying):
        self.carrying, self.tree, self.changes, self.source = carrying, carrying.tree, carrying.changes, carrying.source

    def add(self, frames):
        plan = self.sendable(frames)
        if not plan.frames:
            return
        top = self.carrying.crossing.free("", TOP)
        names = Added(plan, self.carrying, top)
        root = next(it for it in self.tree.roots if any(element is self.source.of for element in it.iter("FLEXRAY-CLUSTER")))
        self.changes.add(root, ("AR-PACKAGES",), lines_of(lambda out: package(out, plan, names, top)))
        for frame in plan.frames:
            for channel in plan.cluster.channels:
                if timings(frame.placements, channel):
                    self.trigger(plan, names, frame, channel)
        self.list(plan, names)

    def sendable(self, frames):
        """The plan of those frames that an ECU of the file can send; who cannot is told."""
        known = [frame for frame in frames if Node(frame.supplier, frame.node) in self.carrying.ecus]
        for frame in known:
            for channel in {channel for it in frame.placements for channel in it.channels}:
                self.carrying.crossing.port(self.carrying.ecus[sender(frame)], channel, "FRAME-PORT")
        ecus, there = self.carrying.ecus, self.source.connectors
        has = lambda frame: all((ecus[sender(frame)], channel) in there for it in frame.placements for channel in it.channels)
        return replace(self.carrying.plan, frames=tuple(filter(has, known)), nodes=(), grants=())

    def trigger(self, plan, names, frame, channel):
        """The triggerings of a frame, its PDU and its signals on a channel."""
        parent = self.source.channels[channel]
        put = lambda wrapper, work, *more: self.changes.add(
            parent, (wrapper,), lines_of(lambda out: work(Bus(out, plan, names, Options(None)), channel, frame, *more)),
        )
        put("FRAME-TRIGGERINGS", Bus.frame)
        for signal in frame.signals:
            put("I-SIGNAL-TRIGGERINGS", Bus.signal, signal)
        put("PDU-TRIGGERINGS", Bus.pdu)

    def list(self, plan, names):
        """The system names its elements one by one, where it does so."""
        system = next((it for it in self.tree.of_kind("SYSTEM") if it.find("FIBEX-ELEMENTS") is not None), None)
        if system is not None:
            for frame in plan.frames:
                self.changes.add(system, ("FIBEX-ELEMENTS",), lines_of(lambda out: members(out, frame, names)))


def package(out, plan, names, top):
    """The package of all new frames."""
    parts = Parts(out, plan, names)
    with out.of("AR-PACKAGE"):
        out.name(top.rpartition("/")[2])
        with out.of("AR-PACKAGES"):
            for supplier in sorted({frame.supplier for frame in plan.frames}):
                with out.of("AR-PACKAGE"):
                    out.name(names.supplier[supplier])
                    with out.of("AR-PACKAGES"):
                        parts.sent(supplier)
            with out.of("AR-PACKAGE"):
                out.name("Types")
                with out.of("ELEMENTS"):
                    types(out)
