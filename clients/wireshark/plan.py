"""A plan as Wireshark's tables need it: the frames with their signals, and which frame is sent in which cell."""
from typing import NamedTuple

from ..slotplan_plans import reading


class Frame(NamedTuple):
    """The name of a frame, which is its supplier's own."""

    supplier: str
    name: str

    def __str__(self):
        return f"{self.supplier}.{self.name}"


class Cell(NamedTuple):
    """A cycle, a static slot and a channel, `A` or `B`."""

    cycle: int
    slot: int
    channel: str


class Plan(NamedTuple):
    """What its reader sees: the cluster's figures, the signals of each frame, and the frame of each cell in which one is sent."""

    figures: dict
    signals: dict
    cells: dict

    @property
    def payload_bytes(self):
        return 2 * self.figures["payload_words"]

    @property
    def cycles(self):
        return self.figures["cycles"]


def read(source, variant):
    """The plan of a variant, from a source of the package slotplan_plans."""
    plan = reading.read(source, variant)
    figures = plan.cluster.figures
    signals = {Frame(*frame.key): list(frame.signals) for frame in plan.frames}
    cells = {
        Cell(cycle, placed.slot, channel): Frame(*frame.key)
        for frame in plan.frames
        for placed in frame.placements
        for channel in placed.channels
        for cycle in range(placed.base, figures["cycles"], placed.repetition)
    }
    return Plan(figures, signals, cells)
