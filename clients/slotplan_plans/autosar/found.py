"""What a system description tells of its cluster, and what is told of it that a register cannot hold."""
from dataclasses import dataclass, field
from typing import Any, NamedTuple

from ..plan import Signal

# What may have become of a thing. What needs a look stands first.
KINDS = ("left out", "changed", "not kept")


class Note(NamedTuple):
    """What became of a thing: `left out` is a row that the register does not have, `changed` one that it has in another form, `not kept` all else."""

    kind: str
    what: str
    why: str


class Timing(NamedTuple):
    """Where a frame is sent on one channel."""

    channel: str
    slot: int
    base: int
    repetition: int

    def __str__(self):
        return f"slot {self.slot} on {self.channel}, base {self.base}, repetition {self.repetition}"


@dataclass(frozen=True, order=True, slots=True)
class FoundSignal(Signal):
    """A signal, the path in the file of what it was, and which part of that it is: `update` is its update bit, a number a piece of many bits."""

    path: str = ""
    part: str = ""


@dataclass
class Ecu:
    """An ECU; its supplier, where the file names it; and the slots and channels that it holds without a frame."""

    name: str
    supplier: str = None
    idle: list = field(default_factory=list)


@dataclass
class FoundFrame:
    """A frame: its bytes, the paths of the ECUs that send it, its timings, those of them that are placed on A and on B apart, and its signals.
    `elements` are those of each timing in the file, and `pdus` the paths of its PDUs."""

    name: str
    length: int
    senders: set = field(default_factory=set)
    timings: list = field(default_factory=list)
    apart: set = field(default_factory=set)
    signals: list = field(default_factory=list)
    elements: dict = field(default_factory=dict)
    pdus: list = field(default_factory=list)


@dataclass
class Found:
    """`figures` has the keys of the cluster file; ECUs and frames go by their paths. `variant` is none where the file is no plan of a register.
    `source` is what the file was read from, where it can be written anew."""

    channels: str
    figures: dict
    variant: str
    suppliers: list
    ecus: dict
    frames: dict
    notes: list
    comment: str
    source: Any = None


def folded(cycles, count):
    """A set of cycles as bases and repetitions, which divide the count of cycles: the most frequent first."""
    left, found = set(cycles), []
    for repetition in (it for it in range(1, count + 1) if count % it == 0):
        for base in range(repetition):
            selected = set(range(base, count, repetition))
            if selected <= left:
                left -= selected
                found.append((base, repetition))
    return found
