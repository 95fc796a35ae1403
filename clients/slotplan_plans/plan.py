"""A plan as a register's reports tell it: the cluster, and a variant's nodes, grants and frames. Rows are sorted as the reports have them."""
from dataclasses import dataclass, field

# The cluster's figures by their keys in a cluster file, in the order of the report `cluster`, which has the channels before them.
FIGURES = (
    "static_slots", "slot_macroticks", "dynamic_macroticks", "symbol_macroticks", "idle_macroticks", "macroticks_per_cycle", "payload_words", "cycles"
)


@dataclass(frozen=True)
class Cluster:
    """`channels` is `A`, `B` or `AB`; `figures` has a number for each of FIGURES; of the suppliers a supplier sees itself alone."""

    channels: str
    figures: dict
    suppliers: tuple

    @property
    def payload_bits(self):
        return 16 * self.figures["payload_words"]


@dataclass(frozen=True, order=True, slots=True)
class Variant:
    """A variant, and its parent: none where it was opened empty or flat."""

    name: str
    parent: str | None
    depth: int
    is_released: bool


@dataclass(frozen=True, order=True, slots=True)
class Node:
    """A node, whose name is its supplier's own."""

    supplier: str
    name: str


@dataclass(frozen=True, order=True, slots=True)
class Grant:
    """A slot on a channel, `A` or `B`, that a supplier's node holds."""

    slot: int
    channel: str
    supplier: str
    node: str

    @property
    def lane(self):
        return self.slot, self.channel


@dataclass(frozen=True, order=True, slots=True)
class Placement:
    """Where a frame is sent: on `A`, `B` or `AB`, in the cycles of a base and a repetition."""

    slot: int
    channels: str
    base: int
    repetition: int


@dataclass(frozen=True, order=True, slots=True)
class Signal:
    """A signal of so many bits. `start` is the payload bit of its least bit where its order is `little`, of its greatest where it is `big`."""

    start: int
    length: int
    order: str
    name: str


@dataclass(frozen=True, order=True, slots=True)
class Frame:
    """A frame, whose name is its supplier's own in the variant, with its placements and its signals."""

    supplier: str
    name: str
    node: str
    placements: tuple = ()
    signals: tuple = ()

    @property
    def key(self):
        return self.supplier, self.name


@dataclass(frozen=True)
class Plan:
    """A variant as its reader sees it: the integrator all rows, a supplier its own. The reader is a supplier, or none where it is the integrator, or
    has no node."""

    cluster: Cluster
    variant: Variant
    nodes: tuple
    grants: tuple
    frames: tuple
    reader: str | None = field(default=None, compare=False)
