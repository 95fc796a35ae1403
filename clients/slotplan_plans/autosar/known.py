"""What the elements of a file are called in the register, as a table: `import` writes it, and who reads the file later knows each again."""
from collections import defaultdict
from dataclasses import dataclass, field
from typing import NamedTuple

from ..faults import Fault
from ..plan import Node
from ..tables import rows_of
from .register_names import NAME

KINDS = "ecu", "frame", "pdu", "signal"


class Row(NamedTuple):
    """An element: its kind and path, and which part of it a signal has; whose it is; and its name in the register. The frame in which a PDU or a
    signal lies is told by the name that it has there. A PDU has a name where it became a signal."""

    kind: str
    path: str
    part: str
    supplier: str
    frame: str
    name: str


@dataclass
class Known:
    """The names of ECUs and frames by their paths, as nodes and as keys of frames, and of signals by frame, path and part, in their order."""

    ecus: dict = field(default_factory=dict)
    frames: dict = field(default_factory=dict)
    signals: dict = field(default_factory=lambda: defaultdict(list))

    def supplier(self, path):
        """The supplier of an ECU, or none."""
        return self.ecus[path].supplier if path in self.ecus else None

    def node(self, path, supplier):
        """The name of a supplier's node, or none."""
        return self.ecus[path].name if supplier and self.supplier(path) == supplier else None

    def frame(self, path, supplier):
        """The name of a supplier's frame, or none."""
        holder, name = self.frames.get(path, (None, None))
        return name if holder == supplier else None

    def signal(self, key, signal, number):
        """The name of a signal of a frame, the one of this number of those with its path and part, or none."""
        names = self.signals.get((*key, signal.path, signal.part), ())
        return names[number] if number < len(names) else None


def read(path):
    """The names in a table."""
    known, holders = Known(), {}
    for line, fields in rows_of(path, Row._fields):
        row, where = Row(*fields), f"{path}: line {line}"
        check(where, row)
        if row.kind in ("ecu", "frame"):
            if holders.setdefault((row.kind, row.supplier, row.name), row.path) != row.path:
                raise Fault(f"{where}: {row.supplier} has {row.name} above already, as another {row.kind}")
            names, called = (known.ecus, Node(row.supplier, row.name)) if row.kind == "ecu" else (known.frames, (row.supplier, row.name))
            if names.setdefault(row.path, called) != called:
                raise Fault(f"{where}: {row.path!a:.200} stands above with another name")
        elif row.name:
            known.signals[row.supplier, row.frame, row.path, row.part].append(row.name)
    return known


def check(where, row):
    """Nothing, where a row has all that its kind has."""
    if row.kind not in KINDS:
        raise Fault(f"{where}: the kind {row.kind!a:.40} is none of {', '.join(KINDS)}")
    if not row.path:
        raise Fault(f"{where}: there is no path")
    wanted = [("supplier", row.supplier)]
    wanted += [("name", row.name)] if row.name or row.kind != "pdu" else []
    wanted += [("frame", row.frame)] if row.kind in ("pdu", "signal") else []
    for column, text in wanted:
        if not NAME.fullmatch(text):
            raise Fault(f"{where}: the {column} {text!a:.40} is no name of the register")

