"""What each supplier has, as AUTOSAR has it: ECUs with their ports, frames, a PDU for each frame, and signals.

Elements stand in the schema's order."""
from ..plan import Node
from .naming import renamed, sender

ORDERS = {"little": "MOST-SIGNIFICANT-BYTE-LAST", "big": "MOST-SIGNIFICANT-BYTE-FIRST"}
# The widths of the types of signals, in bits.
WIDTHS = (8, 16, 32, 64)
PORTS = ("FRAME-PORT", "Frames"), ("I-PDU-PORT", "Pdus"), ("I-SIGNAL-PORT", "Signals")


def apart(placements):
    """What is placed on A and on B by two placements, where one on AB would fill the same cells."""
    on = {channel: {(it.slot, it.base, it.repetition) for it in placements if it.channels == channel} for channel in "AB"}
    return sorted(on["A"] & on["B"])


def idle(plan):
    """The grants of each node that no frame uses."""
    used = {(it.slot, channel) for frame in plan.frames for it in frame.placements for channel in it.channels}
    found = {}
    for it in plan.grants:
        if it.lane not in used:
            found.setdefault(Node(it.supplier, it.node), []).append(it)
    return found


class Parts:
    """Writes the packages of suppliers."""

    def __init__(self, markup, plan, names):
        self.markup, self.plan, self.names = markup, plan, names
        self.idle, self.payload_bytes = idle(plan), plan.cluster.payload_bits // 8

    def write(self, supplier):
        with self.markup.of("AR-PACKAGE"):
            self.markup.name(self.names.supplier[supplier])
            with self.markup.of("AR-PACKAGES"):
                self.package("Ecus", self.ecu, [(it,) for it in self.plan.nodes if it.supplier == supplier])
                self.sent(supplier)

    def sent(self, supplier):
        """The packages of what the supplier sends."""
        frames = [it for it in self.plan.frames if it.supplier == supplier]
        signals = [(frame, signal) for frame in frames for signal in frame.signals]
        self.package("Frames", self.frame, [(it,) for it in frames])
        self.package("Pdus", self.pdu, [(it,) for it in frames])
        self.package("Signals", self.signal, signals)
        self.package("SystemSignals", self.system_signal, signals)

    def package(self, name, work, rows):
        with self.markup.of("AR-PACKAGE"):
            self.markup.name(name)
            if rows:
                with self.markup.of("ELEMENTS"):
                    for row in rows:
                        work(*row)

    def ecu(self, node):
        out, short = self.markup, self.names.node[node]
        with out.of("ECU-INSTANCE"):
            out.name(short)
            grants = [("grant", f"{it.slot} {it.channel}") for it in self.idle.get(node, [])]
            out.told([("supplier", node.supplier), *renamed(short, node.name), *grants])
            with out.of("COMM-CONTROLLERS", "FLEXRAY-COMMUNICATION-CONTROLLER"):
                out.name("Controller")
            with out.of("CONNECTORS"):
                for channel in self.plan.cluster.channels:
                    self.connector(node, channel)

    def connector(self, node, channel):
        out = self.markup
        with out.of("FLEXRAY-COMMUNICATION-CONNECTOR"):
            out.name(f"Connector_{channel}")
            out.ref("COMM-CONTROLLER-REF", "FLEXRAY-COMMUNICATION-CONTROLLER", f"{self.names.ecu_path(node)}/Controller")
            with out.of("ECU-COMM-PORT-INSTANCES"):
                for tag, kind in PORTS:
                    with out.of(tag):
                        out.name(f"{kind}_Out")
                        out.leaf("COMMUNICATION-DIRECTION", "OUT")

    def frame(self, frame):
        out, short = self.markup, self.names.frame[frame.key]
        rows = renamed(short, frame.name) + [("apart", " ".join(map(str, timing))) for timing in apart(frame.placements)]
        if not frame.placements:
            rows.append(("ecu", self.names.ecu_path(sender(frame))))
        with out.of("FLEXRAY-FRAME"):
            out.name(short)
            out.told(rows)
            out.leaf("FRAME-LENGTH", self.payload_bytes)
            with out.of("PDU-TO-FRAME-MAPPINGS", "PDU-TO-FRAME-MAPPING"):
                out.name("Pdu")
                out.leaf("PACKING-BYTE-ORDER", ORDERS["little"])
                out.ref("PDU-REF", "I-SIGNAL-I-PDU", self.names.pdu_path(frame))
                out.leaf("START-POSITION", 0)

    def pdu(self, frame):
        out = self.markup
        with out.of("I-SIGNAL-I-PDU"):
            out.name(self.names.frame[frame.key])
            out.leaf("LENGTH", self.payload_bytes)
            if frame.signals:
                with out.of("I-SIGNAL-TO-PDU-MAPPINGS"):
                    for signal in frame.signals:
                        self.mapping(frame, signal)
            out.leaf("UNUSED-BIT-PATTERN", 0)

    def mapping(self, frame, signal):
        """`START-POSITION` counts as the register does: of a little signal it is the least significant bit, of a big one the most significant."""
        out = self.markup
        with out.of("I-SIGNAL-TO-I-PDU-MAPPING"):
            out.name(self.names.of_signal(frame, signal))
            out.ref("I-SIGNAL-REF", "I-SIGNAL", self.names.signal_path(frame, signal))
            out.leaf("PACKING-BYTE-ORDER", ORDERS[signal.order])
            out.leaf("START-POSITION", signal.start)
            out.leaf("TRANSFER-PROPERTY", "PENDING")

    def signal(self, frame, signal):
        out, short = self.markup, self.names.of_signal(frame, signal)
        with out.of("I-SIGNAL"):
            out.name(short)
            out.told(renamed(short, signal.name))
            out.leaf("DATA-TYPE-POLICY", "OVERRIDE")
            out.leaf("LENGTH", signal.length)
            with out.of("NETWORK-REPRESENTATION-PROPS", "SW-DATA-DEF-PROPS-VARIANTS", "SW-DATA-DEF-PROPS-CONDITIONAL"):
                out.ref("BASE-TYPE-REF", "SW-BASE-TYPE", f"{self.names.types}/uint{next(width for width in WIDTHS if signal.length <= width)}")
                out.ref("COMPU-METHOD-REF", "COMPU-METHOD", f"{self.names.types}/Identical")
            out.ref("SYSTEM-SIGNAL-REF", "SYSTEM-SIGNAL", self.names.signal_path(frame, signal, "SystemSignals"))

    def system_signal(self, frame, signal):
        with self.markup.of("SYSTEM-SIGNAL"):
            self.markup.name(self.names.of_signal(frame, signal))
            self.markup.leaf("DYNAMIC-LENGTH", "false")
