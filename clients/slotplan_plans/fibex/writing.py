"""A plan as FIBEX, release 3.1 or 4.1. What FIBEX has no words for stands in descriptions."""
from decimal import Decimal
from typing import NamedTuple

from ..autosar.bus import REPETITIONS, timings, triggerings
from ..autosar.markup import Markup
from ..autosar.naming import distinct, renamed, sender
from ..autosar.parts import WIDTHS, apart, idle
from ..faults import Fault
from ..plan import Node
from .told import text_of

RELEASES = "3.1", "4.1"
HEAD = """\
<?xml version="1.0" encoding="UTF-8"?>
<fx:FIBEX xmlns:fx="http://www.asam.net/xml/fbx" xmlns:ho="http://www.asam.net/xml" xmlns:flexray="http://www.asam.net/xml/fbx/flexray" \
xmlns:xsi="http://www.w3.org/2001/XMLSchema-instance" VERSION="{release}.0">
"""


class Options(NamedTuple):
    """What the register does not know: the release, the cluster's name and a macrotick's microseconds. `each` gives each timing a triggering of its
    own."""

    release: str = "4.1"
    cluster: str = "FlexRay"
    macrotick: str = None
    each: bool = False


def write(file, plan, options=Options()):
    """Writes the plan to a file that is open for text."""
    if options.release == "3.1" and plan.cluster.figures["cycles"] != 64:
        raise Fault(f"FIBEX 3.1 has 64 cycles, and this cluster {plan.cluster.figures['cycles']}: --fibex 4.1 can tell it")
    Writer(Markup(file), plan, options).write()


class Writer:
    """Writes a plan, its elements in the order of the schema as far as it is known."""

    def __init__(self, markup, plan, options):
        self.out, self.plan, self.options = markup, plan, options
        self.node = distinct({it: (it.name, f"{it.supplier}_{it.name}") for it in plan.nodes})
        self.frame = distinct({it.key: (it.name, "_".join(it.key)) for it in plan.frames})
        signals = [(frame, signal.name) for frame in plan.frames for signal in frame.signals]
        self.signal = distinct({(*frame.key, name): (name, f"{self.frame[frame.key]}_{name}") for frame, name in signals})
        self.idle, self.payload_bytes = idle(plan), plan.cluster.payload_bits // 8

    def write(self):
        self.out.file.write(HEAD.format(release=self.options.release))
        with self.out.of("fx:PROJECT", ID="project"):
            self.name(self.plan.variant.name)
        with self.out.of("fx:ELEMENTS"):
            self.each("fx:CLUSTERS", self.of_cluster, [self.plan.cluster])
            self.each("fx:CHANNELS", self.of_channel, self.plan.cluster.channels)
            self.each("fx:ECUS", self.of_ecu, self.plan.nodes)
            self.each("fx:PDUS", self.of_pdu, self.plan.frames)
            self.each("fx:FRAMES", self.of_frame, self.plan.frames)
            self.each("fx:SIGNALS", self.of_signal, [(frame, signal) for frame in self.plan.frames for signal in frame.signals])
        lengths = sorted({signal.length for frame in self.plan.frames for signal in frame.signals})
        with self.out.of("fx:PROCESSING-INFORMATION"):
            self.each("fx:CODINGS", self.of_coding, lengths)
        self.out.file.write("</fx:FIBEX>\n")

    def each(self, tag, work, rows):
        """An element with an element for each of these rows, where there are some."""
        if rows:
            with self.out.of(tag):
                for row in rows:
                    work(row)

    def name(self, text, told=()):
        """A short name, and what FIBEX has no words for."""
        self.out.leaf("ho:SHORT-NAME", text)
        if told:
            self.out.leaf("ho:DESC", text_of(told))

    def ref(self, tag, identity):
        self.out.leaf(tag, "", **{"ID-REF": identity})

    def of_cluster(self, cluster):
        out = self.out
        with out.of("fx:CLUSTER", **{"ID": "cluster", "xsi:type": "flexray:CLUSTER-TYPE"}):
            self.name(self.options.cluster, [("variant", self.plan.variant.name), *(("supplier", name) for name in cluster.suppliers)])
            out.leaf("fx:SPEED", 10000000)
            out.leaf("fx:IS-HIGH-LOW-BIT-ORDER", "false")
            out.leaf("fx:BIT-COUNTING-POLICY", "MONOTONE")
            out.leaf("fx:PROTOCOL", "FlexRay", **{"xsi:type": "flexray:PROTOCOL-TYPE"})
            out.leaf("fx:PROTOCOL-VERSION", "2.1" if cluster.figures["cycles"] == 64 else "3.0")
            with out.of("fx:CHANNEL-REFS"):
                for letter in cluster.channels:
                    self.ref("fx:CHANNEL-REF", f"channel_{letter}")
            for tag, value in figures(cluster.figures, self.options.macrotick):
                out.leaf(f"flexray:{tag}", value)

    def of_channel(self, letter):
        with self.out.of("fx:CHANNEL", **{"ID": f"channel_{letter}", "xsi:type": "flexray:CHANNEL-TYPE"}):
            self.name(f"Channel_{letter}")
            self.each("fx:FRAME-TRIGGERINGS", self.of_triggering, [it for frame in self.plan.frames for it in self.sent(letter, frame)])
            self.out.leaf("flexray:FLEXRAY-CHANNEL-NAME", letter)

    def sent(self, letter, frame):
        """The triggerings of a frame on a channel: the ID of each, the frame and the timings."""
        for group in triggerings(timings(frame.placements, letter), self.options.each):
            yield "_".join(["triggering", letter, *map(str, group[0]), self.frame[frame.key]]), frame, group

    def of_triggering(self, sent):
        identity, frame, group = sent
        with self.out.of("fx:FRAME-TRIGGERING", ID=identity):
            self.each("fx:TIMINGS", self.of_timing, group)
            self.ref("fx:FRAME-REF", f"frame_{self.frame[frame.key]}")

    def of_timing(self, timing):
        """A repetition that FIBEX has no word for is told cycle by cycle."""
        slot, base, repetition = timing
        if 64 % repetition == 0 or self.options.release != "3.1" and repetition in REPETITIONS:
            return self.absolutely(slot, ("BASE-CYCLE", base), ("CYCLE-REPETITION", repetition))
        for cycle in range(base, self.plan.cluster.figures["cycles"], repetition):
            self.absolutely(slot, ("CYCLE-COUNTER", cycle))

    def absolutely(self, slot, *leaves):
        with self.out.of("fx:ABSOLUTELY-SCHEDULED-TIMING"):
            self.out.leaf("fx:SLOT-ID", slot)
            for tag, text in leaves:
                self.out.leaf(f"fx:{tag}", text)

    def of_ecu(self, node):
        short = self.node[node]
        grants = [("grant", f"{it.slot} {it.channel}") for it in self.idle.get(node, [])]
        with self.out.of("fx:ECU", ID=f"ecu_{short}"):
            self.name(short, [("supplier", node.supplier), *renamed(short, node.name), *grants])
            with self.out.of("fx:CONTROLLERS", "fx:CONTROLLER", **{"ID": f"controller_{short}", "xsi:type": "flexray:CONTROLLER-TYPE"}):
                self.name("Controller")
            with self.out.of("fx:CONNECTORS"):
                for letter in self.plan.cluster.channels:
                    self.of_connector(node, letter)

    def of_connector(self, node, letter):
        mine = [it for it in self.plan.frames if sender(it) == node]
        with self.out.of("fx:CONNECTOR", **{"ID": f"connector_{letter}_{self.node[node]}", "xsi:type": "flexray:CONNECTOR-TYPE"}):
            self.ref("fx:CHANNEL-REF", f"channel_{letter}")
            self.ref("fx:CONTROLLER-REF", f"controller_{self.node[node]}")
            self.each("fx:OUTPUTS", self.of_output, [identity for frame in mine for identity, *_ in self.sent(letter, frame)])

    def of_output(self, triggering):
        with self.out.of("fx:OUTPUT-PORT", ID=f"output_{triggering}"):
            self.ref("fx:FRAME-TRIGGERING-REF", triggering)

    def of_pdu(self, frame):
        short = self.frame[frame.key]
        with self.out.of("fx:PDU", ID=f"pdu_{short}"):
            self.name(short)
            self.out.leaf("fx:BYTE-LENGTH", self.payload_bytes)
            self.out.leaf("fx:PDU-TYPE", "APPLICATION")
            self.each("fx:SIGNAL-INSTANCES", self.of_instance, [(frame, signal) for signal in frame.signals])

    def of_instance(self, row):
        """The place of a signal is that of its least bit in little order, of its greatest in big order, as the register counts."""
        frame, signal = row
        identity = f"signal_{self.signal[(*frame.key, signal.name)]}"
        with self.out.of("fx:SIGNAL-INSTANCE", ID=f"in_{identity}"):
            self.out.leaf("fx:BIT-POSITION", signal.start)
            self.out.leaf("fx:IS-HIGH-LOW-BYTE-ORDER", "true" if signal.order == "big" else "false")
            self.ref("fx:SIGNAL-REF", identity)

    def of_frame(self, frame):
        short = self.frame[frame.key]
        told = renamed(short, frame.name) + [("apart", " ".join(map(str, timing))) for timing in apart(frame.placements)]
        if not frame.placements:
            told.append(("ecu", f"/ECU/{self.node[Node(frame.supplier, frame.node)]}"))
        with self.out.of("fx:FRAME", ID=f"frame_{short}"):
            self.name(short, told)
            self.out.leaf("fx:BYTE-LENGTH", self.payload_bytes)
            self.out.leaf("fx:FRAME-TYPE", "APPLICATION")
            with self.out.of("fx:PDU-INSTANCES", "fx:PDU-INSTANCE", ID=f"in_pdu_{short}"):
                self.ref("fx:PDU-REF", f"pdu_{short}")
                self.out.leaf("fx:BIT-POSITION", 0)
                self.out.leaf("fx:IS-HIGH-LOW-BYTE-ORDER", "false")

    def of_signal(self, row):
        frame, signal = row
        short = self.signal[(*frame.key, signal.name)]
        with self.out.of("fx:SIGNAL", ID=f"signal_{short}"):
            self.name(short, renamed(short, signal.name))
            self.ref("fx:CODING-REF", f"coding_{signal.length}")

    def of_coding(self, length):
        """The coding of a whole number of so many bits, without a sign."""
        kind = {"ho:BASE-DATA-TYPE": f"A_UINT{next(it for it in WIDTHS if length <= it)}", "CATEGORY": "STANDARD-LENGTH-TYPE", "ENCODING": "UNSIGNED"}
        with self.out.of("fx:CODING", ID=f"coding_{length}"):
            self.name(f"coding_{length}")
            with self.out.of("ho:CODED-TYPE", **kind):
                self.out.leaf("ho:BIT-LENGTH", length)


def figures(wanted, macrotick):
    """The elements of the cluster's figures."""
    yield "N-I-T", wanted["idle_macroticks"]
    yield "STATIC-SLOT", wanted["slot_macroticks"]
    yield "SYMBOL-WINDOW", wanted["symbol_macroticks"]
    yield "MACRO-PER-CYCLE", wanted["macroticks_per_cycle"]
    if macrotick:
        yield "MACROTICK", f"{Decimal(macrotick).normalize():f}"
    if wanted["dynamic_macroticks"] == 0:
        yield "NUMBER-OF-MINISLOTS", 0
    yield "NUMBER-OF-STATIC-SLOTS", wanted["static_slots"]
    yield "PAYLOAD-LENGTH-STATIC", wanted["payload_words"]
    if macrotick:
        yield "CYCLE", f"{(Decimal(macrotick) * wanted['macroticks_per_cycle']).normalize():f}"
    if wanted["cycles"] != 64:
        yield "CYCLE-COUNT-MAX", wanted["cycles"] - 1
