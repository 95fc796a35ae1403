"""A plan's cluster as AUTOSAR has it: its figures, and on each channel the triggerings of frames, PDUs and signals.

Elements stand in the schema's order."""
from decimal import Decimal

# The words of CYCLE-REPETITION. Another repetition, as 3 of 12 cycles, is written cycle by cycle.
REPETITIONS = (1, 2, 4, 5, 8, 10, 16, 20, 32, 40, 50, 64)


def seconds(microseconds, macroticks):
    """So many macroticks in seconds."""
    return f"{(Decimal(microseconds) * macroticks / 1000000).normalize():f}"


def figures(plan, macrotick):
    """The elements of the cluster's figures."""
    wanted = plan.cluster.figures
    if macrotick:
        yield "CYCLE", seconds(macrotick, wanted["macroticks_per_cycle"])
    yield "CYCLE-COUNT-MAX", wanted["cycles"] - 1
    yield "MACRO-PER-CYCLE", wanted["macroticks_per_cycle"]
    if macrotick:
        yield "MACROTICK-DURATION", seconds(macrotick, 1)
    yield "NETWORK-IDLE-TIME", wanted["idle_macroticks"]
    if wanted["dynamic_macroticks"] == 0:
        yield "NUMBER-OF-MINISLOTS", 0
    yield "NUMBER-OF-STATIC-SLOTS", wanted["static_slots"]
    yield "PAYLOAD-LENGTH-STATIC", wanted["payload_words"]
    yield "STATIC-SLOT-DURATION", wanted["slot_macroticks"]
    yield "SYMBOL-WINDOW", wanted["symbol_macroticks"]


def timings(placements, channel):
    """The slot, base and repetition of each placement on the channel."""
    return [(it.slot, it.base, it.repetition) for it in placements if channel in it.channels]


def triggerings(found, each):
    """The timings of a frame on a channel by triggering: all in one, or each in one. A repetition that AUTOSAR has no word for has one of its own."""
    together = [] if each else [timing for timing in found if timing[2] in REPETITIONS]
    return ([together] if together else []) + [[timing] for timing in found if timing not in together]


class Bus:
    """Writes the cluster of a plan."""

    def __init__(self, markup, plan, names, options):
        self.markup, self.plan, self.names, self.options = markup, plan, names, options

    def write(self):
        out, cluster = self.markup, self.plan.cluster
        with out.of("FLEXRAY-CLUSTER"):
            out.name(self.options.cluster)
            out.told([("variant", self.plan.variant.name), *(("supplier", name) for name in cluster.suppliers)])
            with out.of("FLEXRAY-CLUSTER-VARIANTS", "FLEXRAY-CLUSTER-CONDITIONAL"):
                with out.of("PHYSICAL-CHANNELS"):
                    for channel in cluster.channels:
                        self.channel(channel)
                out.leaf("PROTOCOL-NAME", "FlexRay")
                out.leaf("PROTOCOL-VERSION", "2.1" if cluster.figures["cycles"] == 64 else "3.0")
                for tag, value in figures(self.plan, self.options.macrotick):
                    out.leaf(tag, value)

    def channel(self, channel):
        out = self.markup
        sent = [(it,) for it in self.plan.frames if timings(it.placements, channel)]
        with out.of("FLEXRAY-PHYSICAL-CHANNEL"):
            out.name(f"Channel_{channel}")
            self.each("COMM-CONNECTORS", self.connector, channel, [(node,) for node in self.plan.nodes])
            self.each("FRAME-TRIGGERINGS", self.frame, channel, sent)
            self.each("I-SIGNAL-TRIGGERINGS", self.signal, channel, [(frame, signal) for (frame,) in sent for signal in frame.signals])
            self.each("PDU-TRIGGERINGS", self.pdu, channel, sent)
            out.leaf("CHANNEL-NAME", f"CHANNEL-{channel}")

    def each(self, tag, work, channel, rows):
        """An element with an element for each of these rows. AUTOSAR wants no empty ones."""
        if rows:
            with self.markup.of(tag):
                for row in rows:
                    work(channel, *row)

    def connector(self, channel, node):
        with self.markup.of("COMMUNICATION-CONNECTOR-REF-CONDITIONAL"):
            path = f"{self.names.ecu_path(node)}/Connector_{channel}"
            self.markup.ref("COMMUNICATION-CONNECTOR-REF", "FLEXRAY-COMMUNICATION-CONNECTOR", path)

    def frame(self, channel, frame):
        for found in triggerings(timings(frame.placements, channel), self.options.each):
            self.triggering(channel, frame, found)

    def triggering(self, channel, frame, found):
        out, short = self.markup, self.names.frame[frame.key]
        with out.of("FLEXRAY-FRAME-TRIGGERING"):
            out.name("_".join(["Slot", *map(str, found[0]), short]))
            with out.of("FRAME-PORT-REFS"):
                out.ref("FRAME-PORT-REF", "FRAME-PORT", self.names.port_path(frame, channel, "Frames"))
            out.ref("FRAME-REF", "FLEXRAY-FRAME", self.names.frame_path(frame))
            with out.of("PDU-TRIGGERINGS", "PDU-TRIGGERING-REF-CONDITIONAL"):
                out.ref("PDU-TRIGGERING-REF", "PDU-TRIGGERING", self.names.of_channel(channel, f"Pdu_{short}"))
            with out.of("ABSOLUTELY-SCHEDULED-TIMINGS"):
                for timing in found:
                    self.timing(*timing)
            out.leaf("PAYLOAD-PREAMBLE-INDICATOR", "false")

    def timing(self, slot, base, repetition):
        if repetition in REPETITIONS:
            self.sent(slot, "CYCLE-REPETITION", ("BASE-CYCLE", base), ("CYCLE-REPETITION", f"CYCLE-REPETITION-{repetition}"))
        else:
            for cycle in range(base, self.plan.cluster.figures["cycles"], repetition):
                self.sent(slot, "CYCLE-COUNTER", ("CYCLE-COUNTER", cycle))

    def sent(self, slot, kind, *leaves):
        out = self.markup
        with out.of("FLEXRAY-ABSOLUTELY-SCHEDULED-TIMING"):
            with out.of("COMMUNICATION-CYCLE", kind):
                for tag, text in leaves:
                    out.leaf(tag, text)
            out.leaf("SLOT-ID", slot)

    def signal(self, channel, frame, signal):
        out, names = self.markup, self.names
        with out.of("I-SIGNAL-TRIGGERING"):
            out.name(f"Signal_{names.of_signal(frame, signal)}")
            with out.of("I-SIGNAL-PORT-REFS"):
                out.ref("I-SIGNAL-PORT-REF", "I-SIGNAL-PORT", names.port_path(frame, channel, "Signals"))
            out.ref("I-SIGNAL-REF", "I-SIGNAL", names.signal_path(frame, signal))

    def pdu(self, channel, frame):
        out, names = self.markup, self.names
        with out.of("PDU-TRIGGERING"):
            out.name(f"Pdu_{names.frame[frame.key]}")
            with out.of("I-PDU-PORT-REFS"):
                out.ref("I-PDU-PORT-REF", "I-PDU-PORT", names.port_path(frame, channel, "Pdus"))
            out.ref("I-PDU-REF", "I-SIGNAL-I-PDU", names.pdu_path(frame))
            self.each("I-SIGNAL-TRIGGERINGS", self.signal_of_pdu, channel, [(frame, signal) for signal in frame.signals])

    def signal_of_pdu(self, channel, frame, signal):
        with self.markup.of("I-SIGNAL-TRIGGERING-REF-CONDITIONAL"):
            path = self.names.of_channel(channel, f"Signal_{self.names.of_signal(frame, signal)}")
            self.markup.ref("I-SIGNAL-TRIGGERING-REF", "I-SIGNAL-TRIGGERING", path)
