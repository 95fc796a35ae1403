"""Reads what a frame's payload holds: its PDUs, and the signals that are mapped to them."""
from .found import FoundSignal

ORDERS = {"MOST-SIGNIFICANT-BYTE-LAST": "little", "MOST-SIGNIFICANT-BYTE-FIRST": "big", "OPAQUE": "little"}
# PDUs whose signals are all mapped to them.
PLAIN = ("I-SIGNAL-I-PDU", "NM-PDU")


class Payloads:
    """Reads the signals of frames. A bit that is used for anything becomes a signal's."""

    def __init__(self, reader, figures):
        self.tree, self.note = reader.tree, reader.note
        self.payload_bytes = 2 * figures["payload_words"]

    def frame(self, path, frame):
        for mapping in self.tree.at(path).iter("PDU-TO-FRAME-MAPPING"):
            self.pdu(path, frame, mapping)

    def target(self, mapping, tag):
        """The path that the mapping's reference gives, and the element there; an empty path where it has none."""
        leaf = mapping.find(tag)
        return ("", None) if leaf is None else self.tree.follow(leaf)

    def pdu(self, here, frame, mapping):
        """Of a PDU in big order the mapping names bit 7 of the first byte; some tools write its bit 0."""
        path, pdu = self.target(mapping, "PDU-REF")
        frame.pdus.append(path)
        place = self.tree.number(mapping, "START-POSITION", 0)
        self.update_bit(here, frame, mapping, path, 0)
        what = f"{here}: PDU {path} from bit {place}"
        if pdu is None or not pdu.tag.endswith("-PDU"):
            self.note("left out", what, "it is not in this file" if path else "the mapping names none")
        elif place % 8 and (place % 8 != 7 or ORDERS.get(self.tree.text(mapping, "PACKING-BYTE-ORDER")) != "big"):
            self.note("left out", what, "it begins within a byte, and its signals with it")
        elif pdu.tag in PLAIN:
            self.plain(here, frame, pdu, place - place % 8)
        else:
            self.opaque(what, frame, path, place - place % 8)

    def plain(self, here, frame, pdu, first):
        if first == 0 and self.tree.seen(pdu, "LENGTH") == str(self.payload_bytes):
            self.tree.text(pdu, "LENGTH")
        if self.tree.seen(pdu, "UNUSED-BIT-PATTERN") == "0":
            self.tree.text(pdu, "UNUSED-BIT-PATTERN")
        for mapping in pdu.iter("I-SIGNAL-TO-I-PDU-MAPPING"):
            self.mapping(here, frame, mapping, first)

    def opaque(self, what, frame, path, first):
        """A PDU whose content is not known bit by bit becomes a signal, so that its bits stay its own."""
        pdu = self.tree.at(path)
        length = self.tree.number(pdu, "LENGTH", 0)
        self.note("changed", what, f"{pdu.tag}: its content is not told bit by bit, so its {length} bytes become one signal")
        frame.signals.append(FoundSignal(first, 8 * length, "little", self.tree.text(pdu, "SHORT-NAME"), path))

    def update_bit(self, here, frame, mapping, path, first):
        """An update bit uses a bit of the payload, so it becomes a signal."""
        place = self.tree.number(mapping, "UPDATE-INDICATION-BIT-POSITION")
        if place is not None:
            name = f"{path.rpartition('/')[2]}_update"
            frame.signals.append(FoundSignal(first + place, 1, "little", name, path, "update"))
            self.note("changed", f"{here}: update bit {first + place} of {path}", f"it becomes the signal {name}")

    def mapping(self, here, frame, mapping, first):
        group, _ = self.target(mapping, "I-SIGNAL-GROUP-REF")
        path, signal = self.target(mapping, "I-SIGNAL-REF")
        self.update_bit(here, frame, mapping, path or group, first)
        if group and not path:
            self.note("not kept", f"{here}: {group}", "a group of signals; its signals are mapped beside it")
            return
        start, order = self.tree.number(mapping, "START-POSITION"), self.tree.text(mapping, "PACKING-BYTE-ORDER")
        what = f"{here}: signal {path}, start {'missing' if start is None else start}, {ORDERS.get(order) or order or 'no order'}"
        if signal is None or signal.tag != "I-SIGNAL":
            self.note("left out", what, "it is not in this file" if path else "the mapping names none")
        elif start is None or order not in ORDERS:
            self.note("left out", what, "it needs a START-POSITION, and a PACKING-BYTE-ORDER that AUTOSAR has")
        else:
            if order == "OPAQUE":
                self.note("changed", what, "it is OPAQUE, bytes without an order; it becomes little")
            frame.signals.append(FoundSignal(first + start, self.length(signal), ORDERS[order], self.name(signal), path))

    def name(self, signal):
        return dict(self.tree.told(signal, "name")).get("name") or self.tree.text(signal, "SHORT-NAME")

    def length(self, signal):
        """Before release 4.0.3 the system's signal has it."""
        length, leaf = self.tree.number(signal, "LENGTH"), signal.find("SYSTEM-SIGNAL-REF")
        if length is None and leaf is not None:
            _, system = self.tree.follow(leaf)
            length = None if system is None else self.tree.number(system, "LENGTH")
        return length or 0
