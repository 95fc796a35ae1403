"""Reads what a frame's payload holds: its PDUs, and the signals that are mapped to them."""
from ..autosar.found import FoundSignal

TRUE = "true", "1"


class Payloads:
    """Reads the signals of frames. A bit that is used for anything becomes a signal's. Where places are mirrored, bit 0 of a byte is its greatest."""

    def __init__(self, reader, mirrored):
        self.document, self.note, self.mirrored = reader.document, reader.note, mirrored

    def place(self, place):
        return place - place % 8 + 7 - place % 8 if self.mirrored else place

    def frame(self, path, frame):
        """PDUs; before release 3 signals lay in the frame itself."""
        element = self.document.by_path[path]
        for instance in element.iterfind("PDU-INSTANCES/PDU-INSTANCE"):
            self.pdu(path, frame, instance)
        for instance in element.iterfind("SIGNAL-INSTANCES/SIGNAL-INSTANCE"):
            self.instance(path, frame, instance, 0)

    def pdu(self, here, frame, instance):
        """A PDU begins with a byte. In big order its place may be the byte's greatest bit."""
        identity, pdu = self.document.referred(instance, "PDU-REF")
        place = self.document.number(instance, "BIT-POSITION", 0)
        path = identity if pdu is None else self.document.path_of[pdu]
        frame.pdus.append(path)
        self.update_bit(here, frame, self.document.number(instance, "PDU-UPDATE-BIT-POSITION"), path, 0)
        what = f"{here}: PDU {path} from bit {place}"
        if pdu is None or pdu.tag != "PDU":
            self.note("left out", what, "it is not in this file" if identity else "the instance names none")
        elif place % 8 and not (place % 8 == 7 and (self.mirrored or self.document.text(instance, "IS-HIGH-LOW-BYTE-ORDER") in TRUE)):
            self.note("left out", what, "it begins within a byte, and its signals with it")
        elif self.is_opaque(pdu):
            self.opaque(what, frame, pdu, path, place - place % 8)
        else:
            for signal in pdu.iterfind("SIGNAL-INSTANCES/SIGNAL-INSTANCE"):
                self.instance(here, frame, signal, place - place % 8)

    def is_opaque(self, pdu):
        """Whether what a PDU holds is not told bit by bit: it is multiplexed, or has no signals and is no application's."""
        if pdu.find("MULTIPLEXER") is not None:
            return True
        return pdu.find("SIGNAL-INSTANCES") is None and self.document.text(pdu, "PDU-TYPE", "APPLICATION") != "APPLICATION"

    def opaque(self, what, frame, pdu, path, first):
        """A PDU whose content is not known bit by bit becomes a signal, so that its bits stay its own."""
        length, kind = self.document.number(pdu, "BYTE-LENGTH", 0), self.document.text(pdu, "PDU-TYPE", "APPLICATION")
        why = "it is multiplexed" if kind == "APPLICATION" else f"its type is {kind}"
        self.note("changed", what, f"{why}: what it holds is not told bit by bit, so its {length} bytes become one signal")
        frame.signals.append(FoundSignal(first, 8 * length, "little", self.document.name(pdu), path))

    def update_bit(self, here, frame, place, path, first):
        """An update bit uses a bit of the payload, so it becomes a signal."""
        if place is not None:
            place, name = first + self.place(place), f"{path.rpartition('/')[2]}_update"
            frame.signals.append(FoundSignal(place, 1, "little", name, path, "update"))
            self.note("changed", f"{here}: update bit {place} of {path}", f"it becomes the signal {name}")

    def instance(self, here, frame, instance, first):
        identity, signal = self.document.referred(instance, "SIGNAL-REF")
        path = identity if signal is None else self.document.path_of[signal]
        self.update_bit(here, frame, self.document.number(instance, "SIGNAL-UPDATE-BIT-POSITION"), path, first)
        start, order = self.document.number(instance, "BIT-POSITION"), self.document.text(instance, "IS-HIGH-LOW-BYTE-ORDER", "false")
        order = "big" if order in TRUE else "little"
        what = f"{here}: signal {path}, start {'missing' if start is None else start}, {order}"
        if signal is None or signal.tag != "SIGNAL":
            self.note("left out", what, "it is not in this file" if identity else "the instance names none")
        elif start is None:
            self.note("left out", what, "it needs a BIT-POSITION")
        elif (length := self.length(signal)) is None:
            self.note("left out", what, "it has no coding with a BIT-LENGTH")
        else:
            frame.signals.append(FoundSignal(first + self.place(start), length, order, self.name(signal), path))

    def name(self, signal):
        name = self.document.name(signal)
        return dict(self.document.told(signal, "name")).get("name") or name

    def length(self, signal):
        """The bits of a signal's coding, or none."""
        _, coding = self.document.referred(signal, "CODING-REF")
        kind = None if coding is None else coding.find("CODED-TYPE")
        return None if kind is None else self.document.number(kind, "BIT-LENGTH")
