"""Reads the FlexRay cluster of a FIBEX file: its figures, its channels, its ECUs, each frame that it sends, and what lies in its payload."""
import re

from ..autosar import figures
from ..autosar.found import Ecu, Found, FoundFrame, Note
from ..autosar.tree import plain, whole
from ..faults import Fault
from .document import Document
from .payloads import Payloads
from .sending import Sending

# The register's figures but `dynamic_macroticks` and `cycles`, and the elements that have them.
FIGURES = {
    "static_slots": "NUMBER-OF-STATIC-SLOTS", "slot_macroticks": "STATIC-SLOT", "symbol_macroticks": "SYMBOL-WINDOW", "idle_macroticks": "N-I-T",
    "macroticks_per_cycle": "MACRO-PER-CYCLE", "payload_words": "PAYLOAD-LENGTH-STATIC",
}
CHANNEL = re.compile("(?:channel[ _-]?)?([ab])", re.IGNORECASE)


def read(paths, cluster=None, senders=None):
    """What a file tells of its FlexRay cluster; of that with this name, ID or path, where there are several. `senders` has the ECU of triggerings of
    which the file does not tell it."""
    if len(paths) > 1:
        raise Fault(f"FIBEX is one file, and there are {len(paths)}: {' '.join(map(str, paths))}")
    return Reader(Document(paths[0]), senders or {}).found(cluster)


class Reader:
    """Reads a document. What is not read of it is noted in the end."""

    def __init__(self, document, senders):
        self.document, self.senders, self.notes, self.ecus, self.frames = document, senders, [], {}, {}

    def note(self, kind, what, why):
        self.notes.append(Note(kind, what, why))

    def found(self, wanted):
        document = self.document
        cluster = self.cluster(wanted)
        counted, mirrored = self.figures(cluster), self.is_mirrored(cluster)
        told = document.told(cluster, "variant", "supplier")
        channels = self.channels(cluster)
        sending = Sending(self, counted)
        for letter, channel in sorted(channels.items()):
            for triggering in channel.iter("FRAME-TRIGGERING"):
                sending.triggering(letter, channel, triggering)
        sending.rest()
        self.connected(channels)
        self.unplaced()
        payloads = Payloads(self, mirrored)
        for path, frame in self.frames.items():
            payloads.frame(path, frame)
        comment = self.comment(cluster)
        self.rest()
        variant = next((value for key, value in told if key == "variant"), None)
        suppliers = [value for key, value in told if key == "supplier"]
        return Found("".join(sorted(channels)), counted, variant, suppliers, self.ecus, self.frames, self.notes, comment)

    def cluster(self, wanted):
        path_of = self.document.path_of
        clusters = [it for it in self.document.of_kind("CLUSTER") if it in path_of and is_flexray(it)]
        if wanted:
            clusters = [it for it in clusters if wanted in (path_of[it], path_of[it].rpartition("/")[2], it.get("ID"))]
        if not clusters:
            raise Fault(f"there is no FlexRay cluster {wanted}" if wanted else "there is no FlexRay cluster")
        if len(clusters) > 1:
            raise Fault(f"there are {len(clusters)} FlexRay clusters: {' '.join(path_of[it] for it in clusters)}; name one with --cluster")
        return clusters[0]

    def figures(self, cluster):
        number = lambda tag: self.document.number(cluster, tag)
        found = figures.whole({key: number(tag) for key, tag in FIGURES.items()}, FIGURES, number("CYCLE-COUNT-MAX"))
        if why := figures.minislots(number("NUMBER-OF-MINISLOTS") or 0, number("MINISLOT") or 0, found):
            self.note("not kept", "minislots", why)
        return found

    def is_mirrored(self, cluster):
        """Whether bit 0 of a byte is its greatest: where the bits are counted as they are sent, which is MONOTONE, and the greatest is sent first."""
        policy = self.document.text(cluster, "BIT-COUNTING-POLICY", "MONOTONE")
        high_first = self.document.text(cluster, "IS-HIGH-LOW-BIT-ORDER", "false") not in ("false", "0")
        if (policy, high_first) == ("MONOTONE", False):
            return False
        mirrored = policy == "MONOTONE" and high_first
        how = "7 down to 0 from the least bit of a byte on" if mirrored else "0 to 7 from the least bit of a byte on"
        order = "true" if high_first else "false"
        self.note("changed", "places of signals", f"{policy}, IS-HIGH-LOW-BIT-ORDER {order}: bits are taken as counted {how}; look at one signal")
        return mirrored

    def channels(self, cluster):
        """The channels by letter."""
        found = {}
        for leaf in cluster.iterfind("CHANNEL-REFS/CHANNEL-REF"):
            identity, channel = self.document.follow(leaf)
            name = "" if channel is None else self.document.text(channel, "FLEXRAY-CHANNEL-NAME")
            letter = match[1].upper() if (match := CHANNEL.fullmatch(name)) else ""
            if channel is None:
                self.note("left out", identity, "a channel of the cluster that is not in this file")
            elif not letter or letter in found:
                why = f"its FLEXRAY-CHANNEL-NAME is {name or 'missing'}: there may be one A and one B"
                self.note("left out", self.document.path_of[channel], why)
            else:
                found[letter] = channel
        if not found:
            raise Fault("the cluster has no channel")
        return found

    def connected(self, channels):
        """The other ECUs that have a connector on a channel."""
        for element in self.document.of_kind("ECU"):
            leaves = [it for connector in element.iter("CONNECTOR") for it in connector.findall("CHANNEL-REF")]
            leaf = next((it for it in leaves if self.document.by_id.get(plain(it.get("ID-REF"))) in channels.values()), None)
            if leaf is not None and self.document.path_of.get(element) not in self.ecus:
                self.document.follow(leaf)
                self.ecu(element)

    def ecu(self, element):
        """The path of this ECU, which is read the first time."""
        path = self.document.path_of.get(element)
        if path and path not in self.ecus:
            told = self.document.told(element, "supplier", "name", "grant")
            values, name = dict(told), self.document.name(element)
            idle = [(whole(slot), channel) for slot, _, channel in (value.partition(" ") for key, value in told if key == "grant")]
            self.ecus[path] = Ecu(values.get("name") or name, values.get("supplier"), idle)
        return path

    def frame(self, element):
        """The frame of this element, which is read the first time."""
        path = self.document.path_of[element]
        if path not in self.frames:
            told = self.document.told(element, "name", "apart", "ecu")
            frame = FoundFrame(dict(told).get("name") or self.document.name(element), self.document.number(element, "BYTE-LENGTH", 0))
            frame.apart = {tuple(map(whole, value.split(" "))) for key, value in told if key == "apart"}
            frame.senders = {value for key, value in told if key == "ecu"}
            self.frames[path] = frame
        return self.frames[path]

    def unplaced(self):
        """Frames that no triggering sends. A description names the ECU of one that a register has without a placement."""
        for element in self.document.of_kind("FRAME"):
            path = self.document.path_of.get(element)
            if path is None or path not in self.frames or self.document.by_path[path] is not element:
                if path and self.document.by_path[path] is element and self.document.told(element, "ecu"):
                    self.frame(element)
                else:
                    self.note("left out", path or "a FRAME", "a frame that the static segment of this cluster does not send")

    def comment(self, cluster):
        """What a cluster file has no keys for."""
        told = [f"The cluster {self.document.name(cluster)}."]
        for tag, what in ("MACROTICK", "A macrotick"), ("CYCLE", "A cycle"):
            if microseconds := self.document.text(cluster, tag):
                told.append(f"{what} lasts {microseconds} us.")
        return " ".join(told)

    def rest(self):
        """Notes what was not read."""
        for what in self.document.doubles:
            self.note("left out", what, "a second element of this ID: references lead to the first")
        for what, count in sorted((self.document.unread() + self.document.passed).items()):
            self.note("not kept", what, f"{count} in the file")


def is_flexray(cluster):
    """Whether a cluster says that it is one of FlexRay, or has its figures."""
    says = (cluster.findtext("PROTOCOL") or "").strip().lower()
    return says == "flexray" or not says and cluster.find("NUMBER-OF-STATIC-SLOTS") is not None
