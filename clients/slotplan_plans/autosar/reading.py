"""Reads the FlexRay cluster of a system description: its figures, its channels, its ECUs, and each frame that it sends."""
from collections import defaultdict

from ..faults import Fault
from . import figures
from .found import Ecu, Found, FoundFrame, Note
from .payloads import Payloads
from .sending import Sending
from .tree import Tree, whole
from .variation import Variation

# The register's figures but `dynamic_macroticks` and `cycles`, and the elements that have them.
FIGURES = {
    "static_slots": "NUMBER-OF-STATIC-SLOTS", "slot_macroticks": "STATIC-SLOT-DURATION", "symbol_macroticks": "SYMBOL-WINDOW",
    "idle_macroticks": "NETWORK-IDLE-TIME", "macroticks_per_cycle": "MACRO-PER-CYCLE", "payload_words": "PAYLOAD-LENGTH-STATIC",
}


def read(paths, cluster=None, texts=None, senders=None, labels=()):
    """What the files tell of their FlexRay cluster; of that with this name or path, where there are several. `texts` has the bytes of files that
    are not written yet. `senders` has the ECU of triggerings of which the files do not tell it; `labels` are the variation points that hold."""
    tree = Tree(paths, texts)
    return Reader(tree, Variation(tree, labels).notes(), senders).found(cluster)


class Reader:
    """Reads a tree. What is not read of it is noted in the end. `channels` has the elements of the channels by letter, `connectors` the paths of
    an ECU's connectors by the ECU and letter, and `triggerings` those of a frame by its path and letter."""

    def __init__(self, tree, notes=(), senders=None):
        self.tree, self.notes, self.ecus, self.frames = tree, list(notes), {}, {}
        self.channels, self.connectors, self.triggerings, self.senders = {}, {}, defaultdict(list), senders or {}

    def note(self, kind, what, why):
        self.notes.append(Note(kind, what, why))

    def found(self, wanted):
        tree = self.tree
        self.of = cluster = self.cluster(wanted)
        conditional = self.conditional(cluster)
        counted = self.figures(conditional)
        told = tree.told(cluster, "variant", "supplier")
        self.channels = channels = self.channels_of(conditional)
        self.connected(channels)
        sending = Sending(self, counted, self.senders)
        for letter in sorted(channels):
            for triggering in channels[letter].iter("FLEXRAY-FRAME-TRIGGERING"):
                sending.triggering(letter, triggering)
        sending.rest()
        self.unplaced()
        payloads = Payloads(self, counted)
        for path, frame in self.frames.items():
            payloads.frame(path, frame)
        comment = self.comment(cluster, conditional)
        self.rest()
        variant = next((value for key, value in told if key == "variant"), None)
        suppliers = [value for key, value in told if key == "supplier"]
        return Found("".join(sorted(channels)), counted, variant, suppliers, self.ecus, self.frames, self.notes, comment, self)

    def cluster(self, wanted):
        clusters = [(self.tree.path_of[it], it) for it in self.tree.of_kind("FLEXRAY-CLUSTER") if it in self.tree.path_of]
        if wanted:
            clusters = [(path, it) for path, it in clusters if wanted in (path, path.rpartition("/")[2])]
        if not clusters:
            raise Fault(f"there is no FlexRay cluster {wanted}" if wanted else "there is no FlexRay cluster")
        if len(clusters) > 1:
            raise Fault(f"there are {len(clusters)} FlexRay clusters: {' '.join(path for path, _ in clusters)}; name one with --cluster")
        return clusters[0][1]

    def conditional(self, cluster):
        """What holds of the cluster. Of several forms the file leaves open which one does."""
        forms = cluster.findall("FLEXRAY-CLUSTER-VARIANTS/FLEXRAY-CLUSTER-CONDITIONAL")
        if len(forms) != 1:
            raise Fault(f"the cluster has {len(forms)} FLEXRAY-CLUSTER-CONDITIONAL; one can be read, and --variant-of chooses by a label")
        return forms[0]

    def figures(self, conditional):
        number = lambda tag: self.tree.number(conditional, tag)
        found = figures.whole({key: number(tag) for key, tag in FIGURES.items()}, FIGURES, number("CYCLE-COUNT-MAX"))
        if why := figures.minislots(number("NUMBER-OF-MINISLOTS") or 0, number("MINISLOT-DURATION") or 0, found):
            self.note("not kept", "minislots", why)
        return found

    def channels_of(self, conditional):
        """The channels by letter."""
        found = {}
        for channel in conditional.iterfind("PHYSICAL-CHANNELS/FLEXRAY-PHYSICAL-CHANNEL"):
            name = self.tree.text(channel, "CHANNEL-NAME")
            letter = name.removeprefix("CHANNEL-")
            if letter not in ("A", "B") or letter in found:
                why = f"its CHANNEL-NAME is {name or 'missing'}: there may be one CHANNEL-A and one CHANNEL-B"
                self.note("left out", self.tree.path_of[channel], why)
            else:
                found[letter] = channel
        if not found:
            raise Fault("the cluster has no channel")
        return found

    def connected(self, channels):
        """The ECUs that have a connector on a channel."""
        for letter, channel in channels.items():
            for leaf in channel.iter("COMMUNICATION-CONNECTOR-REF"):
                path, element = self.tree.follow(leaf)
                ecu = self.tree.above(path, "ECU-INSTANCE")
                if element is None or ecu is None:
                    self.note("left out", path, f"a connector of channel {letter} that belongs to no ECU of this file")
                else:
                    self.ecu(ecu)
                    self.connectors.setdefault((ecu, letter), path)

    def ecu(self, path):
        """The ECU of this path, which is read the first time."""
        if path not in self.ecus:
            element = self.tree.at(path)
            told = self.tree.told(element, "supplier", "name", "grant")
            values = dict(told)
            idle = [(whole(slot), channel) for slot, _, channel in (value.partition(" ") for key, value in told if key == "grant")]
            self.ecus[path] = Ecu(values.get("name") or self.tree.text(element, "SHORT-NAME"), values.get("supplier"), idle)
        return self.ecus[path]

    def frame(self, path):
        """The frame of this path, which is read the first time."""
        if path not in self.frames:
            element = self.tree.at(path)
            told = self.tree.told(element, "name", "apart", "ecu")
            name = dict(told).get("name") or self.tree.text(element, "SHORT-NAME")
            frame = FoundFrame(name, self.tree.number(element, "FRAME-LENGTH", 0))
            frame.apart = {tuple(map(whole, value.split(" "))) for key, value in told if key == "apart"}
            frame.senders = {value for key, value in told if key == "ecu"}
            self.frames[path] = frame
        return self.frames[path]

    def unplaced(self):
        """Frames that no triggering sends. Special data names the ECU of one that a register has without a placement."""
        for element in self.tree.of_kind("FLEXRAY-FRAME"):
            path = self.tree.path_of.get(element)
            if path not in self.frames or self.tree.at(path) is not element:
                if self.tree.at(path) is element and self.tree.told(element, "ecu"):
                    self.frame(path)
                else:
                    self.note("left out", path or "a FLEXRAY-FRAME", "a frame that the static segment of this cluster does not send")

    def comment(self, cluster, conditional):
        """What a cluster file has no keys for."""
        told = [f"The cluster {self.tree.text(cluster, 'SHORT-NAME')}."]
        for tag, what in ("MACROTICK-DURATION", "A macrotick"), ("CYCLE", "A cycle"):
            if seconds := self.tree.text(conditional, tag):
                told.append(f"{what} lasts {seconds} s.")
        return " ".join(told)

    def rest(self):
        """Notes what was not read."""
        for path in self.tree.doubles:
            self.note("left out", path, "a second element of this path: references lead to the first")
        for what, count in sorted((self.tree.unread() + self.tree.passed).items()):
            self.note("not kept", what, f"{count} in the file")
