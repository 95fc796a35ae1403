"""Triggerings that come to another channel, or to another ECU's ports: what they refer to on theirs is found there, or comes along."""
from collections import defaultdict
from functools import cached_property

from .changes import Copied, Moved
from .markup import lines_of
from .tree import plain

PORTS = {"FRAME-PORT": "Frames_Out", "I-PDU-PORT": "Pdus_Out", "I-SIGNAL-PORT": "Signals_Out"}
INSTANCES = "ECU-COMM-PORT-INSTANCES"
# The references within triggerings, and what a triggering of this kind is there for.
REFERENCES = "FRAME-PORT-REF", "I-PDU-PORT-REF", "I-SIGNAL-PORT-REF", "PDU-TRIGGERING-REF", "I-SIGNAL-TRIGGERING-REF"
SUBJECTS = "I-PDU-REF", "I-SIGNAL-REF", "I-SIGNAL-GROUP-REF"
FLAGS = "ALLOW-DYNAMIC-L-SDU-LENGTH", "MESSAGE-ID", "PAYLOAD-PREAMBLE-INDICATOR"
WRAPPERS = {"FLEXRAY-FRAME-TRIGGERING": "FRAME-TRIGGERINGS", "PDU-TRIGGERING": "PDU-TRIGGERINGS", "I-SIGNAL-TRIGGERING": "I-SIGNAL-TRIGGERINGS"}


class Crossing:
    """Finds or makes the twin of an element on another channel. `senders` has the ECU that sends a frame from now on, by the one that sent it."""

    def __init__(self, carrying):
        self.source, self.tree, self.changes, self.left = carrying.source, carrying.tree, carrying.changes, carrying.left
        self.senders, self.twins, self.leaving, self.served = {}, {}, set(), {}

    @cached_property
    def referring(self):
        return self.tree.referring()

    def is_free(self, element):
        """Whether nothing refers to an element."""
        return self.tree.path_of[element] not in self.referring

    def move(self, triggering, letter):
        """A frame's triggering goes to another channel with all that is its own."""
        self.leave(self.tree.path_of[triggering], triggering, self.source.channels[letter], letter)

    def leave(self, path, element, parent, letter):
        """An element goes below another parent, and who refers to it follows. Gives its new path."""
        self.leaving |= set(element.iter())
        new = self.called(element, parent, letter)
        if new.rpartition("/")[2] != path.rpartition("/")[2]:
            self.changes.write(element.find("SHORT-NAME"), new.rpartition("/")[2])
        for leaf, twin in self.twinned(element, letter).items():
            self.changes.write(leaf, twin)
        self.changes.add(parent, (wrapper(element),), Moved(element))
        for leaf, _ in self.referring[path]:
            if leaf not in self.leaving:
                self.changes.write(leaf, new)
        return new

    def twinned(self, element, letter):
        """The references within an element that lead elsewhere from now on."""
        found = {leaf: self.twin(plain(leaf.text), letter) for tag in REFERENCES for leaf in element.iter(tag)}
        return {leaf: path for leaf, path in found.items() if path != plain(leaf.text)}

    def resend(self, triggering, letter):
        """A triggering that stays has another ECU's ports; so have those of its PDUs and signals."""
        for leaf, path in self.twinned(triggering, letter).items():
            self.changes.write(leaf, path)
        for tag in "PDU-TRIGGERING-REF", "I-SIGNAL-TRIGGERING-REF":
            for leaf in triggering.iter(tag):
                if (element := self.tree.at(plain(leaf.text))) is not None and element.tag in WRAPPERS:
                    self.resend(element, letter)

    def twin(self, path, letter):
        """The path of what stands on a channel for the element at a path: itself, where it is there."""
        element = self.tree.at(path)
        parent = None if element is None else self.home(path, element, letter)
        if parent is None or path.startswith(f"{self.tree.path_of[parent]}/"):
            return path
        key = path, self.tree.path_of[parent]
        if key not in self.twins:
            there = self.like(path, element, parent, letter)
            self.twins[key] = self.tree.path_of[there] if there is not None else self.made(path, element, parent, letter)
        return self.twins[key]

    def home(self, path, element, letter):
        """What has the twin of an element: a channel of a triggering, and of a port the connector of its ECU, or of the one that sends in its place.
        Nothing where there is none."""
        if element.tag not in PORTS:
            return self.source.channels[letter]
        own = self.tree.above(path, "ECU-INSTANCE")
        ecu = self.senders.get(own, own) if self.tree.seen(element, "COMMUNICATION-DIRECTION") == "OUT" else own
        if (ecu, letter) in self.source.connectors:
            return self.tree.at(self.source.connectors[ecu, letter])
        self.lacks(ecu, letter)
        return None

    def lacks(self, ecu, letter):
        told = f"{ecu} has no connector on channel {letter}"
        if told not in self.left:
            self.left.append(told)

    def like(self, path, element, parent, letter):
        """The element of the parent that is there for the same: of triggerings the same PDU or signal; of ports one with the name, or any where many
        triggerings share one."""
        found = self.serving(parent, element.tag).get(self.serves(element), [])
        if element.tag in PORTS:
            name = plain(element.findtext("SHORT-NAME"))
            named = [it for it in found if plain(it.findtext("SHORT-NAME")) in (name, lettered(name, letter))]
            found = named or (found if len(self.referring[path]) > 1 else [])
        return found[0] if found else None

    def serving(self, parent, tag):
        """The elements of this kind below a parent by what they are there for."""
        if (parent, tag) not in self.served:
            found = self.served[parent, tag] = defaultdict(list)
            for element in parent.iter(tag):
                found[self.serves(element)].append(element)
        return self.served[parent, tag]

    def serves(self, element):
        """What an element is there for: a port's direction, or the PDU or signal that is triggered."""
        return tuple(plain(element.findtext(tag)) for tag in (["COMMUNICATION-DIRECTION"] if element.tag in PORTS else SUBJECTS))

    def made(self, path, element, parent, letter):
        """The path of a new twin: the element itself, where only those refer to it that leave too, or else a copy."""
        if all(leaf in self.leaving or leaf.tag not in REFERENCES for leaf, _ in self.referring[path]):
            return self.leave(path, element, parent, letter)
        new = self.called(element, parent, letter)
        texts = {element.find("SHORT-NAME"): new.rpartition("/")[2]} | self.twinned(element, letter)
        self.changes.add(parent, (wrapper(element),), Copied(element, texts))
        return new

    def called(self, element, parent, letter):
        """The path of a new element below a parent, by a name that nothing has there."""
        return self.free(self.tree.path_of[parent], lettered(plain(element.findtext("SHORT-NAME")), letter))

    def free(self, place, wanted):
        """A path below a place that nothing has; AUTOSAR does not tell case apart."""
        name, number = wanted, 1
        while name.lower() in self.names[place]:
            number += 1
            name = f"{wanted}_{number}"
        self.names[place].add(name.lower())
        return f"{place}/{name}"

    @cached_property
    def names(self):
        """The short names below each path, in small letters."""
        found = defaultdict(set)
        for path in self.tree.by_path:
            place, _, name = path.rpartition("/")
            found[place].add(name.lower())
        return found

    def trigger(self, letter, path, like, ecu, timings):
        """A frame has a triggering on a channel more, with these lines of timings: like the one that it has on the other."""
        parent, frame = self.source.channels[letter], self.tree.at(path)
        if like is not None:
            refs = {tag: [self.twin(plain(leaf.text), letter) for leaf in like.iter(tag)] for tag in ("FRAME-PORT-REF", "PDU-TRIGGERING-REF")}
            new, flags = self.called(like, parent, letter), {it.tag: plain(it.text) for it in like if it.tag in FLAGS}
        else:
            port = self.port(ecu, letter, "FRAME-PORT")
            refs, flags = {"FRAME-PORT-REF": [port] if port else [], "PDU-TRIGGERING-REF": []}, {FLAGS[-1]: "false"}
            new = self.free(self.tree.path_of[parent], plain(frame.findtext("SHORT-NAME")))
        self.changes.add(parent, ("FRAME-TRIGGERINGS",), lines_of(lambda out: triggering(out, new, path, refs, timings, flags)))

    def port(self, ecu, letter, tag):
        """The path of the port by which an ECU sends all that is new on a channel, or none where it has no connector there."""
        if (ecu, letter) not in self.source.connectors:
            self.lacks(ecu, letter)
            return None
        place = self.source.connectors[ecu, letter]
        there = self.tree.at(f"{place}/{PORTS[tag]}")
        if there is not None and there.tag == tag and self.tree.seen(there, "COMMUNICATION-DIRECTION") == "OUT":
            return f"{place}/{PORTS[tag]}"
        key = tag, place
        if key not in self.twins:
            self.twins[key] = self.free(place, PORTS[tag])
            self.changes.add(self.tree.at(place), (INSTANCES,), lines_of(lambda out: port_out(out, tag, self.twins[key].rpartition("/")[2])))
        return self.twins[key]


def wrapper(element):
    """The element in which those of this kind stand."""
    return WRAPPERS.get(element.tag, INSTANCES)


def lettered(name, letter):
    """A name with this channel's letter in place of the other, which stands alone between underscores or at the end."""
    words = name.split("_")
    place = max((place for place, word in enumerate(words) if place and word in ("A", "B")), default=0)
    return "_".join([*words[:place], letter, *words[place + 1 :]]) if place else name


def port_out(out, tag, name):
    with out.of(tag):
        out.name(name)
        out.leaf("COMMUNICATION-DIRECTION", "OUT")


def triggering(out, path, frame, refs, timings, flags):
    """A frame's triggering, with these references, lines of timings, and flags."""
    with out.of("FLEXRAY-FRAME-TRIGGERING"):
        out.name(path.rpartition("/")[2])
        if refs["FRAME-PORT-REF"]:
            with out.of("FRAME-PORT-REFS"):
                for port_path in refs["FRAME-PORT-REF"]:
                    out.ref("FRAME-PORT-REF", "FRAME-PORT", port_path)
        out.ref("FRAME-REF", "FLEXRAY-FRAME", frame)
        if refs["PDU-TRIGGERING-REF"]:
            with out.of("PDU-TRIGGERINGS"):
                for pdu in refs["PDU-TRIGGERING-REF"]:
                    with out.of("PDU-TRIGGERING-REF-CONDITIONAL"):
                        out.ref("PDU-TRIGGERING-REF", "PDU-TRIGGERING", pdu)
        with out.of("ABSOLUTELY-SCHEDULED-TIMINGS"):
            out.lines(timings)
        for tag, text in flags.items():
            out.leaf(tag, text)
