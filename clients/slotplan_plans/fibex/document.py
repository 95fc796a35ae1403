"""A FIBEX file as one tree: its elements by their IDs, its references, and which of its leaves were read."""
import xml.etree.ElementTree as ET
from collections import Counter

from ..autosar.tree import plain, whole
from ..faults import Fault
from .told import rows_of

SPACE = "{http://www.asam.net/xml/fbx}"
# Attributes that say nothing of their own, and the name space of those that are for schemas.
KNOWN, SCHEMA = {"ID", "ID-REF", "VERSION"}, "{http://www.w3.org/2001/XMLSchema-instance}"


def is_fibex(path):
    """Whether a file begins as FIBEX does. Who reads it says what else is wrong."""
    try:
        for _, element in ET.iterparse(path, ("start",)):
            return element.tag.rpartition("}")[2] == "FIBEX"
    except (ET.ParseError, LookupError, ValueError, OSError):
        return False
    return False


class Document:
    """The elements of a file. An element that has a short name or an ID has a path: its kind and its name, or the path above and its name."""

    def __init__(self, path):
        self.read, self.by_id, self.path_of, self.by_path = set(), {}, {}, {}
        self.doubles, self.passed = [], Counter()
        self.root = self.parsed(path)
        self.walk()

    def parsed(self, path):
        """The file's top. Tags lose their name spaces."""
        try:
            for _, element in ET.iterparse(path):
                tag, element.tag = element.tag, element.tag.rpartition("}")[2]
                self.bared(element)
        except (ET.ParseError, LookupError, ValueError) as fault:
            raise Fault(f"{path} is no XML: {fault}") from fault
        except OSError as fault:
            raise Fault(f"{path}: {fault.strerror}") from fault
        if tag != f"{SPACE}FIBEX":
            raise Fault(f"{path} is no FIBEX: it begins with {tag:.60}")
        return element

    def bared(self, element):
        """Counts the attributes that say something, and texts beside elements."""
        for name in list(element.keys()):
            if not name.startswith(SCHEMA) and name.rpartition("}")[2] not in KNOWN:
                self.passed[f"attribute {name.rpartition('}')[2]}"] += 1
        if len(element):
            beside = [element.text, *(child.tail for child in element)]
            if any(text and not text.isspace() for text in beside):
                self.passed[f"text beside the elements of {element.tag}"] += 1

    def walk(self):
        """Finds the path of each element that has a name. Of two with one ID the first counts."""
        waiting = [(self.root, "")]
        while waiting:
            element, path = waiting.pop()
            identity, name = plain(element.get("ID")), plain(element.findtext("SHORT-NAME"))
            if identity and self.by_id.setdefault(identity, element) is not element:
                self.doubles.append(f"{element.tag} {identity}")
            if identity or name:
                path = self.named(path or f"/{element.tag}", name or identity, identity)
                self.path_of[element] = path
                self.by_path.setdefault(path, element)
            waiting += [(child, path) for child in reversed(element)]

    def named(self, above, name, identity):
        """The path of a name; where another element has it the ID stands before the name."""
        path = f"{above}/{name}"
        return path if path not in self.by_path or not identity else f"{above}/{identity}/{name}"

    def of_kind(self, tag):
        return list(self.root.iter(tag))

    def own(self, leaf):
        """The text of a leaf, which then counts as read."""
        self.read.add(leaf)
        return plain(leaf.text)

    def text(self, element, tag, default=""):
        """The text of the element's leaf of this kind."""
        found = element.find(tag)
        return default if found is None else self.own(found)

    def number(self, element, tag, default=None):
        text = self.text(element, tag)
        return whole(text) if text else default

    def name(self, element):
        """The short name of an element, or its ID."""
        return self.text(element, "SHORT-NAME") or plain(element.get("ID"))

    def follow(self, leaf):
        """The ID to which a reference leads, and the element there, or none."""
        self.read.add(leaf)
        identity = plain(leaf.get("ID-REF"))
        return identity, self.by_id.get(identity)

    def referred(self, element, tag):
        """The ID and the element to which the element's reference of this kind leads; an empty ID where it has none."""
        leaf = element.find(tag)
        return ("", None) if leaf is None else self.follow(leaf)

    def told(self, element, *keys):
        """What the element's description tells of this program by these keys."""
        leaf = element.find("DESC")
        rows = rows_of(plain(leaf.text)) if leaf is not None else []
        if rows:
            self.read.add(leaf)
        return [row for row in rows if row[0] in keys]

    def unread(self):
        """How many leaves of each kind were not read, by the kind of the nearest named element and their own. A leaf has a text or a reference."""
        counts, waiting = Counter(), [(self.root, None)]
        while waiting:
            element, above = waiting.pop()
            above = element if element in self.path_of else above
            for child in element:
                waiting.append((child, above))
                says = child.get("ID-REF") is not None or not len(child) and child.text and not child.text.isspace()
                if says and child not in self.read:
                    counts[f"{above.tag if above is not None else element.tag}/{child.tag}"] += 1
        return counts
