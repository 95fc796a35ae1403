"""AUTOSAR files as one tree: its elements by path, its references, and which of its leaves were read."""
import io
import xml.etree.ElementTree as ET
from collections import Counter, defaultdict
from decimal import Decimal, InvalidOperation

from ..faults import Fault
from .references import References

# Kinds of elements that are told of by where they stand, even where they have no name.
PLACED = {"FLEXRAY-CLUSTER", "FLEXRAY-PHYSICAL-CHANNEL", "FLEXRAY-FRAME-TRIGGERING", "FLEXRAY-FRAME", "ECU-INSTANCE"}
# Attributes that say nothing of their own: where a reference leads, and whose special data it is.
KNOWN = {"DEST", "GID", "BASE"}
# The top of a file of release 4, whichever of its schemas it follows.
TOP = "{http://autosar.org/schema/r4.0}AUTOSAR"
# More than any number of a plan.
LARGEST = 10**12


def whole(text):
    """A number as AUTOSAR writes it: decimal, 0x, 0b, octal behind a 0, or a float without a fraction."""
    try:
        return int(text, 8) if len(text) > 1 and text[0] == "0" and text.isdigit() else int(text, 0)
    except ValueError:
        pass
    try:
        number = Decimal(text)
    except InvalidOperation:
        raise Fault(f"{text:.60} is no number") from None
    if not number.is_finite() or abs(number) > LARGEST or number != int(number):
        raise Fault(f"{text:.60} is no whole number")
    return int(number)


def plain(text):
    """The text of a leaf, without the white space around it. It is shown in lines, so what is not printable becomes a question mark."""
    text = (text or "").strip()
    return text if text.isprintable() else "".join(letter if letter.isprintable() else "?" for letter in text)


class Tree:
    """The elements of AUTOSAR files. A description may be parted into several; a path is the short names from a file's top down."""

    def __init__(self, paths, texts=None):
        self.paths, self.texts = list(map(str, paths)), texts or {}
        self.read, self.by_path, self.path_of, self.followed = set(), {}, {}, set()
        self.doubles, self.passed = [], Counter()
        self.relative, self.whole = {}, {}
        self.roots = [self.parsed(path) for path in self.paths]
        for root in self.roots:
            self.walk(root)
        if self.relative:
            References(self).resolve()

    def parsed(self, path):
        """A file's top. Tags lose their name space, and elements the white space between them: it would take half the memory."""
        bare = {}
        try:
            for _, element in ET.iterparse(io.BytesIO(self.texts[path]) if path in self.texts else path):
                tag = element.tag
                element.tag = bare.get(tag) or bare.setdefault(tag, tag.rpartition("}")[2])
                if len(element):
                    self.slimmed(element)
                if element.keys():
                    self.bared(element)
        except (ET.ParseError, LookupError, ValueError) as fault:
            raise Fault(f"{path} is no XML: {fault}") from fault
        except OSError as fault:
            raise Fault(f"{path}: {fault.strerror}") from fault
        if tag != TOP:
            raise Fault(f"{path} is no description of AUTOSAR 4: it begins with {tag:.60}")
        return element

    def slimmed(self, element):
        """Takes out the texts between an element's elements, and counts where one says something."""
        says = bool(element.text) and not element.text.isspace()
        element.text = None
        for child in element:
            says = says or bool(child.tail) and not child.tail.isspace()
            child.tail = None
        if says:
            self.passed[f"text beside the elements of {element.tag}"] += 1

    def bared(self, element):
        """Counts the attributes that say something, and takes those of a reference away."""
        for name in element.keys():
            if name not in KNOWN and not name.startswith("{"):
                self.passed[f"attribute {name}"] += 1
        if element.get("DEST") is not None and not len(element):
            text = element.text
            if not plain(text).startswith("/"):
                self.relative[element] = element.get("BASE")
            element.clear()
            element.text = text

    def walk(self, root):
        """Finds the path of each element that has a name. Of two with one path the first counts, but packages are parts of one."""
        waiting = [(root, "")]
        while waiting:
            element, path = waiting.pop()
            name = plain(element.findtext("SHORT-NAME"))
            if name:
                path = f"{path}/{name}"
                if self.by_path.setdefault(path, element) is not element and element.tag != "AR-PACKAGE":
                    self.doubles.append(path)
                self.path_of[element] = path
            elif element.tag in PLACED:
                self.path_of[element] = f"{path}/{element.tag}"
            waiting += [(child, path) for child in reversed(element) if len(child)]

    def take_out(self, parent, element):
        """An element counts no more. Places in a file are counted by all elements that it has."""
        for root in self.roots:
            if root not in self.whole:
                self.whole[root] = list(root.iter())
        parent.remove(element)
        for inner in element.iter():
            path = self.path_of.pop(inner, None)
            if path is not None and self.by_path.get(path) is inner:
                del self.by_path[path]

    def order(self, root):
        """All elements of a file in their order."""
        return self.whole.get(root) or root.iter()

    def of_kind(self, tag):
        return [element for root in self.roots for element in root.iter(tag)]

    def own(self, leaf):
        """The text of a leaf, which then counts as read."""
        self.read.add(leaf)
        return plain(leaf.text)

    def text(self, element, tag, default=""):
        """The text of the element's leaf of this kind."""
        found = element.find(tag)
        return default if found is None else self.own(found)

    def seen(self, element, tag):
        """The same, but it does not count as read."""
        return plain(element.findtext(tag))

    def number(self, element, tag, default=None):
        text = self.text(element, tag)
        return whole(text) if text else default

    def at(self, path):
        """The element at a path, or none."""
        return self.by_path.get(path)

    def follow(self, leaf):
        """The path that a reference gives, and the element there, or none. The names on the way count as read."""
        path = self.own(leaf)
        self.followed.add(path)
        return path, self.by_path.get(path)

    def above(self, path, tag):
        """The path of the nearest element of this kind at the path or above, or none."""
        while path:
            element = self.by_path.get(path)
            if element is not None and element.tag == tag:
                return path
            path = path.rpartition("/")[0]
        return None

    def told(self, element, *keys):
        """The element's special data of this program that has one of these keys."""
        data = element.find("ADMIN-DATA")
        if data is None:
            return []
        groups = (group for group in data.iterfind("SDGS/SDG") if group.get("GID") == "slotplan")
        return [(row.get("GID"), self.own(row)) for group in groups for row in group.findall("SD") if row.get("GID") in keys]

    def referring(self):
        """The leaves that refer to each path, each with the element in which it stands."""
        found = defaultdict(list)
        for root in self.roots:
            for element in root.iter():
                for child in element:
                    if not len(child) and (text := plain(child.text)).startswith("/"):
                        found[text].append((child, element))
        return found

    def unread(self):
        """How many leaves of each kind were not read, by the kind of the nearest named element and their own. A name by which a reference led, be it
        to an element below, was read."""
        counts, named = Counter(), self.on_the_way()
        waiting = [(root, "") for root in self.roots]
        while waiting:
            element, kind = waiting.pop()
            path = self.path_of.get(element)
            kind = element.tag if path else kind
            for child in element:
                if len(child):
                    waiting.append((child, kind))
                elif child not in self.read and child.text and not child.text.isspace():
                    if child.tag != "SHORT-NAME" or path not in named:
                        counts[f"{kind}/{child.tag}"] += 1
        return counts

    def on_the_way(self):
        """The paths of all elements to which a reference led, and of those above them."""
        named = set()
        for path in self.followed:
            while path and path not in named:
                named.add(path)
                path = path.rpartition("/")[0]
        return named
