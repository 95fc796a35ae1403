"""What is changed of files, element by element of their tree. Every byte beside it stays as it was."""
import re
from dataclasses import dataclass, field
from typing import NamedTuple
from xml.sax.saxutils import escape

from ..faults import Fault
from .text import Text

NAMED = "SHORT-NAME", "SHORT-NAME-FRAGMENTS", "LONG-NAME", "DESC", "CATEGORY"
PLACED = *NAMED, "ADMIN-DATA", "INTRODUCTION", "ANNOTATIONS"
# What stands before an element that may be missing, in the schema's order.
BEFORE = {
    "ADMIN-DATA": NAMED,
    "SDGS": ("LANGUAGE", "USED-LANGUAGES", "DOC-REVISIONS"),
    "FRAME-TRIGGERINGS": (*PLACED, "COMM-CONNECTORS"),
    "I-SIGNAL-TRIGGERINGS": (*PLACED, "COMM-CONNECTORS", "FRAME-TRIGGERINGS"),
    "PDU-TRIGGERINGS": (*PLACED, "COMM-CONNECTORS", "FRAME-TRIGGERINGS", "I-SIGNAL-TRIGGERINGS", "FRAME-PORT-REFS", "FRAME-REF"),
    "ABSOLUTELY-SCHEDULED-TIMINGS": (*PLACED, "FRAME-PORT-REFS", "FRAME-REF", "PDU-TRIGGERINGS"),
    "ECU-COMM-PORT-INSTANCES": (*PLACED, "COMM-CONTROLLER-REF", "CREATE-ECU-WAKEUP-SOURCE", "DYNAMIC-PNC-HORIZONTAL-ROUTING-ENABLED"),
}
UUID = re.compile(rb"""\s+UUID\s*=\s*("[^"]*"|'[^']*')""")
# (a path from the top has no base)
BASE = re.compile(rb"""\s+BASE\s*=\s*("[^"]*"|'[^']*')""")
STEP = b"  "


@dataclass
class Copied:
    """A copy of an element, in which leaves have other texts. No copy has the first one's UUIDs."""

    element: object
    texts: dict = field(default_factory=dict)


class Moved(NamedTuple):
    """An element that leaves its place, with all that is changed of it."""

    element: object


class Edit(NamedTuple):
    """A part of a text, from one place to another, and what comes there. Of several at one place the turn tells which stands first."""

    first: int
    end: int
    turn: tuple
    new: bytes


class Changes:
    """The changes of a tree's files. `made` gives the new bytes of those that change."""

    def __init__(self, tree):
        self.tree, self.texts, self.put = tree, {}, {}
        # (`covered` are moved out of an element that goes with all that it has)
        self.gone, self.moved, self.covered = set(), set(), set()

    def write(self, leaf, text):
        """A leaf has this text."""
        self.texts[leaf] = str(text)

    def remove(self, element):
        self.gone.add(element)

    def add(self, parent, wrappers, piece):
        """An element comes last into an element below the parent, by the tags that lead to it; those that are missing come too. The piece is a list
        of lines, or a copied or moved element."""
        missing = list(wrappers)
        while missing and (found := parent.find(missing[0])) is not None:
            parent = found
            missing.pop(0)
        self.put.setdefault((parent, tuple(missing)), []).append(piece)
        if isinstance(piece, Moved):
            self.moved.add(piece.element)

    def made(self):
        """The new bytes of each file that changes, by its path."""
        if not (self.texts or self.gone or self.put):
            return {}
        self.emptied()
        spans, files = {}, [Text(path, self.tree.texts.get(path)) for path in self.tree.paths]
        wanted = set(self.mentioned())
        for file, root in zip(files, self.tree.roots):
            spans |= ((element, Placed(file, span)) for element, span in file.spans(self.tree.order(root), wanted).items())
        return Rendering(self, spans).made()

    def emptied(self):
        """Takes out in place of its elements what would be left empty."""
        filled = {parent for parent, _ in self.put}
        while True:
            leaving = self.gone | self.moved - self.covered
            above = {child: element for root in self.tree.roots for element in root.iter() for child in element if child in leaving}
            hollow = {it for it in above.values() if it not in filled and all(child in leaving for child in it)}
            if not hollow:
                return
            inside = {child for child, element in above.items() if element in hollow}
            self.covered |= inside & self.moved
            self.gone = self.gone - inside | hollow

    def mentioned(self):
        """All elements whose places are asked for."""
        yield from self.texts
        yield from self.gone
        for (parent, missing), pieces in self.put.items():
            yield parent
            yield from self.beside(parent, missing)
            for piece in pieces:
                if not isinstance(piece, list):
                    yield piece.element
                if isinstance(piece, Copied):
                    yield from piece.texts

    @staticmethod
    def beside(parent, missing):
        """The element of the parent behind which something comes, or none where it comes first; and its first."""
        children = list(parent)
        earlier = [child for child in children if not missing or child.tag in BEFORE.get(missing[0], ())]
        return [*earlier[-1:], *children[:1]]


class Placed(NamedTuple):
    """An element's place in its file."""

    file: Text
    span: object


class Rendering:
    """Makes the new texts of files."""

    def __init__(self, changes, places):
        self.changes, self.places, self.edits = changes, places, {}

    def made(self):
        changes = self.changes
        for leaf, text in changes.texts.items():
            self.edit(self.places[leaf].file, *self.written(leaf, text))
        for element in changes.gone:
            self.cut(element)
        moving = {place for place, pieces in changes.put.items() if any(isinstance(piece, Moved) for piece in pieces)}
        for place in sorted(changes.put, key=lambda place: place in moving):
            self.insert(*place, [self.taken(piece) for piece in changes.put[place]])
        return {file.path: file.encoded(applied(file.utf8, 0, len(file.utf8), edits)) for file, edits in self.edits.items()}

    def edit(self, file, first, end, new, rank=0):
        edits = self.edits.setdefault(file, [])
        edits.append(Edit(first, end, (rank, len(edits)), new))

    def written(self, leaf, text):
        """Where a leaf's text stands, and what comes there. White space around it stays."""
        file, span = self.places[leaf]
        begin, inside = file.utf8[span.first : span.inner], file.utf8[span.inner : span.last]
        new, bare = escape(text).encode(), inside.strip()
        if span.is_closed:
            return span.first, span.end, begin[:-2].rstrip() + b">" + new + b"</" + file.prefix + leaf.tag.encode() + b">"
        if BASE.search(begin):
            return span.first, span.last, BASE.sub(b"", begin) + new
        if not bare or b"<" in bare:
            return span.inner, span.last, new
        first = span.inner + inside.index(bare)
        return first, first + len(bare), new

    def cut(self, element):
        file, span = self.places[element]
        self.edit(file, span.first - len(file.space(span.first)), span.end, b"")

    def taken(self, piece):
        """A piece, where it moves as it is to be, and cut out of its place."""
        if not isinstance(piece, Moved):
            return piece
        file, span = self.places[piece.element]
        edits = self.edits.get(file, [])
        # (what is put at its begin or its end comes beside it)
        inside = [it for it in edits if span.first < it.first and it.end < span.end]
        self.edits[file] = [it for it in edits if not (span.first < it.first and it.end < span.end)]
        if piece.element not in self.changes.covered:
            self.cut(piece.element)
        return applied(file.utf8, span.first, span.end, inside)

    def copied(self, piece):
        file, span = self.places[piece.element]
        edits = [Edit(first, end, (), new) for first, end, new in (self.written(*it) for it in piece.texts.items())]
        edits += (Edit(span.first + it.start(), span.first + it.end(), (), b"") for it in UUID.finditer(file.utf8[span.first : span.end]))
        return applied(file.utf8, span.first, span.end, edits)

    def insert(self, parent, missing, pieces):
        """Puts pieces into an element, with the elements around them that are missing, and with the white space of those beside them."""
        file, span = self.places[parent]
        beside = Changes.beside(parent, missing)
        outer = file.space(span.first)
        space = file.space(self.places[beside[-1]].span.first) if beside else outer + STEP if b"\n" in outer else b""
        step = space[len(outer) :] if space.startswith(outer) else STEP
        lines = Lines(file, space, step if b"\n" in space else b"")
        new = lines.wrapped(missing, [self.copied(piece) if isinstance(piece, Copied) else piece for piece in pieces])
        if len(beside) == 2:
            end = self.places[beside[0]].span.end
            self.edit(file, end, end, new, len(BEFORE.get(missing[0], ())) if missing else 0)
        elif not span.is_closed:
            self.edit(file, span.inner, span.inner if beside else span.last, new if beside else new + outer)
        else:
            begin = file.utf8[span.first : span.end][:-2].rstrip() + b">"
            self.edit(file, span.first, span.end, begin + new + outer + b"</" + file.prefix + parent.tag.encode() + b">")


class Lines(NamedTuple):
    """How elements are written in a file: the white space before the first, and how much more stands before an inner one."""

    file: Text
    space: bytes
    step: bytes

    def wrapped(self, tags, pieces):
        """The pieces in elements of these tags, one in the other."""
        if not tags:
            return b"".join(self.piece(it) for it in pieces)
        begin, end = (self.tagged(form % tags[0].encode()) for form in (b"<%s>", b"</%s>"))
        inner = self._replace(space=self.space + self.step)
        return self.space + begin + inner.wrapped(tags[1:], pieces) + self.space + end

    def piece(self, piece):
        if isinstance(piece, bytes):
            return self.space + piece
        depths = ((len(line) - len(line.lstrip())) // len(STEP) for line in piece)
        return b"".join(self.space + self.step * depth + self.tagged(line.strip().encode()) for depth, line in zip(depths, piece))

    def tagged(self, line):
        """A line with the file's prefix before its tags."""
        return re.sub(rb"<(/?)(?=[A-Z])", rb"<\1" + self.file.prefix, line) if self.file.prefix else line


def applied(text, first, end, edits):
    """A part of a text with these edits."""
    parts, place = [], first
    for edit in sorted(edits):
        if edit.first < place:
            raise Fault("two changes meet in one place of the file; please tell the makers of this program which")
        parts += [text[place : edit.first], edit.new]
        place = edit.end
    return b"".join([*parts, text[place:end]])
