"""A file's text: its bytes in UTF-8, in which the places of elements are counted, and how it is written."""
import codecs
import re
import xml.parsers.expat as expat
from pathlib import Path
from typing import NamedTuple

from ..faults import Fault

MARKS = {codecs.BOM_UTF8: "utf-8", codecs.BOM_UTF16_LE: "utf-16-le", codecs.BOM_UTF16_BE: "utf-16-be", b"<\0": "utf-16-le", b"\0<": "utf-16-be"}
DECLARED = re.compile(rb"""<\?xml[^>]*?\bencoding\s*=\s*["']([A-Za-z0-9._-]+)["']""")
TAG = re.compile(rb"""<((?:[\w.-]+:)?)([\w.-]+)(?:[^>"']|"[^"]*"|'[^']*')*>""")


class Span(NamedTuple):
    """Where an element lies: its begin tag, what is between, and its end tag. One without an end tag has nothing between."""

    first: int
    inner: int
    last: int
    end: int

    @property
    def is_closed(self):
        return self.inner == self.end


class Text:
    """The text of one file. `prefix` stands before each tag."""

    def __init__(self, path, data=None):
        self.path = path
        try:
            data = Path(path).read_bytes() if data is None else data
        except OSError as fault:
            raise Fault(f"{path}: {fault.strerror}") from fault
        self.encoding = encoding_of(data)
        self.utf8 = data if self.encoding == "utf-8" else self.decoded(data)
        top = re.search(rb"<((?:[\w.-]+:)?)AUTOSAR[\s>]", self.utf8)
        self.prefix = top[1] if top else b""

    def decoded(self, data):
        try:
            text = data.decode(self.encoding)
            if text.encode(self.encoding) == data:
                return text.encode()
        except (UnicodeError, LookupError):
            pass
        raise Fault(f"{self.path}: it cannot be written anew in {self.encoding} byte by byte")

    def encoded(self, utf8):
        """The bytes of a text in the file's own encoding."""
        return utf8 if self.encoding == "utf-8" else utf8.decode().encode(self.encoding, "xmlcharrefreplace")

    def spans(self, order, wanted):
        """The spans of these elements, by element. All elements of the file are told in their order."""
        numbers = {number: element for number, element in enumerate(order) if element in wanted}
        return {element: self.span(element, *places) for element, places in self.places(numbers)}

    def places(self, numbers):
        """Where the begin tag of each of these elements stands, and its end tag, by their places in the file's order."""
        parser, found, opened, count = expat.ParserCreate("utf-8"), [], [], -1

        def begin(*_):
            nonlocal count
            count += 1
            opened.append((count, parser.CurrentByteIndex))

        def end(_):
            number, first = opened.pop()
            if number in numbers:
                found.append((numbers[number], (first, parser.CurrentByteIndex)))

        parser.StartElementHandler, parser.EndElementHandler = begin, end
        parser.Parse(self.utf8, True)
        return found

    def span(self, element, first, last):
        """An element's span. What stands in an entity has no place of its own."""
        tag = TAG.match(self.utf8, first)
        if not tag or tag[2].decode() != element.tag:
            raise Fault(f"{self.path}: a {element.tag} stands in an entity, and cannot be changed there")
        if tag[0].endswith(b"/>"):
            return Span(first, tag.end(), tag.end(), tag.end())
        return Span(first, tag.end(), last, self.utf8.index(b">", last) + 1)

    def space(self, place):
        """The white space before a place."""
        first = place
        while first and self.utf8[first - 1 : first].isspace():
            first -= 1
        return self.utf8[first:place]


def encoding_of(data):
    """The encoding of a file: by its mark, by its first letter, or as it says."""
    for mark, encoding in MARKS.items():
        if data.startswith(mark):
            return encoding
    declared = DECLARED.match(data[:200])
    encoding = declared[1].decode().lower() if declared else "utf-8"
    return "utf-8" if encoding == "utf8" else encoding
