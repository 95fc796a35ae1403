"""Cells, rows and sheets of tables, whatever file they stood in."""
from enum import Enum
from typing import NamedTuple

# What no reader sees, and spreadsheets leave around a text.
UNSEEN = "\u200b\u200c\u200d\u2060\ufeff"


class Kind(Enum):
    """What a cell is: a text as it is shown, a workbook's number, a date, part of a larger cell that begins elsewhere, or nothing that can be read,
    such as a formula's error."""

    TEXT = "text"
    NUMBER = "number"
    DATE = "date"
    MERGED = "merged"
    FAULT = "fault"


class Cell(NamedTuple):
    """What stands in a cell. A number is decimal, with a point."""

    text: str
    kind: Kind = Kind.TEXT


class Row(NamedTuple):
    """A row that has something in it. `place` says where it stands, in a fault's words; its number is that of its first line."""

    place: str
    cells: list
    number: int


class Sheet(NamedTuple):
    """The rows of a sheet, or of a text, which has no name. `broken` says why those behind the last cannot be read, where that is so."""

    name: str
    rows: list
    broken: str = ""


def shown(text):
    """A text within a line, short and printable."""
    return "".join(letter if letter.isprintable() else "?" for letter in text[:80])


def bare(cell):
    """The text of a cell without what stands around it unseen."""
    return cell.text.strip().strip(UNSEEN).strip()
