"""Workbooks of Excel (.xlsx, ECMA-376) and of LibreOffice (.ods, OpenDocument): parts of XML in a packed archive."""
import io
import re
import zipfile
import zlib
import xml.etree.ElementTree as ET
from collections import defaultdict
from datetime import datetime, timedelta

from .cells import Cell, Kind, Row, Sheet, shown
from .faults import Fault

# A part that is longer unpacked is none of a table.
LONGEST = 50_000_000
# Where rows or cells are said to stand more often in turn, they are no rows of a plan.
TIMES = 5000
# The day from which Excel counts.
FIRST_DAY = datetime(1899, 12, 30)
DAMAGED = zipfile.BadZipFile, zlib.error, ET.ParseError, EOFError, LookupError, ValueError, ArithmeticError, RuntimeError, OSError
# Numbers of formats of dates and times that no workbook spells out.
DATES = {*range(14, 23), *range(27, 37), *range(45, 48), *range(50, 59)}
OFFICE = "{urn:oasis:names:tc:opendocument:xmlns:office:1.0}"
TABLE = "{urn:oasis:names:tc:opendocument:xmlns:table:1.0}"
TEXT = "{urn:oasis:names:tc:opendocument:xmlns:text:1.0}"
CALC = "{urn:org:documentfoundation:names:experimental:calc:xmlns:calcext:1.0}"
LINK = "{http://schemas.openxmlformats.org/officeDocument/2006/relationships}id", "{http://purl.oclc.org/ooxml/officeDocument/relationships}id"


def sheets(path, data):
    """The sheets of a workbook, in their order."""
    try:
        with zipfile.ZipFile(io.BytesIO(data)) as archive:
            found = list(open_sheets(archive) if "content.xml" in archive.namelist() else office_sheets(archive))
    except DAMAGED as fault:
        raise Fault(f"{path}: it is no workbook that can be read: {' '.join(str(fault).split()) or type(fault).__name__:.100}") from fault
    return found


def part(archive, name):
    """The top of a part, whose elements have no name space; it keeps those of attributes."""
    with archive.open(name) as file:
        data = file.read(LONGEST + 1)
    if len(data) > LONGEST:
        raise ValueError(f"{name} is too long")
    return ET.fromstring(data)


def bare(element):
    return element.tag.rpartition("}")[2]


def children(element, tag):
    return [it for it in element if bare(it) == tag]


def all_of(element, tag):
    return [it for it in element.iter() if bare(it) == tag]


def decimal(text):
    """A number as a workbook keeps it, with its shortest digits."""
    number = float(text)
    return f"{number:.0f}" if number == int(number) else repr(number)


def filled(rows, name):
    """The rows in which something stands."""
    return [Row(f"row {number} of '{shown(name)}'", cells, number) for number, cells in rows if any(cell.text.strip() for cell in cells)]


# ---- Excel

def office_sheets(archive):
    names = set(archive.namelist())
    targets = {it.get("Id"): it.get("Target", "") for it in part(archive, "xl/_rels/workbook.xml.rels")}
    texts = [said(it) for it in children(part(archive, "xl/sharedStrings.xml"), "si")] if "xl/sharedStrings.xml" in names else []
    dates = date_styles(part(archive, "xl/styles.xml")) if "xl/styles.xml" in names else set()
    for sheet in all_of(part(archive, "xl/workbook.xml"), "sheet"):
        target = targets[next(filter(None, map(sheet.get, LINK)), None)]
        place = target[1:] if target.startswith("/") else f"xl/{target}"
        name = sheet.get("name", "")
        top = part(archive, place)
        yield Sheet(name, filled(office_rows(top, merged(top), texts, dates), name))


def said(element):
    """The text of an element, without the aids for its reading."""
    return "".join(it.text or "" for run in element if bare(run) != "rPh" for it in run.iter() if bare(it) == "t")


def date_styles(top):
    """The numbers of the styles by which a number is shown as a date or a time."""
    codes = {int(it.get("numFmtId", -1)): it.get("formatCode", "") for it in all_of(top, "numFmt")}
    styles = [int(it.get("numFmtId", 0)) for formats in children(top, "cellXfs") for it in formats]
    return {number for number, it in enumerate(styles) if it in DATES or shows_date(codes.get(it, ""))}


def shows_date(code):
    """Whether a format has letters of dates outside of its texts and conditions."""
    return re.search("[dmyhs]", re.sub(r'"[^"]*"|\[[^\]]*\]|\\.|_.|General', "", code.partition(";")[0]), re.I) is not None


def merged(top):
    """By row the places of cells that are part of a larger one."""
    found = defaultdict(set)
    for it in all_of(top, "mergeCell"):
        (left, first), (right, last) = map(place_of, it.get("ref", "").split(":", 1))
        for row in range(first, min(last, first + TIMES) + 1):
            found[row].update(range(left + (row == first), min(right, left + TIMES) + 1))
    return found


def office_rows(top, merged, texts, dates):
    """The number and the cells of each row."""
    number = 0
    for row in all_of(top, "row"):
        number = int(row.get("r", number + 1))
        cells = []
        for it in children(row, "c"):
            at = place_of(it.get("r"))[0] if it.get("r") else len(cells)
            cells += [Cell("")] * (at - len(cells))
            cells[at:] = [office_cell(it, texts, dates)]
        yield number, [Cell("", Kind.MERGED) if place in merged[number] else cell for place, cell in enumerate(cells)]


def place_of(name):
    """The numbers of a column, from 0 on, and of a row, of a cell's name as `AB12`."""
    found = re.fullmatch("([A-Z]{1,3})([0-9]{1,7})", name)
    if not found:
        raise ValueError(f"{name!a:.40} is no cell")
    column = 0
    for letter in found[1]:
        column = 26 * column + ord(letter) - 64
    return column - 1, int(found[2])


def office_cell(element, texts, dates):
    kind, value = element.get("t", "n"), next((it.text or "" for it in children(element, "v")), "")
    if kind == "inlineStr":
        return Cell("".join(said(it) for it in children(element, "is")))
    if value == "":
        has_formula = kind != "str" and children(element, "f")
        return Cell("a formula without a value: save the workbook with its own program", Kind.FAULT) if has_formula else Cell("")
    if kind == "s":
        return Cell(texts[int(value)])
    if kind == "e":
        return Cell(f"the error {value}", Kind.FAULT)
    if kind != "n":
        return Cell({"0": "FALSE", "1": "TRUE"}.get(value, value) if kind == "b" else value, Kind.DATE if kind == "d" else Kind.TEXT)
    if int(element.get("s", 0)) in dates:
        return Cell(f"{FIRST_DAY + timedelta(days=float(value)):%Y-%m-%d}", Kind.DATE)
    return Cell(decimal(value), Kind.NUMBER)


# ---- OpenDocument

def open_sheets(archive):
    for body in all_of(part(archive, "content.xml"), "spreadsheet"):
        for table in body.iterfind(f"{TABLE}table"):
            name = table.get(f"{TABLE}name", "")
            yield Sheet(name, filled(open_rows(table), name))


def open_rows(table):
    """The number and the cells of each row. What stands several times in turn is written once, with its number; a sheet ends with rows of nothing."""
    number = 1
    for row in table.iter(f"{TABLE}table-row"):
        times = int(row.get(f"{TABLE}number-rows-repeated", 1))
        cells = open_cells(row)
        if cells:
            yield from ((number + turn, cells) for turn in range(few(times)))
        number += times


def open_cells(row):
    cells, blank = [], 0
    for it in row:
        if it.tag not in (f"{TABLE}table-cell", f"{TABLE}covered-table-cell"):
            continue
        times, cell = int(it.get(f"{TABLE}number-columns-repeated", 1)), open_cell(it)
        is_blank = cell == Cell("") or cell.kind is Kind.MERGED and times > TIMES
        if not is_blank:
            cells += [Cell("")] * few(blank) + [cell] * few(times)
        blank = blank + times if is_blank else 0
    return cells


def few(times):
    if times > TIMES:
        raise ValueError(f"a row or a cell stands {times} times in turn")
    return times


def open_cell(element):
    kind, value = element.get(f"{OFFICE}value-type", ""), element.get(f"{OFFICE}value", "")
    shown = "\n".join("".join(spelled(line)) for line in element.findall(f"{TEXT}p"))
    if element.tag == f"{TABLE}covered-table-cell":
        return Cell("", Kind.MERGED)
    if element.get(f"{CALC}value-type") == "error":
        return Cell(f"the error {shown}", Kind.FAULT)
    if kind in ("float", "currency", "percentage"):
        return Cell(decimal(value), Kind.NUMBER)
    return Cell(shown, Kind.DATE if kind in ("date", "time") else Kind.TEXT)


def spelled(element):
    """The pieces of a line, without the remarks in it; several spaces in turn are an element."""
    yield element.text or ""
    for it in element:
        if it.tag == f"{TEXT}s":
            yield " " * few(int(it.get(f"{TEXT}c", 1)))
        elif it.tag in (f"{TEXT}tab", f"{TEXT}line-break"):
            yield " "
        elif it.tag != f"{OFFICE}annotation":
            yield from spelled(it)
        yield it.tail or ""
