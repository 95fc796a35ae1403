"""The cells of a table as people have it: a text with whatever marks and letters it was saved, or the sheets of a workbook."""
import csv
import io

from . import workbooks
from .cells import Cell, Row, Sheet
from .faults import Fault

MARKS = ",;\t|"
# How a text of UTF-16 begins.
ORDERS = {b"\xff\xfe": "utf-16", b"\xfe\xff": "utf-16"}
# How files begin that no table is read from.
PACKED, OLD = b"PK\x03\x04", b"\xd0\xcf\x11\xe0"
# A table of so many bytes is none of rows.
LARGEST = 32_000_000


def bytes_of(path):
    try:
        with open(path, "rb") as file:
            data = file.read(LARGEST + 1)
    except OSError as fault:
        raise Fault(f"{path}: {fault.strerror}") from fault
    if len(data) > LARGEST:
        raise Fault(f"{path}: it has more than {LARGEST} bytes, and is no table of rows")
    return data


def sheets(path):
    """The sheets of a workbook; of a text what it is by each mark that may stand between its fields."""
    data = bytes_of(path)
    if data.startswith(OLD):
        raise Fault(f"{path}: it is a workbook of an old form (.xls), or one with a password; save it as .xlsx, .ods or CSV")
    if data.startswith(PACKED):
        return workbooks.sheets(path, data)
    text = decoded(data)
    return [split(text, mark) for mark in marks_of(text)]


def is_workbook(path):
    """Whether a file is a workbook, be it of an old form."""
    return bytes_of(path).startswith((PACKED, OLD))


def text_of(path):
    """The text of a file."""
    return decoded(bytes_of(path))


def decoded(data):
    """The text of UTF-8, or of UTF-16 with its mark or without; else of Windows, in which each byte is a letter."""
    order = ORDERS.get(data[:2]) or wide(data[:2000])
    if order:
        return data.decode(order, errors="replace").removeprefix("\ufeff")
    try:
        return data.decode("utf-8-sig")
    except UnicodeDecodeError:
        return data.decode("cp1252", errors="replace")


def wide(head):
    """The order of UTF-16 without a mark, where most of every other byte is 0; or none."""
    for first, order in (1, "utf-16-le"), (0, "utf-16-be"):
        if 2 * head[first::2].count(0) > len(head[first::2]) and 0 not in head[1 - first :: 2]:
            return order
    return None


def marks_of(text):
    """The marks that may stand between fields: the one that Excel's first line names, else each."""
    first = text.partition("\n")[0].strip("\r")
    return first[4:] if len(first) == 5 and first.startswith("sep=") else MARKS


def split(text, mark):
    """The rows of a text whose fields stand apart by this mark."""
    reader, rows, broken = csv.reader(io.StringIO(text, newline=""), delimiter=mark, strict=True), [], ""
    while True:
        first = reader.line_num + 1
        try:
            fields = next(reader)
        except StopIteration:
            break
        except csv.Error as fault:
            broken = f"line {first}: {fault}"
            break
        names_mark = first == 1 and fields[:1] == ["sep="]
        if any(field.strip() for field in fields) and not names_mark:
            rows.append(Row(f"line {first}", [Cell(field) for field in fields], first))
    return Sheet("", rows, broken)
