"""Tables as a spreadsheet saves and reads them, and those of nodes and grants."""
import csv
import io
import sys

from .cells import bare
from .faults import Fault
from .plan import Grant, Node
from .reading import read
from .spreadsheets import is_workbook, sheets, text_of
from .words import add_source, source_of

NODES = "supplier", "node"
GRANTS = "slot", "channel", "supplier", "node"


def add_commands(commands):
    parser = commands.add_parser("table", help=table.__doc__, description=table.__doc__)
    parser.set_defaults(work=table)
    add_source(parser)
    parser.add_argument("kind", choices=("nodes", "grants"))
    parser.add_argument("--semicolons", action="store_true", help="in place of commas")


def table(given):
    """Prints the table of all nodes, or of a variant's grants, as CSV."""
    plan = read(source_of(given), given.variant)
    rows = {
        "nodes": [NODES, *((it.supplier, it.name) for it in plan.nodes)],
        "grants": [GRANTS, *((it.slot, it.channel, it.supplier, it.node) for it in plan.grants)],
    }
    csv.writer(sys.stdout, delimiter=";" if given.semicolons else ",", lineterminator="\n").writerows(rows[given.kind])


def rows_of(path, columns):
    """The rows of a table: the number of the line that each ends with, and its fields in the order of these columns.

    Fields stand apart by commas, semicolons or tabs, or in the cells of a workbook. The first line names them, in any order; other columns, empty
    rows and spaces around a field do not count."""
    if is_workbook(path):
        yield from rows_of_workbook(path, columns)
        return
    text = text_of(path)
    for mark in ",;\t":
        reader = csv.reader(io.StringIO(text, newline=""), delimiter=mark)
        try:
            header = [name.strip().lower() for name in next(reader, ())]
            if set(columns) <= set(header):
                yield from ((reader.line_num, [row[header.index(name)].strip() for name in columns]) for row in filled(reader, len(header)))
                return
        except csv.Error as fault:
            raise Fault(f"{path}: line {reader.line_num}: {fault}") from fault
    raise Fault(f"{path}: the first line does not name the columns {', '.join(columns)}")


def rows_of_workbook(path, columns):
    """The same of the sheet of a workbook whose first row names the columns."""
    for sheet in sheets(path):
        records = [(row.number, list(map(bare, row.cells))) for row in sheet.rows]
        header = [name.lower() for name in records[0][1]] if records else []
        if set(columns) <= set(header):
            for number, fields in records[1:]:
                even = [*fields, *[""] * len(header)]
                yield number, [even[header.index(name)] for name in columns]
            return
    raise Fault(f"{path}: no sheet has a first row that names the columns {', '.join(columns)}")


def filled(reader, width):
    """The rows in which something stands, each with as many fields as the header."""
    for row in reader:
        if any(field.strip() for field in row):
            yield [*row, *[""] * (width - len(row))]


def nodes_of(path):
    """The nodes of a table, each with its line."""
    for line, fields in rows_of(path, NODES):
        whole(path, line, NODES, fields)
        yield line, Node(*fields)


def grants_of(path):
    """The grants of a table, each with its line. A row of the channels AB is two."""
    for line, fields in rows_of(path, GRANTS):
        whole(path, line, GRANTS, fields)
        slot, channels, supplier, node = fields
        if not (slot.isascii() and slot.isdigit()):
            raise Fault(f"{path}: line {line}: the slot {slot!a:.40} is no number")
        if channels not in ("A", "B", "AB"):
            raise Fault(f"{path}: line {line}: the channel {channels!a:.40} is none of A, B and AB")
        yield from ((line, Grant(int(slot), channel, supplier, node)) for channel in channels)


def whole(path, line, columns, fields):
    """Nothing, where each field has something."""
    for name, field in zip(columns, fields):
        if not field:
            raise Fault(f"{path}: line {line}: there is no {name}")
