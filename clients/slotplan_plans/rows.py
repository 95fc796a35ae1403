"""The command `rows`: a table as spreadsheets write it, as a file of rows that the register reads."""
import os
import sys
from pathlib import Path

from . import rowtables
from .cells import shown
from .clusters import add_cluster, clock_of, cluster_of
from .faults import Fault
from .files import made, written
from .rowfiles import COLUMNS, ROWS, parts, text_of
from .spans import Gap
from .words import microseconds


def add_commands(commands):
    parser = commands.add_parser("rows", help=rows.__doc__, description=rows.__doc__)
    parser.set_defaults(work=rows)
    parser.add_argument("file", metavar="FILE", help="a table of frames, placements, signals or wishes: CSV with any marks, .xlsx or .ods")
    parser.add_argument("--sheet", metavar="NAME", help="of a workbook: the sheet, where several have a header")
    parser.add_argument("--supplier", metavar="NAME", help="of a table with a column supplier: whose rows are taken")
    parser.add_argument("--parts", metavar="FOLDER", help=f"makes a folder with files of at most {ROWS} rows, in place of what is printed")
    add_cluster(parser)


def rows(given):
    """Prints a table as a spreadsheet saves it as the CSV that the register reads, or says what is at fault."""
    table = rowtables.read(given.file, given.sheet)
    records = of_supplier(given, table.records)
    found = repeated(given, records) if table.kind == "wishes" else [it.values for it in records]
    made_of = [[it[name] for name in COLUMNS[table.kind]] for it in found]
    if given.parts:
        write_parts(given.parts, table.kind, made_of)
    elif len(made_of) > ROWS:
        raise Fault(f"{given.file}: there are {len(made_of)} rows, and the register takes {ROWS} of a file; --parts FOLDER writes several")
    else:
        sys.stdout.write(text_of(table.kind, made_of))
    for line in table.left_out:
        print(f"left out: {line}", file=sys.stderr)


def of_supplier(given, records):
    """The records of the supplier that is named; all where the table has one supplier's."""
    if given.supplier:
        mine = [it for it in records if it.supplier == given.supplier]
        if not mine:
            raise Fault(f"{given.file}: no row is of the supplier {shown(given.supplier)}")
        return mine
    names = sorted({it.supplier for it in records} - {None})
    if len(names) > 1:
        raise Fault(f"{given.file}: rows are of {len(names)} suppliers: {' '.join(names)}; --supplier names one")
    return records


def repeated(given, records):
    """What wishes say, each with a repetition in place of a gap."""
    if not any(isinstance(it.values["repetition"], Gap) for it in records):
        return [it.values for it in records]
    cluster, macrotick = cluster_of(given), microseconds(given.macrotick)
    if cluster is None:
        raise Fault(f"{given.file}: gaps are made repetitions by the cluster's figures: --cluster or --source names where they are")
    clock = clock_of(cluster, macrotick)
    return [{**it.values, "repetition": repetition(given.file, it, clock)} for it in records]


def repetition(file, record, clock):
    """The repetition that a wish is for."""
    told = record.values["repetition"]
    if not isinstance(told, Gap):
        return told
    try:
        found = clock.repetition(told)
    except Fault as fault:
        raise Fault(f"{file}: {record.place}: {fault}") from fault
    if found is None:
        why = "it needs several slots in each cycle, which `slotplan-plans needs` chooses"
        raise Fault(f"{file}: {record.place}: the gap {told} is shorter than a cycle of {clock.macroticks} macroticks: {why}")
    return found


def write_parts(folder, kind, made_of):
    folder = Path(folder)
    made(folder)
    for number, part in enumerate(parts(made_of)):
        with written(folder / f"part{number:02}_{kind}.csv", 0o666) as file:
            file.write(text_of(kind, part))
