"""Writers of workbooks by others: openpyxl for .xlsx, odfpy for .ods. The variable WRITERS names a python3 that has them; else this one is asked, and
then the system's. As a program it writes the records that it reads as JSON: python3 writers.py FORM FILE."""
import json
import os
import subprocess
import sys
from functools import cache

MODULES = {"xlsx": "openpyxl", "ods": "odf.opendocument"}
SECONDS = 60


@cache
def python(form):
    """A python3 that has the writer of this form, or none."""
    for path in filter(None, (os.environ.get("WRITERS"), sys.executable, "/usr/bin/python3")):
        try:
            if subprocess.run([path, "-c", f"import {MODULES[form]}"], capture_output=True, timeout=SECONDS).returncode == 0:
                return path
        except OSError:
            continue
    return None


def write(form, path, records):
    """Writes a workbook with these records, of texts and whole numbers, on the sheet `Plan`."""
    ended = subprocess.run([python(form), __file__, form, path], input=json.dumps(records), capture_output=True, text=True, timeout=SECONDS)
    if ended.returncode != 0:
        raise OSError(f"{MODULES[form]}: {ended.stderr.strip()[-300:]!r}")


def write_xlsx(path, records):
    import openpyxl

    book = openpyxl.Workbook()
    book.active.title = "Plan"
    for record in records:
        book.active.append(record)
        for cell in book.active[book.active.max_row]:
            cell.number_format = "0.00" if isinstance(cell.value, int) else cell.number_format
    book.save(path)


def write_ods(path, records):
    from odf.opendocument import OpenDocumentSpreadsheet
    from odf.table import Table, TableCell, TableRow
    from odf.text import P

    book, table = OpenDocumentSpreadsheet(), Table(name="Plan")
    for record in records:
        row = TableRow()
        for value in record:
            cell = TableCell(valuetype="float", value=value) if isinstance(value, int) else TableCell(valuetype="string")
            cell.addElement(P(text=f"{value},00" if isinstance(value, int) else value))
            row.addElement(cell)
        table.addElement(row)
    book.spreadsheet.addElement(table)
    book.save(path)


if __name__ == "__main__":
    {"xlsx": write_xlsx, "ods": write_ods}[sys.argv[1]](sys.argv[2], json.loads(sys.stdin.read()))
