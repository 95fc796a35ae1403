"""Tables of rows for the register: which row is the header, what kind of rows stand below it, and what each says."""
import re
from collections import Counter
from typing import NamedTuple

from .cells import Cell, Kind, Row, bare, shown
from .entries import RANGES, number, said, value
from .faults import Fault
from .rowfiles import COLUMNS
from .spans import UNITS, Gap
from .spreadsheets import sheets

# How columns are called, in small letters.
WORDS = {
    "frame": "frame", "frame name": "frame", "node": "node", "ecu": "node", "signal": "signal", "signal name": "signal", "supplier": "supplier",
    "slot": "slot", "slot id": "slot", "channels": "channels", "channel": "channels", "base": "base", "base cycle": "base",
    "repetition": "repetition", "cycle repetition": "repetition", "start": "start", "start bit": "start", "start position": "start",
    "length": "length", "bit length": "length", "order": "order", "byte order": "order", "gap": "gap", "cycle time": "gap",
}
WITH_UNIT = re.compile(r"(gap|cycle time)[ /\[(]*(?:in )?([a-z\u00b5\u03bc]+)[\])]*")
# The first rows among which the header is looked for.
FIRST = 50
TOTALS = {
    "total", "totals", "sum", "subtotal", "result", "summe", "gesamt", "gesamtsumme", "zwischensumme", "ergebnis", "gesamtergebnis", "somme",
    "totale",
}


class Column(NamedTuple):
    """A column that is read: its name, its place, and the unit that its name has."""

    name: str
    place: int
    unit: str = None


class Record(NamedTuple):
    """A row: where it stands, what it says by the names of columns, and its supplier where a column has it."""

    place: str
    values: dict
    supplier: str = None


class Table(NamedTuple):
    """What the rows are, the records, and what was left out, in lines."""

    kind: str
    records: list
    left_out: list


class Header(NamedTuple):
    """A row that names columns, and how many rows stand above it."""

    above: int
    row: Row
    columns: list

    @property
    def names(self):
        return Counter(it.name for it in self.columns)

    @property
    def kind(self):
        """What stands below, or none. A gap may stand in place of a wish's repetition, or beside it; elsewhere it does not count."""
        mine = self.names.keys() - {"supplier", "gap"}
        if self.twice:
            return None
        if self.names["gap"] and mine | {"repetition"} == set(COLUMNS["wishes"]):
            return "wishes"
        return next((kind for kind, wanted in COLUMNS.items() if mine == set(wanted)), None)

    @property
    def twice(self):
        return next((name for name, count in self.names.items() if count > 1), None)

    @property
    def fault(self):
        """Why it heads no file of rows: what it lacks of the nearest kind, or has beside."""
        if self.twice:
            return f"{self.row.place}: two columns are the {self.twice}"
        kind = max(COLUMNS, key=lambda it: (len(self.names.keys() & set(COLUMNS[it])), -len(COLUMNS[it])))
        lacking = [name for name in COLUMNS[kind] if name not in self.names]
        more = [name for name in self.names if name not in (*COLUMNS[kind], "supplier", "gap")]
        return f"{self.row.place}: {kind} {f'need the column {lacking[0]}' if lacking else f'have no column {more[0]}'}"

    def wanted(self):
        """The columns of its kind, by name."""
        names = {*COLUMNS[self.kind], "supplier", *(["gap"] if self.kind == "wishes" else [])}
        return {it.name: it for it in self.columns if it.name in names}


def read(path, sheet=None):
    """The table in a file; of a workbook the one that has a header, or that of this sheet."""
    known = [(it, header(it.rows)) for it in chosen(path, sheet)]
    whole = [(it, head) for it, head in known if head and head.kind]
    if len(whole) > 1 and whole[0][0].name:
        raise Fault(f"{path}: {len(whole)} sheets have a header: {', '.join(shown(it.name) for it, _ in whole)}; name one with --sheet")
    if not whole:
        faults = [head.fault for _, head in known if head] + [it.broken for it, _ in known if it.broken]
        none = f"no row names the columns {', '.join(COLUMNS['placements'])}, or those of frames, signals or wishes"
        raise Fault(f"{path}: {next(iter(faults), none)}")
    return below(path, *whole[0])


def chosen(path, sheet):
    """The sheets of a file, or that of this name."""
    known = sheets(path)
    mine = [it for it in known if sheet in (None, it.name)]
    if not mine:
        raise Fault(f"{path}: there is no sheet '{shown(sheet)}'" if known else f"{path}: there is no sheet")
    return mine


def header(rows):
    """The header among the rows, or none."""
    for above, row in enumerate(rows[:FIRST]):
        columns = [it for place, cell in enumerate(row.cells) if (it := column_of(bare(cell), place))]
        if len({it.name for it in columns}) > 1 and any(it.name == "frame" for it in columns):
            return Header(above, row, columns)
    return None


def column_of(text, place):
    """The column of this name, or none."""
    plain = re.sub(r"[\s_-]+", " ", text.lower()).strip()
    if plain in WORDS:
        return Column(WORDS[plain], place)
    timed = WITH_UNIT.fullmatch(plain)
    return Column("gap", place, UNITS[timed[2]]) if timed and timed[2] in UNITS else None


def below(path, sheet, head):
    """The table below a header."""
    wanted, names = head.wanted(), list(map(bare, head.row.cells))
    places = {it.place for it in wanted.values()}
    left_out = [f"{row.place}: {told(row)}" for row in sheet.rows[: head.above]]
    left_out += [f"the column {shown(name)}" for place, name in enumerate(names) if name and place not in places]
    records = []
    for row in sheet.rows[head.above + 1 :]:
        if is_total(row, wanted) or list(map(bare, row.cells)) == names:
            left_out.append(f"{row.place}: {told(row)}")
            continue
        try:
            records.append(record(row, wanted, head.kind, len(names)))
        except Fault as fault:
            raise Fault(f"{path}: {row.place}: {fault}") from fault
    if sheet.broken:
        raise Fault(f"{path}: {sheet.broken}")
    return Table(head.kind, records, left_out)


def told(row):
    """What a row has, shortly."""
    return ", ".join(filter(None, (shown(bare(it)) for it in row.cells)))[:80]


def is_total(row, wanted):
    """Whether a row sums up others: of what is text in each row it has at most one, which says so; else it has numbers alone."""
    cells = [cell for cell in row.cells if bare(cell)]
    texts = [cell_at(row, it.place) for name, it in wanted.items() if name not in ("gap", "supplier", *RANGES)]
    if sum(1 for cell in texts if bare(cell)) > 1 or any(cell.kind is Kind.MERGED for cell in texts):
        return False
    says = bare(cells[0]).lower().rstrip(": ").rpartition(" ")[2] in TOTALS
    return says or all(cell.kind in (Kind.TEXT, Kind.NUMBER) and re.fullmatch("[0-9.,]+", bare(cell)) for cell in cells)


def cell_at(row, place):
    return row.cells[place] if place < len(row.cells) else Cell("")


def record(row, wanted, kind, width):
    """What a row says."""
    if any(bare(cell) for cell in row.cells[width:]):
        raise Fault(f"there are {len(row.cells)} fields, and the header has {width}")
    of = lambda name: cell_at(row, wanted[name].place)
    values = {name: value(name, of(name)) for name in COLUMNS[kind] if name != "repetition"}
    if "repetition" in COLUMNS[kind]:
        values["repetition"] = often(wanted, of)
    if "base" in values and values["base"] >= values["repetition"]:
        raise Fault(f"the base {values['base']} is not below the repetition {values['repetition']}")
    return Record(row.place, values, value("supplier", of("supplier")) if "supplier" in wanted else None)


def often(wanted, of):
    """A row's repetition, or the gap that stands in its place."""
    filled = [name for name in ("repetition", "gap") if name in wanted and (bare(of(name)) or of(name).kind is not Kind.TEXT)]
    if len(filled) > 1:
        raise Fault("there is a repetition and a gap; a row has one of them")
    if not filled:
        raise Fault(f"there is no {'repetition' if 'repetition' in wanted else 'gap'}")
    return value("repetition", of("repetition")) if filled == ["repetition"] else gap(of("gap"), wanted["gap"].unit)


def gap(cell, unit):
    """A gap, whose unit stands in the cell, or else in the header."""
    text = said("gap", cell)
    found = re.fullmatch(r"(.*?)\s*([a-z\u00b5\u03bc]*)", text.lower(), re.DOTALL)
    unit = UNITS.get(found[2]) if found[2] else unit
    if unit is None:
        raise Fault(f"the gap '{shown(text)}' has no unit: name the column gap (ms), gap (macroticks) or gap (cycles)")
    return Gap(number("gap", found[1], cell.kind), unit)
