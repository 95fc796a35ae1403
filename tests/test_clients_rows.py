"""Tables as spreadsheets save them, by `slotplan-plans rows`: what the register reads of them, or the one thing that is at fault.

What is wanted was typed by hand, or is made by the rules of tests/models/dressed.py."""
import io
import random
import re
import zipfile
from itertools import chain

from tests.drivers import writers
from tests.drivers.plans_client import ClientCase
from tests.drivers.program import ran
from tests.models.dressed import COLUMNS, dressed, file_of, packed, rows_by_chance, saved
from tests.models.messages import FIRST
from tests.models.workbook import packed as archive
from tests.models.workbook import SHEETS, links, open_workbook, sheet, workbook
from tests.runner.parameters import for_each

LIGHTS = "frame,node,slot,channels,base,repetition\nlow_beam,lamp_unit,4,A,0,2\nhigh_beam,lamp_unit,4,AB,1,4\n"
BITS = "frame,signal,start,length,order\nlow_beam,level,0,8,little\nlow_beam,on,16,1,big\n"
PLACES = "frame,node,slot,channels,base,repetition"
CLUSTER = FIRST.decode().partition("\n---\n")[0]
# (a name of the case, what the file has, what is printed, what was left out)
READ = (
    ("as it is", LIGHTS, LIGHTS, ()),
    ("semicolons", LIGHTS.replace(",", ";"), LIGHTS, ()),
    ("tabs in UTF-16, as Excel's Unicode text", LIGHTS.replace(",", "\t").replace("\n", "\r\n").encode("utf-16"), LIGHTS, ()),
    ("UTF-16 without a mark", LIGHTS.replace(",", "\t").encode("utf-16-be"), LIGHTS, ()),
    ("a byte order mark", b"\xef\xbb\xbf" + LIGHTS.encode(), LIGHTS, ()),
    ("decimal commas", LIGHTS.replace(",", ";").replace(";4;", ";4,00;").replace(";0;", ";0,0;"), LIGHTS, ()),
    ("decimals", LIGHTS.replace(",4,", ",4.00,").replace(",2\n", ",2.\n"), LIGHTS, ()),
    ("exponents", LIGHTS.replace(",4,", ',"4,00E+00",').replace(",2\n", ",0.2E1\n"), LIGHTS, ()),
    ("empty rows", "\n,,,,,\n" + LIGHTS.replace("high", "\n;,\n,,,,,\nhigh").replace(";,\n", "") + ",,,,,\n\n", LIGHTS, ()),
    ("a title", "Light plan of week 47\n\n" + LIGHTS, LIGHTS, ("line 1: Light plan of week 47",)),
    ("Excel's names of columns", "Column1,Column2,Column3,Column4,Column5,Column6\n" + LIGHTS, LIGHTS,
     ("line 1: Column1, Column2, Column3, Column4, Column5, Column6",)),
    ("a total", LIGHTS + "Summe,,,,,6\n", LIGHTS, ("line 4: Summe, 6",)),
    ("a total that says nothing", LIGHTS.replace(",", ";") + ";;8,00;;;6\n", LIGHTS, ("line 4: 8,00, 6",)),
    ("the header again", LIGHTS + LIGHTS.partition("\n")[0] + "\n", LIGHTS, ("line 4: frame, node, slot, channels, base, repetition",)),
    ("remarks", LIGHTS.replace("\n", ";x\n").replace(",", ";").replace("repetition;x", "repetition;für wen"), LIGHTS, ("the column für wen",)),
    ("Excel's first line", "sep=;\n" + LIGHTS.replace(",", ";"), LIGHTS, ()),
    ("another first line", "sep=|\r\n" + LIGHTS.replace(",", "|").replace("\n", "\r\n"), LIGHTS, ()),
    ("a header of other words", LIGHTS.replace(PLACES, "Frame,ECU,Slot ID,Channel,Base Cycle,Cycle_Repetition"), LIGHTS, ()),
    ("another order", "repetition;base;Slot;NODE;channels;frame\n2;0;4;lamp_unit;a;low_beam\n4;1;4;lamp_unit;A+B;high_beam\n", LIGHTS, ()),
    ("Intel and Motorola", BITS.replace("little", "Intel").replace("big", "MOTOROLA"), BITS, ()),
    ("endians", BITS.replace("little", "Little Endian").replace("big", "big-endian"), BITS, ()),
    ("a start in sixteens", BITS.replace(",16,", ",0x10,"), BITS, ()),
    ("quotes", re.sub("([^,\n]+)", r'"\1"', LIGHTS), LIGHTS, ()),
    ("spaces", LIGHTS.replace("low_beam", " low_beam\u00a0").replace(",4,", ", 4\u2009,").replace("lamp_unit", "\u200blamp_unit"), LIGHTS, ()),
    ("frames", "frame;node;remark\nf;n1;new\n", "frame,node\nf,n1\n", ("the column remark",)),
    ("no row", "frame,node\n", "frame,node\n", ()),
    ("wishes", "node,frame,channels,repetition\nn1,f,b,64\n", "frame,node,channels,repetition\nf,n1,B,64\n", ()),
    ("a start of four digits", "frame;signal;start;length;order\nf;x;2 016;1;Intel\n", "frame,signal,start,length,order\nf,x,2016,1,little\n", ()),
    ("placements beside a gap", LIGHTS.replace("\n", ",20\n").replace("repetition,20", "repetition,gap"), LIGHTS, ("the column gap",)),
)
# (a name of the case, what the file has, what is at fault)
AT_FAULT = (
    ("nothing", "", f"no row names the columns {PLACES.replace(',', ', ')}, or those of frames, signals or wishes"),
    ("no header", "low_beam,lamp_unit,4,A,0,2\n", f"no row names the columns {PLACES.replace(',', ', ')}, or those of frames, signals or wishes"),
    ("a column is missing", "frame,node,slot,channels,repetition\n", "line 1: placements need the column base"),
    ("a word of another language", "frame;node;slot;Kanal;base;repetition\n", "line 1: placements need the column channels"),
    ("a column too many", "frame,node,signal,slot,channels,base,repetition\n", "line 1: placements have no column signal"),
    ("a column twice", "frame,node,Node\nf,n1,n1\n", "line 1: two columns are the node"),
    ("nothing in a field", "frame,node\nf,n1\ng,\n", "line 3: there is no node"),
    ("a decimal comma between commas", f"{PLACES}\nf,n1,4,00,A,0,2\n", "line 2: there are 7 fields, and the header has 6"),
    ("half a slot", f"{PLACES}\nf,n1,4.5,A,0,2\n", "line 2: the slot '4.5' is no whole number from 1 to 1023"),
    ("thousands or thousandths", f"{PLACES};\n".replace(",", ";") + "f;n1;1.000;A;0;2\n",
     "line 2: the slot '1.000' may be 1000 or 1.000: show it without a mark for thousands, and with fewer decimals"),
    ("a slot of no cluster", f"{PLACES}\n\nf,n1,1024,A,0,2\n", "line 3: the slot '1024' is no whole number from 1 to 1023"),
    ("a base", f"{PLACES}\nf,n1,4,A,5,4\n", "line 2: the base 5 is not below the repetition 4"),
    ("a base that is the repetition", f"{PLACES}\nf,n1,4,A,4,4\n", "line 2: the base 4 is not below the repetition 4"),
    ("slots", f"{PLACES}\nf,n1,4-5,A,0,2\n", "line 2: the slot '4-5' is no number"),
    ("less than nothing", f"{PLACES}\nf,n1,4,A,-1,2\n", "line 2: the base '-1' is no number"),
    ("digits of another script", f"{PLACES}\nf,n1,\u0664,A,0,2\n", "line 2: the slot '\u0664' is no number"),
    ("channels", f"{PLACES}\nf,n1,4,AC,0,2\n", "line 2: the channels 'AC' are none of A, B and AB"),
    ("a name", "frame;node\nRücklicht;n1\n".encode("cp1252"),
     "line 2: the frame 'Rücklicht' is no name, which is 1 to 32 letters from A to Z, digits and underscores, a letter first"),
    ("a name of two lines", 'frame,node\n"low\nbeam",n1\n',
     "line 2: the frame 'low?beam' is no name, which is 1 to 32 letters from A to Z, digits and underscores, a letter first"),
    ("an order", "frame,signal,start,length,order\nf,x,0,8,middle\n", "line 2: the order 'middle' is neither little (Intel) nor big (Motorola)"),
    ("a length", "frame,signal,start,length,order\nf,x,0,65,big\n", "line 2: the length '65' is no whole number from 1 to 64"),
    ("a quote without an end", 'frame,node\nf,n1\n"g,n1\n', "line 3: unexpected end of data"),
    ("a letter behind a quote", 'frame,node\nf,"n"1\n', "line 2: ',' expected after '\"'"),
    ("a field without an end", f"frame,node\nf,{'n' * 140000}\n", "line 2: field larger than field limit (131072)"),
    ("an old workbook", b"\xd0\xcf\x11\xe0" + bytes(600),
     "it is a workbook of an old form (.xls), or one with a password; save it as .xlsx, .ods or CSV"),
    ("half a workbook", workbook([["frame", "node"]])[:900], "it is no workbook that can be read: File is not a zip file"),
    ("no unit", "frame,node,channels,gap\nf,n1,A,10\n",
     "line 2: the gap '10' has no unit: name the column gap (ms), gap (macroticks) or gap (cycles)"),
    ("a gap and a repetition", "frame,node,channels,repetition,gap (ms)\nf,n1,A,2,10\n",
     "line 2: there is a repetition and a gap; a row has one of them"),
    ("neither", "frame,node,channels,repetition,gap (ms)\nf,n1,A,,\n", "line 2: there is no repetition"),
)


class RowsCase(ClientCase):
    """A test of the command on a file of its own."""

    def given(self, data, name="lights.csv"):
        (self.folder / name).write_bytes(data if isinstance(data, bytes) else data.encode())

    def prints(self, text, left_out=(), *words, name="lights.csv"):
        wanted = 0, text, "".join(f"left out: {line}\n" for line in left_out)
        self.see(f"rows {name} {words}", wanted, self.client("rows", name, *words, program=False))

    def is_at_fault(self, said, *words, name="lights.csv"):
        self.stops(f"{name}: {said}", "rows", name, *words, program=False)


@for_each(READ)
class Typed(RowsCase):
    """Texts as spreadsheets save them: the file is printed, and what was left out is told."""

    def tried(self, data, text, left_out):
        self.given(data)
        self.prints(text, left_out)


@for_each(AT_FAULT)
class AtFault(RowsCase):
    """One sentence names what is at fault, and nothing is printed."""

    def tried(self, data, said):
        self.given(data)
        self.is_at_fault(said)


def office(cells, more="", styles="", name="Plan", header=PLACES):
    """The bytes of a workbook of Excel whose one sheet has these rows, below a header, and these styles."""
    head = "".join(f'<c t="inlineStr"><is><t>{name}</t></is></c>' for name in header.split(","))
    rows = sheet(f"<row>{head}</row>{''.join(f'<row>{row}</row>' for row in cells)}").replace("</worksheet>", f"{more}</worksheet>")
    book = f'<workbook {SHEETS} xmlns:r="http://schemas.openxmlformats.org/officeDocument/2006/relationships">'
    sheets = f'<sheets><sheet name="{name}" sheetId="1" r:id="worksheet1"/></sheets></workbook>'
    return archive({
        "xl/workbook.xml": book + sheets, "xl/_rels/workbook.xml.rels": links(worksheet1="worksheets/sheet1.xml"), "xl/worksheets/sheet1.xml": rows,
        **({"xl/styles.xml": f"<styleSheet {SHEETS}>{styles}</styleSheet>"} if styles else {}),
    })


def text(field):
    return f'<c t="inlineStr"><is><t>{field}</t></is></c>'


def value(number, more=""):
    return f"<c{more}><v>{number}</v></c>"


FIRST_CELLS = text("low_beam"), text("lamp_unit"), value(4), text("A"), value(0), value(2)
STYLES = (
    '<numFmts><numFmt numFmtId="170" formatCode="dd/mm/yy"/><numFmt numFmtId="171" formatCode="0.00&quot; days&quot;"/></numFmts>'
    '<cellStyleXfs><xf numFmtId="14"/></cellStyleXfs>'
    '<cellXfs><xf numFmtId="0"/><xf numFmtId="2"/><xf numFmtId="14"/><xf numFmtId="170"/><xf numFmtId="171"/></cellXfs>'
)


class Workbooks(RowsCase):
    """Workbooks of Excel and of LibreOffice: numbers are what they are, however they are shown; dates and errors are at fault."""

    def with_cell(self, place, cell, **more):
        """A workbook in whose first row this cell stands."""
        cells = [*FIRST_CELLS[:place], cell, *FIRST_CELLS[place + 1 :]]
        self.given(office(["".join(cells)], **more), "lights.xlsx")

    def test_both(self):
        records = [line.split(",") for line in LIGHTS.splitlines()]
        for made, name in (workbook, "lights.xlsx"), (open_workbook, "lights.ods"):
            self.given(made(records), name)
            self.prints(LIGHTS, name=name)
            self.given(made([["Plan", "", "", "", "", ""], *records, ["", "", "", "", "", "6"]]), name)
            where = "'slots & cycles'"
            self.prints(LIGHTS, [f"row 1 of {where}: Plan", f"row 5 of {where}: 6"], name=name)

    def test_numbers(self):
        for style in 0, 1, 4:
            for number in "4", "4.0", "4E0":
                self.with_cell(2, value(number, f' s="{style}"'), styles=STYLES)
                self.prints(f"{PLACES}\nlow_beam,lamp_unit,4,A,0,2\n", name="lights.xlsx")
        self.with_cell(2, value("4.5"))
        self.is_at_fault("row 2 of 'Plan': the slot '4.5' is no whole number from 1 to 1023", name="lights.xlsx")
        # (1 and 1.000 are one number: nothing is to be guessed)
        self.with_cell(2, value("1.000"))
        self.prints(f"{PLACES}\nlow_beam,lamp_unit,1,A,0,2\n", name="lights.xlsx")

    def test_decimals(self):
        """Of a number with three decimals nothing is to be guessed either. The first script's cycle has 100 macroticks."""
        self.has("cluster.toml", CLUSTER)
        row = "".join([text("low_beam"), text("lamp_unit"), text("A"), value("200.125")])
        self.given(office([row], header="frame,node,channels,gap (macroticks)"), "lights.xlsx")
        self.prints("frame,node,channels,repetition\nlow_beam,lamp_unit,A,2\n", (), "--cluster", "cluster.toml", name="lights.xlsx")

    def test_reading_aids(self):
        """Aids for reading a text are no part of it; its pieces are."""
        aid = '<c t="inlineStr"><is><r><t>low</t></r><rPh sb="0" eb="1"><t>ro</t></rPh><r><t>_beam</t></r></is></c>'
        self.with_cell(0, aid)
        self.prints(f"{PLACES}\nlow_beam,lamp_unit,4,A,0,2\n", name="lights.xlsx")

    def test_places(self):
        """Rows of nothing count, be they written once for all."""
        rows = '<table:table-row table:number-rows-repeated="7"><table:table-cell/></table:table-row>'
        cells = "".join(f"<table:table-cell><text:p>{name}</text:p></table:table-cell>" for name in ("frame", "node"))
        row = "<table:table-row><table:table-cell><text:p>low_beam</text:p></table:table-cell></table:table-row>"
        self.given(open_with("", before=f"{rows}<table:table-row>{cells}</table:table-row>{row}"), "lights.ods")
        status, written, said = self.client("rows", "lights.ods", "--sheet", "notes", program=False)
        self.see("where it is at fault", (2, "", "slotplan-plans: lights.ods: row 9 of 'notes': there is no node\n"), (status, written, said))

    def test_dates(self):
        """2026-10-02 is the 46,297th day from 1899-12-30 on."""
        said = "is a date or a time: give the column the format Text, and write it again"
        for style in 2, 3:
            self.with_cell(0, value(46297, f' s="{style}"'), styles=STYLES)
            self.is_at_fault(f"row 2 of 'Plan': the frame '2026-10-02' {said}", name="lights.xlsx")
        date = '<table:table-cell office:value-type="date" office:date-value="2026-10-02"><text:p>02.10.26</text:p></table:table-cell>'
        self.given(open_with(date), "lights.ods")
        self.is_at_fault(f"row 2 of 'slots & cycles': the frame '02.10.26' {said}", name="lights.ods")

    def test_errors(self):
        self.with_cell(2, '<c t="e"><f>1/0</f><v>#DIV/0!</v></c>')
        self.is_at_fault("row 2 of 'Plan': the slot is the error #DIV/0!", name="lights.xlsx")
        self.with_cell(2, "<c><f>2+2</f></c>")
        self.is_at_fault("row 2 of 'Plan': the slot is a formula without a value: save the workbook with its own program", name="lights.xlsx")
        self.with_cell(2, "<c><f>2+2</f><v>4</v></c>")
        self.prints(f"{PLACES}\nlow_beam,lamp_unit,4,A,0,2\n", name="lights.xlsx")
        spaces = 'xmlns:calcext="urn:org:documentfoundation:names:experimental:calc:xmlns:calcext:1.0"'
        error = f'<table:table-cell {spaces} office:value-type="string" calcext:value-type="error"><text:p>#NAME?</text:p></table:table-cell>'
        self.given(open_with(error), "lights.ods")
        self.is_at_fault("row 2 of 'slots & cycles': the frame is the error #NAME?", name="lights.ods")

    def test_merged(self):
        said = "there is no node: its cell is merged with others, and has one value for all of them"
        rows = ["".join(FIRST_CELLS), "".join([text("high_beam"), "<c/>", *FIRST_CELLS[2:]])]
        self.given(office(rows, more='<mergeCells><mergeCell ref="B2:B3"/></mergeCells>'), "lights.xlsx")
        self.is_at_fault(f"row 3 of 'Plan': {said}", name="lights.xlsx")
        self.given(open_with("<table:table-cell><text:p>low_beam</text:p></table:table-cell><table:covered-table-cell/>"), "lights.ods")
        self.is_at_fault(f"row 2 of 'slots & cycles': {said}", name="lights.ods")

    def test_sheets(self):
        """Of two sheets that have a header one is named."""
        self.given(office(["".join(FIRST_CELLS)], name="Pläne"), "lights.xlsx")
        self.is_at_fault("there is no sheet 'Plan'", "--sheet", "Plan", name="lights.xlsx")
        self.prints(f"{PLACES}\nlow_beam,lamp_unit,4,A,0,2\n", (), "--sheet", "Pläne", name="lights.xlsx")
        self.given(office(["".join([*FIRST_CELLS[:2], text("four"), *FIRST_CELLS[3:]])], name="Pläne"), "lights.xlsx")
        self.is_at_fault("row 2 of 'Pläne': the slot 'four' is no number", name="lights.xlsx")
        cells = "".join(f"<table:table-cell><text:p>{name}</text:p></table:table-cell>" for name in ("frame", "node"))
        self.given(open_with("", before=f"<table:table-row>{cells}</table:table-row>"), "lights.ods")
        self.is_at_fault("2 sheets have a header: notes, slots & cycles; name one with --sheet", name="lights.ods")
        self.prints("frame,node\n", (), "--sheet", "notes", name="lights.ods")


def open_with(cells, before=""):
    """The bytes of an OpenDocument workbook: its sheet has a header of frames below which these cells stand, and its first sheet these rows."""
    made = open_workbook([["frame", "node", "1"], ["x", "y", "2"]])
    with zipfile.ZipFile(io.BytesIO(made)) as file:
        content = file.read("content.xml").decode()
    first, second = (it.start() for it in re.finditer("<table:table ", content))
    rows = [it for it in re.finditer("<table:table-row.*?</table:table-row>", content) if it.start() > second]
    content = content[: rows[1].start()] + (f"<table:table-row>{cells}</table:table-row>" if cells else "") + content[rows[1].end() :]
    at = content.index(">", first) + 1
    return archive({"content.xml": content[:at] + before + content[at:]})


class ByOthers(RowsCase):
    """Workbooks that others write: openpyxl and odfpy."""

    may_be_skipped = True

    def tried(self, form):
        if not writers.python(form):
            self.skipTest(f"no python3 has a writer of {form}; the variable WRITERS names one")
        dice = random.Random(form)
        for number in range(8):
            kind = dice.choice(sorted(COLUMNS))
            rows = list(rows_by_chance(dice, kind))
            records = [[int(it) if it.isdecimal() else it for it in row] for row in dressed_rows(dice, kind, rows)]
            name = f"{number}.{form}"
            writers.write(form, self.folder / name, records)
            self.prints(file_of(kind, rows), ["row 1 of 'Plan': Plan of week 47"], name=name)

    def test_xlsx(self):
        self.tried("xlsx")

    def test_ods(self):
        self.tried("ods")


def dressed_rows(dice, kind, rows):
    """A title, an empty row, the header and the rows, their columns in another order."""
    order = list(range(len(COLUMNS[kind])))
    dice.shuffle(order)
    return [["Plan of week 47"], [], *([row[it] for it in order] for row in (COLUMNS[kind], *rows))]


class ByChance(RowsCase):
    """Rows by chance, dressed by chance, come back as they were."""

    def test_texts(self):
        dice = random.Random(1)
        for number in range(150):
            self.comes_back(dice, number, saved, "lights.csv")

    def test_workbooks(self):
        dice = random.Random(2)
        for number in range(60):
            self.comes_back(dice, number, packed, "lights.xlsx")

    def comes_back(self, dice, number, save, name):
        kind = dice.choice(sorted(COLUMNS))
        rows = list(rows_by_chance(dice, kind))
        self.given(save(dice, dressed(dice, kind, rows)), name)
        status, written, said = self.client("rows", name, program=False)
        self.see(f"{number}: {kind}", (0, file_of(kind, rows)), (status, written))
        self.see(f"{number}: what is said", [], [line for line in said.splitlines() if not line.startswith("left out: ")])


class Taken(RowsCase):
    """What is printed has no fault to the register, which imports it."""

    def test_no_fault(self):
        dice = random.Random(3)
        for kind in "frames", "placements", "signals":
            rows = list(rows_by_chance(dice, kind, 40))
            self.given(saved(dice, dressed(dice, kind, rows)))
            (self.folder / "rows.csv").write_text(self.client("rows", "lights.csv", program=False)[1])
            wanted = b"rows: 40, no fault\nthe register alone knows its slots, channels and cycles, and which are granted and free\n"
            self.see(kind, (0, wanted, b""), ran(["check", "--rows", "rows.csv"], self.folder))

    def test_import(self):
        self.made_of(FIRST.decode())
        self.given("Frame;Node;Slot;Channels;Base;Repetition\nf9;n1;1,00;A;1,00;2,00\n")
        (self.folder / "rows.csv").write_text(self.client("rows", "lights.csv", program=False)[1])
        got = ran(["import", "car.db", "-", "v1", "week47", "rows.csv"], self.folder, b"supplier01\n")
        self.see("it is imported", (0, b'{"ok":"imported","rows":1}\n', b""), got)

    def test_many(self):
        """More than 512 rows go into several files, in which the rows of a frame stand together."""
        rows = [[f"f{number % 200}", "n1", str(number // 200 + 1), "A", "0", "1"] for number in range(600)]
        self.given(file_of("placements", rows))
        self.is_at_fault("there are 600 rows, and the register takes 512 of a file; --parts FOLDER writes several")
        self.writes_nothing_but("parts", "--parts", "parts")
        files = sorted((self.folder / "parts").iterdir())
        self.see("the files", ["part00_placements.csv", "part01_placements.csv"], [it.name for it in files])
        parts = [it.read_text().splitlines() for it in files]
        self.see("how many rows", [510, 90], [len(part) - 1 for part in parts])
        self.see("their headers", {PLACES}, {part[0] for part in parts})
        self.see("all rows", sorted(map(",".join, rows)), sorted(chain.from_iterable(part[1:] for part in parts)))
        frames = [{line.partition(",")[0] for line in part[1:]} for part in parts]
        self.see("frames that stand in both", set(), frames[0] & frames[1])
        self.stops("parts is there already; name another folder, or move it away", "rows", "lights.csv", "--parts", "parts", program=False)

    def writes_nothing_but(self, folder, *words):
        self.see(f"rows {words}", (0, "", ""), self.client("rows", "lights.csv", *words, program=False))
        self.see("the folder", True, (self.folder / folder).is_dir())


WISHES = "frame,node,channels,repetition\nf,n1,A,4\ng,n1,AB,1\nh,n1,B,64\nk,n1,A,2\n"


class Wishes(RowsCase):
    """A gap is the greatest repetition that keeps it, by the figures of a cluster or of a register. The first script's cycle has 100 macroticks; of
    which each lasts 20 microseconds here."""

    def setUp(self):
        super().setUp()
        self.has("cluster.toml", CLUSTER)

    def test_units(self):
        for head, gaps in (
            ("gap (ms)", ("10", "2,5", "1000", "7,99")), ("Cycle Time [ms]", ("8", "3.9", "128", "4")),
            ("gap in us", ("8000", "2000", "128000", "4000")), ("gap (macroticks)", ("799", "100", "99999", "200")),
            ("gap [MT]", ("400", "199", "6400", "399")), ("gap / cycles", ("4", "1", "70", "3")),
            ("gap", ("8 ms", "3999 us", "64 cycles", "200MT")),
        ):
            rows = "".join(f"{frame};n1;{channels};{gap}\n" for frame, channels, gap in zip("fghk", ("A", "AB", "B", "A"), gaps))
            self.given(f"frame;node;channels;{head}\n{rows}")
            self.prints(WISHES, (), "--cluster", "cluster.toml", "--macrotick", "20")

    def test_register(self):
        self.made_of(FIRST.decode())
        self.has("s1.key", "supplier01\n")
        self.given("frame;node;channels;repetition;gap (macroticks)\nf;n1;A;4;\ng;n1;AB;;100\nh;n1;B;;6400\nk;n1;A;2;\n")
        asked = "--source", "car.db", "--program", self.program
        self.prints(WISHES, (), *asked)
        with self.served() as (_, port):
            url = f"http://127.0.0.1:{port}"
            self.prints(WISHES, (), "--source", url, "--key", "s1.key")
            self.says("a server is asked with --key: it tells what the key's owner sees", "--source", url)
        self.says("a file is read without --key; the address of a server begins with http:// or https://", *asked, "--key", "s1.key")
        self.says("--cluster and --source are one too many: a register knows its cluster", *asked, "--cluster", "cluster.toml")

    def says(self, said, *words):
        self.stops(said, "rows", "lights.csv", *words, program=False)

    def test_at_fault(self):
        self.given("frame,node,channels,gap (ms)\nf,n1,A,1.9\n")
        self.is_at_fault("gaps are made repetitions by the cluster's figures: --cluster or --source names where they are")
        self.is_at_fault("line 2: the gap is told in ms: --macrotick says how many microseconds a macrotick lasts", "--cluster", "cluster.toml")
        why = "it needs several slots in each cycle, which `slotplan-plans needs` chooses"
        said = f"line 2: the gap 1.9 ms is shorter than a cycle of 100 macroticks: {why}"
        self.is_at_fault(said, "--cluster", "cluster.toml", "--macrotick", "20")
        for number in "0", "fast", "1001":
            said = f"--macrotick: '{number}' is no number of microseconds from 0.001 to 1000"
            self.says(said, "--cluster", "cluster.toml", "--macrotick", number)
        for wrong in "slots = 3", "channels = ", CLUSTER.replace("static_slots = 4", "static_slots = 5"), CLUSTER.replace('"AB"', '"AC"'):
            self.has("wrong.toml", wrong)
            self.says("wrong.toml: it is no cluster file; `slotplan check wrong.toml` says what is wrong", "--cluster", "wrong.toml")

    def test_suppliers(self):
        """A table of several suppliers is read by one of them."""
        self.given("supplier,frame,node\ns1,f,n1\ns2,g,n1\n")
        self.is_at_fault("rows are of 2 suppliers: s1 s2; --supplier names one")
        self.is_at_fault("no row is of the supplier s3", "--supplier", "s3")
        self.prints("frame,node\ng,n1\n", (), "--supplier", "s2")
        self.given("supplier,frame,node\ns1,f,n1\n")
        self.prints("frame,node\nf,n1\n")


OF_EACH = 400


class Damaged(RowsCase):
    """Tables with faults in 1 to 20 places: each is read, and then the register finds no fault in it, or refused in one line."""

    step = 10
    seconds = 20

    def of_these(self, name, hurt):
        numbers, refused = range(self.turn % self.each, OF_EACH, self.each), 0
        for number in numbers:
            self.given(hurt(random.Random(number)), name)
            status, written, said = self.client("rows", name, program=False)
            if status:
                refused += 1
                line = said.removesuffix("\n")
                wanted = 2, "", True, True
                self.see(f"{number}: {line!r}", wanted, (status, written, line.isprintable(), line.startswith(f"slotplan-plans: {name}: ")))
            elif not written.startswith(",".join(COLUMNS["wishes"])):
                (self.folder / "rows.csv").write_text(written)
                self.see(f"{number}: its faults", b"", ran(["check", "--rows", "rows.csv"], self.folder)[2])
        self.see("some are read, and some are not", True, 0 < refused < len(numbers))

    def test_text(self):
        self.of_these("lights.csv", lambda dice: damaged(LIGHTS.replace(",", ";").encode("utf-8-sig"), dice))

    def test_packed(self):
        """The bytes of the archive."""
        self.of_these("lights.xlsx", lambda dice: damaged(workbook([line.split(",") for line in LIGHTS.splitlines()]), dice))

    def test_excel(self):
        self.of_these("lights.xlsx", lambda dice: with_damaged_part(workbook([line.split(",") for line in LIGHTS.splitlines()]), dice))

    def test_calc(self):
        self.of_these("lights.ods", lambda dice: with_damaged_part(open_workbook([line.split(",") for line in LIGHTS.splitlines()]), dice))


def damaged(data, dice):
    """The bytes with faults: another byte, some that are gone, a piece that stands elsewhere too, or an early end."""
    for _ in range(dice.choice((1, 1, 3, 20))):
        at, how = dice.randrange(len(data) + 1), dice.randrange(20)
        if how < 10:
            data = data[:at] + bytes([dice.choice((0, 34, 44, 48, 57, 59, 60, 65, 255, dice.randrange(256)))]) + data[at + 1 :]
        elif how < 15:
            data = data[:at] + data[at + dice.randrange(1, 9) :]
        elif how < 19:
            other = dice.randrange(len(data) + 1)
            data = data[:at] + data[other : other + dice.randrange(40)] + data[at:]
        else:
            data = data[:at]
    return data


def with_damaged_part(data, dice):
    """A workbook one of whose parts is damaged: texts between its tags, or its bytes."""
    with zipfile.ZipFile(io.BytesIO(data)) as file:
        parts = {name: file.read(name) for name in file.namelist()}
    name = dice.choice(sorted(parts))
    if dice.random() < 0.5:
        parts[name] = damaged(parts[name], dice)
    else:
        texts = list(re.finditer(rb'(?<=[>"])[^<>"]+(?=[<"])', parts[name])) or [re.match(b"", parts[name])]
        hurt = dice.choice(texts)
        new = dice.choice((b"", b"0", b"-1", b"7", b"1e400", b"nan", b"x", b"99999999999", b"A0", b"ZZZ1", dice.choice(texts)[0]))
        parts[name] = parts[name][: hurt.start()] + new + parts[name][hurt.end() :]
    return archive(parts)
