"""Workbooks as spreadsheets write them, by ECMA-376 (Office Open XML) and OASIS OpenDocument 1.2: parts of XML in a packed archive."""
import io
import zipfile
from itertools import groupby

KINDS = "http://schemas.openxmlformats.org"
SHEETS = f'xmlns="{KINDS}/spreadsheetml/2006/main"'
LINKS = f"{KINDS}/officeDocument/2006/relationships"
SHEET_FILES = {"worksheet1": "worksheets/sheet1.xml", "worksheet2": "worksheets/sheet2.xml"}
TYPES = f'<Types xmlns="{KINDS}/package/2006/content-types"><Default Extension="xml" ContentType="application/xml"/></Types>'


def cell(texts, column, line, field):
    """A cell: a number as it is, a text by its number among the texts."""
    place = f'<c r="{"ABCDEFGH"[column]}{line}"'
    return f"{place}><v>{field}</v></c>" if field.isdecimal() else f'{place} t="s"><v>{texts.index(field)}</v></c>'


def sheet(rows):
    head = '<?xml version="1.0" encoding="UTF-8" standalone="yes"?>\r\n'
    return f"{head}<worksheet {SHEETS}><sheetData>{rows}</sheetData></worksheet>"


def links(**targets):
    """The links of a part to others, by their kinds."""
    each = (f'<Relationship Id="{name}" Type="{LINKS}/{name.rstrip("0123456789")}" Target="{to}"/>' for name, to in targets.items())
    return f'<Relationships xmlns="{KINDS}/package/2006/relationships">{"".join(each)}</Relationships>'


def workbook(records):
    """The bytes of a workbook of two sheets: `notes`, which has a text in place, and `slots & cycles`, which has these records."""
    texts = sorted({field for record in records for field in record if not field.isdecimal()})
    row = lambda line, record: "".join(cell(texts, column, line, field) for column, field in enumerate(record))
    rows = (f'<row r="{line}">{row(line, record)}</row>' for line, record in enumerate(records, 1))
    names = '<sheet name="notes" sheetId="1" r:id="worksheet1"/><sheet name="slots &amp; cycles" sheetId="2" r:id="worksheet2"/>'
    parts = {
        "[Content_Types].xml": TYPES,
        "_rels/.rels": links(officeDocument="xl/workbook.xml"),
        "xl/workbook.xml": f'<workbook {SHEETS} xmlns:r="{LINKS}"><sheets>{names}</sheets></workbook>',
        "xl/_rels/workbook.xml.rels": links(**SHEET_FILES, sharedStrings="sharedStrings.xml"),
        "xl/worksheets/sheet1.xml": sheet('<row r="1"><c r="A1" t="inlineStr"><is><t>Ask Ms &lt;b&gt; before week 48</t></is></c></row>'),
        "xl/worksheets/sheet2.xml": sheet("".join(rows)),
        "xl/sharedStrings.xml": f'<sst {SHEETS}>{"".join(f"<si><t>{text}</t></si>" for text in texts)}</sst>',
    }
    return packed(parts)


def packed(parts):
    made = io.BytesIO()
    with zipfile.ZipFile(made, "w", zipfile.ZIP_DEFLATED) as archive:
        for name, text in parts.items():
            archive.writestr(name, text)
    return made.getvalue()


# ---- OpenDocument

OASIS = "urn:oasis:names:tc:opendocument:xmlns"
SPACES = " ".join(f'xmlns:{name}="{OASIS}:{name}:1.0"' for name in ("office", "table", "text"))
CALC = "application/vnd.oasis.opendocument.spreadsheet"
REMARK = "<office:annotation><text:p>ask again</text:p></office:annotation>"
BLANKS = '<table:table-cell table:number-columns-repeated="16378"/>'
EMPTY_ROWS = f'<table:table-row table:number-rows-repeated="1048000">{BLANKS}</table:table-row>'


def times(what, count):
    return f' table:number-{what}-repeated="{count}"' if count > 1 else ""


def open_cell(field, count):
    """So many cells in turn. A number is shown as its reader wants it, and is no text."""
    many = times("columns", count)
    if field.isdecimal():
        return f'<table:table-cell{many} office:value-type="float" office:value="{field}"><text:p>{field},00</text:p></table:table-cell>'
    return f'<table:table-cell{many} office:value-type="string">{REMARK}<text:p><text:span>{field}</text:span></text:p></table:table-cell>'


def open_row(record, count):
    cells = "".join(open_cell(field, len(list(alike))) for field, alike in groupby(record))
    return f"<table:table-row{times('rows', count)}>{cells}{BLANKS}</table:table-row>"


def open_workbook(records):
    """As `workbook`, of OpenDocument: what stands several times in turn is written once."""
    rows = "".join(open_row(record, len(list(alike))) for record, alike in groupby(records))
    sheets = f'<table:table table:name="notes">{EMPTY_ROWS}</table:table><table:table table:name="slots &amp; cycles">{rows}{EMPTY_ROWS}</table:table>'
    body = f"<office:body><office:spreadsheet>{sheets}</office:spreadsheet></office:body>"
    return packed({"mimetype": CALC, "content.xml": f"<office:document-content {SPACES}>{body}</office:document-content>"})
