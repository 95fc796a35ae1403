"""Files of imports, by `run`: what is one, what a row of one is, and which refusal the first wrong row has.

What is wanted was typed by hand from docs/FORMATS.md, or is made by its rules."""
import json

from tests.drivers.invocations import InvocationCase, answered
from tests.models.scripts import CLUSTER, done, imported, refused, request

KEY = "supplier01"
FRAMES = "frame,node\n"
PLACEMENTS = "frame,node,slot,channels,base,repetition\n"
SIGNALS = "frame,signal,start,length,order\n"
ROWS = 512

BAD_TEXT, BAD_NAME, BAD_CYCLES, BAD_SLOT = refused(1, "BadText"), refused(4, "BadName"), refused(5, "BadCycles"), refused(6, "BadSlot")
BAD_CHANNEL, BAD_SIGNAL = refused(7, "BadChannel"), refused(8, "BadSignal")
NO_NODE, EXISTS, NOT_GRANTED, LIMIT = refused(15, "NoNode"), refused(19, "Exists"), refused(21, "NotGranted"), refused(23, "Limit")
CELL_TAKEN = '{"channel":"A","cycle":2,"frame":"f1","no":25,"refused":"CellTaken"}'


def bad_row(line, refusal):
    return f'{{"line":{line},"no":29,"refused":"BadRow","row":{refusal}}}'


def told(query, lines, **fields):
    return request(KEY, query, **fields), json.dumps({"lines": lines, "ok": query}, separators=(",", ":"))


def opened(slots):
    """The variant v1, in which n1, a node of s1, may send in these slots."""
    yield done("integrator1", "open_variant", variant="v1")
    yield done("integrator1", "add_node", supplier="s1", node="n1")
    for slot in slots:
        for channel in "AB":
            yield done("integrator1", "grant", variant="v1", slot=slot, channel=channel, supplier="s1", node="n1")


# A file, and what it is answered. Those that are carried out leave f1 in slot 1 on A in every second cycle, f2 in slot 2 on B
# in all, f3, f6 and f7 without a placement, and f1 with the signals x and z.
FILES = [
    (PLACEMENTS + "f1,n1,1,A,0,2\n", imported(1)),
    ("\ufeff" + SIGNALS.replace("\n", "\r\n") + '"f1","x",0,8,little\r\n', imported(1)),
    (SIGNALS, imported(0)),
    (PLACEMENTS.replace("\n", "\r") + "\r\n\nf2,n1,0000000002,B,00,1", imported(1)),
    ('"frame","signal",start,"length","order"\nf1,"z",15,8,"big"\n', imported(1)),
    (FRAMES + "f6,n1\n", imported(1)),
    ('"frame",node\r\n"f7",n1', imported(1)),
    (FRAMES, imported(0)),
    # What is no file of rows.
    ("", bad_row(1, BAD_TEXT)),
    ("\n\n", bad_row(1, BAD_TEXT)),
    ("\ufeff\ufeff" + SIGNALS, bad_row(1, BAD_TEXT)),
    (SIGNALS.replace("order", "Order"), bad_row(1, BAD_TEXT)),
    (SIGNALS.replace(",order", ""), bad_row(1, BAD_TEXT)),
    (SIGNALS.replace("frame,signal", "signal,frame"), bad_row(1, BAD_TEXT)),
    (" " + SIGNALS, bad_row(1, BAD_TEXT)),
    ("f1,n1,1,A,1,2\n" + PLACEMENTS, bad_row(1, BAD_TEXT)),
    ("frame, node\nf8,n1\n", bad_row(1, BAD_TEXT)),
    ("node,frame\nn1,f8\n", bad_row(1, BAD_TEXT)),
    ("frame\nf8\n", bad_row(1, BAD_TEXT)),
    # The first row that is refused is told, by its place among the records.
    (SIGNALS + "f1,y,0,8\nf1,y,0,8,little\n", bad_row(2, BAD_TEXT)),
    (SIGNALS + "f1,y,8,8,little,\n", bad_row(2, BAD_TEXT)),
    (PLACEMENTS + "f1,n1,1,A,1,2\n\nf3,n1,2,A,0,1\n\n\nf4,n1,4,A,0,1\n", bad_row(4, NOT_GRANTED)),
    (PLACEMENTS + "f4,n1,3,B,0,1\nf5,n1,1,A,2,4\n", bad_row(3, CELL_TAKEN)),
    (PLACEMENTS + "f4,n1,3,B,0,1\nf5,n1,3,B,0\n", bad_row(3, BAD_TEXT)),
    (FRAMES + "f8,n1\nf6,n1\n", bad_row(3, EXISTS)),
    (FRAMES + "f8,n1\nf8,n1\n", bad_row(3, EXISTS)),
    (FRAMES + "f6,n9\n", bad_row(2, NO_NODE)),
    (FRAMES + "f8,n1\nf9\n", bad_row(3, BAD_TEXT)),
    (FRAMES + "8f,n1,\n", bad_row(2, BAD_TEXT)),
    (FRAMES + "8f,n9\n", bad_row(2, BAD_NAME)),
    (FRAMES + "f8, n1\n", bad_row(2, BAD_NAME)),
    # A row's own refusals, in their order; the file is the body's UTF-8 bytes.
    (SIGNALS + "f\u00e9,y,8,8,little\n", bad_row(2, BAD_NAME)),
    (SIGNALS + "f1,1y,8,65,large\n", bad_row(2, BAD_NAME)),
    (SIGNALS + "f1, y,8,8,little\n", bad_row(2, BAD_NAME)),
    (SIGNALS + 'f1,"y,8",8,8,little\n', bad_row(2, BAD_NAME)),
    (SIGNALS + "f1,y,8,65,little\n", bad_row(2, BAD_SIGNAL)),
    (SIGNALS + "f1,y,8,8,Little\n", bad_row(2, BAD_SIGNAL)),
    (PLACEMENTS + "f1,1n,0,C,1,1\n", bad_row(2, BAD_NAME)),
    (PLACEMENTS + "f1,n1,0,C,1,1\n", bad_row(2, BAD_CYCLES)),
    (PLACEMENTS + "f1,n1,5,C,1,2\n", bad_row(2, BAD_SLOT)),
    (PLACEMENTS + "f1,n1,4294967295,A,1,2\n", bad_row(2, BAD_SLOT)),
    (PLACEMENTS + "f1,n1,2,C,1,2\n", bad_row(2, BAD_CHANNEL)),
    (PLACEMENTS + "f1,n1,2,\u00e9,1,2\n", bad_row(2, BAD_CHANNEL)),
    # Fields that are no numbers, in a row whose names are none either.
    *((PLACEMENTS + f"1f,n1,{slot},A,1,2\n", bad_row(2, BAD_TEXT)) for slot in ("", "+1", "-1", " 1", "1 ", "1.0", "\u0661", "0x1")),
    *((PLACEMENTS + f"1f,n1,1,A,{base},2\n", bad_row(2, BAD_TEXT)) for base in ("4294967296", "9999999999", "00000000001")),
    *((PLACEMENTS + f"1f,n1,1,A,1,{repetition}\n", bad_row(2, BAD_TEXT)) for repetition in ("", "two")),
    *((SIGNALS + f"1f,y,{start},8,little\n", bad_row(2, BAD_TEXT)) for start in ("", "a", "4294967296")),
    (SIGNALS + "1f,y,8,b,little\n", bad_row(2, BAD_TEXT)),
]


def files():
    """Files of each form, and what makes a row none. What is refused changes nothing."""
    yield from opened((1, 2, 3))
    yield done(KEY, "add_frame", variant="v1", frame="f3", node="n1")
    for number, (body, answer) in enumerate(FILES, 1):
        yield request(KEY, "import", variant="v1", label=f"a{number}", body=body), answer
    frames = ["FRAME f1 n1", "AT 0001 A 00 02", "FRAME f2 n1", "AT 0002 B 00 01", "FRAME f3 n1", "FRAME f6 n1", "FRAME f7 n1"]
    yield told("frames", frames, variant="v1")
    yield told("layout", ["0000 08 little x", "0015 08 big z"], variant="v1", frame="f1")


def full_file():
    """As many rows as a file may have, each in a cell of its own: 64 frames, each in one cycle; and the file with a row more."""
    cells = [(cycle, slot, channel) for cycle in range(64) for slot in range(1, 5) for channel in "AB"]
    body = PLACEMENTS + "".join(f"f{cycle},n1,{slot},{channel},{cycle},64\n" for cycle, slot, channel in cells)
    assert len(cells) == ROWS
    yield from opened((1, 2, 3, 4))
    yield request(KEY, "import", variant="v1", label="more", body=body + "f1\n"), bad_row(ROWS + 2, LIMIT)
    yield told("frames", [], variant="v1")
    yield request(KEY, "import", variant="v1", label="full", body=body), imported(ROWS)
    yield told("schedule", [f"{cycle:02} {slot:04} {channel} f{cycle} n1" for cycle, slot, channel in cells], variant="v1")


def more_frames():
    """A supplier has at most 256 frames in a variant: one row more is refused, and none of the file's is carried out."""
    yield from opened((1,))
    rows = "".join(f"f{at},n1\n" for at in range(257))
    yield request(KEY, "import", variant="v1", label="more", body=FRAMES + rows), bad_row(258, LIMIT)
    yield told("frames", [], variant="v1")
    yield request(KEY, "import", variant="v1", label="all", body=FRAMES + rows.removesuffix("f256,n1\n")), imported(256)
    yield request(KEY, "import", variant="v1", label="one", body=FRAMES + "f256,n1\n"), bad_row(2, LIMIT)


class ImportFiles(InvocationCase):
    """A file of an import is carried out whole, or its first wrong row is told; by its line and its own refusal, and then nothing changes."""

    def test_forms(self):
        self.ends(answered("files of imports", CLUSTER, files()))

    def test_frames(self):
        self.ends(answered("a file of 257 frames", CLUSTER, more_frames()))

    def test_full(self):
        self.ends(answered("a file of 512 rows", CLUSTER, full_file()))
