"""What `check` says of the texts of requests and rows, and of paths.

Each mistake is one at which a register answers `BadText`, `BadName` or `BadKey`, which name neither line nor field; or for which each cluster refuses a row. What is wanted was typed by hand from
docs/FORMATS.md; none of it is the program's own output. The register itself is asked too: it refuses so just the lines and rows that are told of."""
import json
import re

import yaml

from tests import TOP
from tests.drivers.program import ran
from tests.drivers.registers import RegisterCase
from tests.drivers.server import sent
from tests.models.messages import head

REQUESTS = (
    "open_variant, release, add_supplier, set_key, add_node, grant, revoke, add_frame, drop_frame, place, unplace, add_signal, drop_signal, import, replace, try, propose, "
    "cluster, variants, nodes, diff, grants, frames, schedule, gaps, load, rows, layout, room, export_frames, export_placements, export_signals"
)
NAME = "a name is 1 to 32 ASCII letters, digits and underscores, a letter first"
NUMBER = "it may be a whole number from 0 to 4294967295, without quotes"
TEXT = "it may be a text, in double quotes"
FLAG = "it may be true or false, without quotes"
NO_KEY = "the key is none, which is 8 to 64 ASCII letters and digits"
NO_SPACE = "there is no space: a line is a key, a space and a request"
OPEN = 'integrator1 {"do":"open_variant","variant":"v1"}'
# Lines of requests, each with what is told of it.
LINES = [
    (OPEN, []),
    ("", []),
    ('supplier01 {"do":"add-frame","variant":"v1","frame":"f1","node":"n1"}', [f'field "do" is "add-frame", it may be: {REQUESTS}']),
    (
        'supplier01 {"do":"place","variant":"v1","frames":"f1","slot":1,"channels":"A","base":0,"repetition":64}',
        ['field "frames" is none of place: variant, frame, slot, channels, base, repetition', 'field "frame" of place is missing'],
    ),
    ('supplier01 {"do":"place","variant":"v1","frame":"f1","slot":"1","channels":"A","base":0,"repetition":64}', [f'field "slot" is the text "1", {NUMBER}']),
    (
        'supplier01 {"do":"place","variant":"v1","frame":"f1","slot":1,"channel":"A","base":0,"repetition":64}',
        ['field "channel" is none of place: variant, frame, slot, channels, base, repetition', 'field "channels" of place is missing'],
    ),
    ("supplier01 {'do':'schedule','variant':'v1'}", ["column 13: the text is no JSON: texts stand in double quotes"]),
    ('supplier01 {"do":"schedule";"variant":"v1"}', ["column 28: the text is no JSON: ; may not stand here"]),
    ('supplier01 {"do":"schedule","variant":"v1",}', ["column 44: the text is no JSON: } may not stand here"]),
    ('supplier01 {"do":"schedule","variant":"v1"', ["the text is no JSON: it ends too early"]),
    ("supplier01 ", ["the text is no JSON: it ends too early"]),
    ('supplier01 {"do":"Schedule","variant":"v1"}', [f'field "do" is "Schedule", it may be: {REQUESTS}']),
    ('supplier01 {"Do":"schedule","variant":"v1"}', [f'field "do" is missing, it may be: {REQUESTS}']),
    ('supplier01 {"do":7,"variant":"v1"}', [f'field "do" is a number, it may be: {REQUESTS}']),
    ('supplier01 ["schedule"]', ["the text is a list, a request is an object, in braces"]),
    ("supplier01", [NO_SPACE]),
    (" ", [NO_KEY, "the text is no JSON: it ends too early"]),
    ('supplier-01 {"do":"schedule","variant":"v1"}', [NO_KEY]),
    ('supplier01 {"do":"nodes","supplier":"s1"}', ['field "supplier" is none of nodes, which has no fields']),
    ('supplier01 {"do":"add_frame","variant":"v-1","frame":"1f","node":"n1"}', [f'field "variant" is "v-1", {NAME}', f'field "frame" is "1f", {NAME}']),
    ('supplier01 {"do":"layout","variant":"v1","frame":"f 1"}', [f'field "frame" is "f 1", {NAME}']),
    ('integrator1 {"do":"open_variant","variant":"v2","from":""}', [f'field "from" is "", {NAME}']),
    ('integrator1 {"do":"open_variant","variant":"v2","from":7}', [f'field "from" is 7, {TEXT}, or null']),
    ('integrator1 {"do":"open_variant","variant":"v2","from":null}', []),
    ('integrator1 {"do":"add_supplier","supplier":"s2","key":"short"}', ['field "key" is no key, which is 8 to 64 ASCII letters and digits']),
    ('integrator1 {"do":"add_supplier","supplier":"s2","key":12345678}', [f'field "key" is a number, {TEXT}']),
    (
        'supplier01 {"do":"place","variant":"v1","frame":"f1","slot":1.0,"channels":"A","base":-1,"repetition":4294967296}',
        [f'field "slot" is 1.0, {NUMBER}', f'field "base" is -1, {NUMBER}', f'field "repetition" is 4294967296, {NUMBER}'],
    ),
    ('supplier01 {"do":"export_frames","variant":"v1","part":"0"}', [f'field "part" is the text "0", {NUMBER}']),
    ('supplier01 {"do":"load","variant":"v1","part":0}', ['field "part" is none of load: variant']),
    ('supplier01 {"do":"room","variant":"v1","frame":"f 1"}', ['field "repetition" of room is missing']),
    ('supplier01 {"do":"room","variant":"v1","frame":"f 1","repetition":4}', [f'field "frame" is "f 1", {NAME}']),
    ('supplier01 {"do":"replace","variant":"v1","label":"a","body":""}', ['field "label" is none of replace: variant, body, whole']),
    ('supplier01 {"do":"replace","variant":"1v","body":""}', [f'field "variant" is "1v", {NAME}']),
    ('integrator1 {"do":"set_key","supplier":"s1","key":"short"}', ['field "key" is no key, which is 8 to 64 ASCII letters and digits']),
    ('supplier01 {"do":"diff","variant":"v2","to":"v1"}', ['field "to" is none of diff: variant, from', 'field "from" of diff is missing']),
    ('supplier01 {"do":"diff","variant":"v-2","from":""}', [f'field "variant" is "v-2", {NAME}', f'field "from" is "", {NAME}']),
    ('supplier01 {"do":"diff","variant":"v2","from":null}', [f'field "from" is null, {TEXT}']),
    ('supplier01 {"do":"diff","variant":"v2","from":7}', [f'field "from" is 7, {TEXT}']),
    ('supplier01 {"do":"try","variant":"v1"}', ['field "body" of try is missing']),
    ('supplier01 {"do":"try","variant":"1v","body":"","replace":true}', [f'field "variant" is "1v", {NAME}']),
    ('supplier01 {"do":"try","variant":"v1","body":"","replace":"true"}', [f'field "replace" is the text "true", {FLAG}']),
    ('supplier01 {"do":"try","variant":"v1","body":"","replace":1}', [f'field "replace" is 1, {FLAG}']),
    ('supplier01 {"do":"try","variant":"v1","body":"","replace":null}', [f'field "replace" is null, {FLAG}']),
    ('supplier01 {"do":"try","variant":true,"body":"","label":"a"}', ['field "label" is none of try: variant, body, replace, whole', f'field "variant" is true or false, {TEXT}']),
    ('supplier01 {"do":"replace","variant":"v1","body":"","replace":true}', ['field "replace" is none of replace: variant, body, whole']),
    ('supplier01 {"do":"replace","variant":"v1","body":"","Whole":true}', ['field "Whole" is none of replace: variant, body, whole']),
    ('supplier01 {"do":"replace","variant":"v1","body":"","whole":"true"}', [f'field "whole" is the text "true", {FLAG}']),
    ('supplier01 {"do":"try","variant":"v1","body":"","replace":true,"whole":null}', [f'field "whole" is null, {FLAG}']),
    ('supplier01 {"do":"try","variant":"v1","body":"","whole":true}', ['field "whole" of try needs field "replace", which is missing']),
    ('supplier01 {"do":"try","variant":"1v","body":"","replace":false,"whole":true}', ['field "whole" of try needs field "replace", which is false']),
    ('supplier01 {"do":"import","variant":"v1","label":"a","body":"","whole":false}', ['field "whole" is none of import: variant, label, body']),
    ('integrator1 {"do":"open_variant","variant":"v2","from":"v1","flat":1}', [f'field "flat" is 1, {FLAG}']),
    ('integrator1 {"do":"open_variant","variant":"v2","flat":true}', ['field "flat" of open_variant needs field "from", which is missing']),
    ('integrator1 {"do":"open_variant","variant":"2v","from":null,"flat":true}', ['field "flat" of open_variant needs field "from", which is null']),
    ('supplier01 {"do":"rows"}', ['field "variant" of rows is missing']),
    ('supplier01 {"do":"rows","variant":"1v"}', [f'field "variant" is "1v", {NAME}']),
    ('supplier01 {"do":"rows","variant":"v1","part":0}', ['field "part" is none of rows: variant']),
    # These have their form, though the register refuses them.
    ('supplier01 {"do":"try","variant":"v9","body":"f1"}', []),
    ('supplier01 {"do":"try","variant":"v9","body":"","replace":false}', []),
    ('supplier01 {"do":"try","variant":"v9","body":"","whole":false}', []),
    ('supplier01 {"do":"try","variant":"v9","body":"","replace":true,"whole":true}', []),
    ('supplier01 {"do":"replace","variant":"v9","body":"","whole":true}', []),
    ('integrator1 {"do":"open_variant","variant":"v2","from":"v9","flat":true}', []),
    ('integrator1 {"do":"open_variant","variant":"v2","flat":false}', []),
    ('supplier01 {"do":"rows","variant":"v9"}', []),
    ('supplier01 {"do":"diff","variant":"v8","from":"v9"}', []),
    ('supplier01 {"do":"replace","variant":"v1","body":"f1"}', []),
    ('supplier01 {"do":"room","variant":"v9","frame":"f9","repetition":3}', []),
    ('integrator1 {"do":"set_key","supplier":"s9","key":"supplier01"}', []),
    ('supplier01 {"do":"place","variant":"v1","frame":"f1","slot":9,"channels":"C","base":9,"repetition":3}', []),
    ('supplier01 {"do":"drop_frame","variant":"v9","frame":"f9"}', []),
]
# As which a register refuses what is told of, whose key may be nobody's.
MISFORMED = {"BadText", "BadName", "BadKey", "UnknownKey"}
LINE_BYTES, REQUEST_BYTES = 1_048_576, 16_777_216

PLACEMENTS = "frame,node,slot,channels,base,repetition"
SIGNALS = "frame,signal,start,length,order"
HEADERS = f'it may be "frame,node", "{PLACEMENTS}" or "{SIGNALS}"'
JUST_SO = ", just so: with commas, in this order, in small letters, without spaces, and with no field behind"
IS_NAME = "it may be 1 to 32 ASCII letters, digits and underscores, a letter first"
IS_NUMBER = "it may be 1 to 10 digits, at most 4294967295"
IS_SLOT = "it may be 1 to 1023"
IS_CHANNELS = "it may be A, B or AB"
IS_BASE = "it may be less than the repetition"
IS_REPETITION = "it may be what divides the cluster's cycles, an even number from 8 to 64"
IS_LENGTH = "it may be 1 to 64"
IS_ORDER = "it may be little or big"
# What is said behind rows that have no fault.
UNTOLD = "the register alone knows its slots, channels and cycles, and which are granted and free\n"
# First lines that are no header.
NO_HEADERS = [
    (f"F{PLACEMENTS[1:]}", JUST_SO),
    ("node,frame,slot,channels,base,repetition", JUST_SO),
    (f"{PLACEMENTS},,,", JUST_SO),
    (PLACEMENTS.replace(",", ", "), JUST_SO),
    (PLACEMENTS.replace(",", ";"), JUST_SO),
    ("node,frame", JUST_SO),
    ("Frame, Node", JUST_SO),
    ("frame,node,", JUST_SO),
    ("frame", ""),
    ("f1,n1,1,A,0,64", ""),
    (PLACEMENTS.replace("channels", "channel"), ""),
]
ROW = "f1,n1,1,A,0,64"
# Rows of placements, each with what is told of it.
ROWS = [
    (ROW, []),
    ("f1;n1;1;A;0;64", ["the number of fields is 1, the header has 6: fields are separated by commas"]),
    ("f1\tn1\t1\tA\t0\t64", ["the number of fields is 1, the header has 6: fields are separated by commas"]),
    ("f1,n1,1,A,0,64,,,", ["the number of fields is 9, the header has 6: those behind are empty"]),
    (",,,,,", ["all fields are empty"]),
    (",n1,1,A,0,64", [f'field "frame" is "", {IS_NAME}']),
    ("f1,n1,1,A,0", ["the number of fields is 5, the header has 6"]),
    ("f-1,n1,+1,A,0,64", [f'field "frame" is "f-1", {IS_NAME}', f'field "slot" is "+1", {IS_NUMBER}']),
    (
        "f1, n1,1,A,00000000001,4294967296",
        [f'field "node" is " n1", {IS_NAME}', f'field "base" is "00000000001", {IS_NUMBER}', f'field "repetition" is "4294967296", {IS_NUMBER}'],
    ),
    ("f1,n1,1.0,A,0,64", [f'field "slot" is "1.0", {IS_NUMBER}']),
    ('"f1",n1,"1",A,0,1', []),
    # Each cluster refuses these.
    ("f1,n1,1,a,0,64", [f'field "channels" is "a", {IS_CHANNELS}']),
    ("f1,n1,1,A+B,0,64", [f'field "channels" is "A+B", {IS_CHANNELS}']),
    ("f1,n1,1,BA,0,64", [f'field "channels" is "BA", {IS_CHANNELS}']),
    ("f1,n1,1,,0,64", [f'field "channels" is "", {IS_CHANNELS}']),
    ("f1,n1,0,A,0,64", [f'field "slot" is "0", {IS_SLOT}']),
    ("f1,n1,1024,A,0,64", [f'field "slot" is "1024", {IS_SLOT}']),
    ("f1,n1,1,A,64,64", [f'field "base" is "64", {IS_BASE}']),
    ("f1,n1,1,A,0,33", [f'field "repetition" is "33", {IS_REPETITION}']),
    ("f1,n1,1,A,0,63", [f'field "repetition" is "63", {IS_REPETITION}']),
    ("f1,n1,1,A,0,128", [f'field "repetition" is "128", {IS_REPETITION}']),
    ("f1,n1,1,A,0,0", [f'field "base" is "0", {IS_BASE}', f'field "repetition" is "0", {IS_REPETITION}']),
    (
        "f9,n9,0,C,9,3",
        [f'field "slot" is "0", {IS_SLOT}', f'field "channels" is "C", {IS_CHANNELS}', f'field "base" is "9", {IS_BASE}'],
    ),
    # Some cluster takes these, though another refuses them: it has up to 1023 slots, both channels, and an even count of 8 to 64 cycles.
    ("f9,n9,9,B,2,3", []),
    ("f9,n9,1023,AB,30,31", []),
    ("f9,n9,1,A,0,62", []),
    ("f9,n9,1,A,8,9", []),
    ("f9,n9,1,A,31,32", []),
]
# Rows of signals, each with what is told of it.
SIGNAL_ROWS = [
    ("f1,s1,0,8,little", []),
    ("f1,s 1,0,8,little", [f'field "signal" is "s 1", {IS_NAME}']),
    ("f1,s1,,8,little", [f'field "start" is "", {IS_NUMBER}']),
    ("f1,s1,0,99,Little", [f'field "length" is "99", {IS_LENGTH}', f'field "order" is "Little", {IS_ORDER}']),
    ("f1,s1,0,x,big", [f'field "length" is "x", {IS_NUMBER}']),
    ("f1,s1,0,0,big", [f'field "length" is "0", {IS_LENGTH}']),
    ("f1,s1,0,65,big", [f'field "length" is "65", {IS_LENGTH}']),
    ("f1,s1,0,1,", [f'field "order" is "", {IS_ORDER}']),
    ("f1,s1,4294967295,64,big", []),
]
# The widest cluster, of so many cycles; and the refusals of a row for itself, as a try numbers them.
WIDEST = """channels = "AB"
static_slots = 1023
slot_macroticks = 1
dynamic_macroticks = 0
symbol_macroticks = 0
idle_macroticks = 1
macroticks_per_cycle = 1024
payload_words = 1
cycles = {cycles}
integrator = "integrator1"

[suppliers]
s1 = "supplier01"
---
"""
OF_ITSELF = {"01", "04", "05", "06", "07", "08"}
# What an import has at most.
MAX_ROWS, MAX_BYTES = 512, 65_536
ONE_TOO_MANY = "the row is one too many, an import may have 512"
TOO_LONG = "here the file gets longer than 65536 bytes, an import may not be"
OPEN_QUOTE = "the number of fields is 1, the header has 6: one goes over several lines, so a double quote may be open"


class TextCase(RegisterCase):
    """A test that gives `check` a file."""

    flag, behind = "", ""

    def told(self, text, *faults, fine=""):
        """Each of these faults of the file is told on standard error, with its line; where there is none, standard output says so."""
        text = text if isinstance(text, bytes) else text.encode()
        (self.folder / "file").write_bytes(text)
        said = "".join(f"line {line}: {fault}\n" for line, fault in faults)
        wanted = (1, b"", said.encode()) if faults else (0, f"{fine}, no fault\n{self.behind}".encode(), b"")
        self.see(f"check {self.flag} of {text[:200]!r}", wanted, ran(["check", self.flag, "file"], self.folder))


def numbered(lines, first=1):
    """The faults of lines, each with the number of its line."""
    return [(number, fault) for number, (_, faults) in enumerate(lines, first) for fault in faults]


class Requests(TextCase):
    """`check --requests` tells of each fault of a request's text, with its line and its field"""

    flag = "--requests"

    def test_each_alone(self):
        for line, faults in LINES:
            self.told(f"{line}\n", *numbered([(line, faults)]), fine=f"requests: {int(line != '')}")

    def test_all_together(self):
        """The last line needs no end."""
        for end in "\n", "\r\n":
            self.told(end.join(line for line, _ in LINES), *numbered(LINES))

    def test_fine(self):
        fine = [line for line, faults in LINES if not faults]
        self.told("\n".join(fine), fine=f"requests: {len(fine) - 1}")
        self.told("", fine="requests: 0")

    def test_bytes(self):
        """What is no text, and what another program put before the first line."""
        self.told(b'supplier01 {"do":"\xff"}', (1, "the text is not UTF-8"))
        self.told(f"\ufeff{OPEN}\n{OPEN}", (1, f"{NO_KEY}: a byte order mark stands before it"))
        wide = f"{OPEN}\n".encode("utf-16-le")
        self.told(wide, (1, f"{NO_KEY}: the file is UTF-16, and has to be UTF-8"), (1, "column 24: the text is no JSON from here on"), (2, NO_SPACE))

    def test_lengths(self):
        """A line is as long as `ask` takes it, and so is the file."""
        before, behind = 'supplier01 {"do":"import","variant":"v1","label":"w1","body":"', '"}'
        longest = before + "x" * (LINE_BYTES - len(before + behind)) + behind
        self.told(f"{OPEN}\n{longest}\n", fine="requests: 2")
        self.told(f"{OPEN}\n{longest} \nx\n", (2, "the line has more than 1048576 bytes"), (3, NO_SPACE))
        self.told("\n" * REQUEST_BYTES, fine="requests: 0")
        (self.folder / "file").write_bytes(b"\n" * (REQUEST_BYTES + 1))
        self.fault(["check", self.flag, "file"], "CannotOpen")

    def test_the_register_refuses_just_these(self):
        self.create()
        asked = [(line, faults) for line, faults in LINES if line]
        _, answers, _ = ran(["ask", "car.db"], self.folder, "".join(f"{line}\n" for line, _ in asked).encode())
        for (line, faults), answer in zip(asked, answers.splitlines(), strict=True):
            self.see(f"whether {line} is misformed", bool(faults), json.loads(answer).get("refused") in MISFORMED)


class Rows(TextCase):
    """`check --rows` tells of each fault for which each cluster refuses a row, with its line in the file and its field"""

    flag, behind = "--rows", UNTOLD

    def test_headers(self):
        for header, hint in NO_HEADERS:
            self.told(f"{header}\nf1\n", (1, f'the header is "{header}", {HEADERS}{hint}'))
        self.told(f"\n\n{ROW}\n", (3, f'the header is "{ROW}", {HEADERS}'))
        for empty in "", "\n\n", "\ufeff":
            self.told(empty, (1, "the file has no header"))

    def test_each_alone(self):
        for row, faults in ROWS:
            self.told(f"{PLACEMENTS}\n{row}\n", *numbered([(row, faults)], 2), fine="rows: 1")

    def test_all_together(self):
        """Empty lines are counted, and so are those within a field; a byte order mark is passed over."""
        for end in "\n", "\r\n", "\r":
            rows = [(PLACEMENTS, []), ("", []), *ROWS]
            at = len(rows) + 1
            text = f"\ufeff{''.join(row + end for row, _ in rows)}\"f{end}9\",n1,1,A,0,1{end}x,n1,1,A,x,1"
            field = "f" + "?" * len(end) + "9"
            self.told(text, *numbered(rows), (at, f'field "frame" is "{field}", {IS_NAME}'), (at + 2, f'field "base" is "x", {IS_NUMBER}'))

    def test_signals(self):
        rows = [(SIGNALS, []), *SIGNAL_ROWS]
        self.told("\n".join(row for row, _ in rows), *numbered(rows))
        self.told(f"{SIGNALS}\nf1,s1,0,8,little\n", fine="rows: 1")

    def test_frames(self):
        rows = [
            ("frame,node", []),
            ("f1,n1", []),
            ("f1", ["the number of fields is 1, the header has 2"]),
            ("f1,n1,", ["the number of fields is 3, the header has 2: those behind are empty"]),
            ("f-1, n1", [f'field "frame" is "f-1", {IS_NAME}', f'field "node" is " n1", {IS_NAME}']),
        ]
        self.told("\n".join(row for row, _ in rows), *numbered(rows))
        self.told("frame,node\nf1,n1\n", fine="rows: 1")

    def test_open_quote(self):
        self.told(f'{PLACEMENTS}\n{ROW}\n"f1,n1,1,A,0,64\n{ROW}\n{ROW}\n', (3, OPEN_QUOTE))

    def test_bytes(self):
        """What is no text."""
        head = f"{PLACEMENTS}\n{ROW}\n".encode()
        self.told(head + b"f\xff,n1,1,\xc3,0,64\n", (3, f'field "frame" is "f?", {IS_NAME}'), (3, f'field "channels" is "?", {IS_CHANNELS}'))
        wide = "??" + "".join(f"{it}?" for it in PLACEMENTS)
        self.told(f"{PLACEMENTS}\n".encode("utf-16"), (1, f'the header is "{wide}", {HEADERS}, in UTF-8 and not in UTF-16'))

    def test_limits(self):
        """One row too many is told of, and what comes behind it is not read; of a file that is too long nothing is."""
        self.told("\n".join([PLACEMENTS, *[ROW] * MAX_ROWS]), fine=f"rows: {MAX_ROWS}")
        self.told("\n".join([PLACEMENTS, *[ROW] * (MAX_ROWS + 1)]), (MAX_ROWS + 2, ONE_TOO_MANY))
        self.told("\n".join([PLACEMENTS, "x", "", *[ROW] * MAX_ROWS, "y"]), (2, "the number of fields is 1, the header has 6"), (MAX_ROWS + 3, ONE_TOO_MANY))
        # Each row has 128 bytes with its end, and the header's line 64.
        rows = [PLACEMENTS + " " * (63 - len(PLACEMENTS)), *['f1,n1,1,A,0,"64' + " " * 111 + '"'] * 511]
        self.see("how long the rows are", 64 + 511 * 128, len("\n".join(rows)) + 1)
        fine = f'{PLACEMENTS}\n{ROW}{" " * (MAX_BYTES - len(PLACEMENTS) - len(ROW) - 1)}'
        self.told(fine, (2, f'field "repetition" is "64{" " * 62}", {IS_NUMBER}'))
        self.told(f"{fine}x", (2, TOO_LONG))
        self.told(f"{PLACEMENTS}\nx\n{'y' * MAX_BYTES}\n", (3, TOO_LONG))
        self.told("z" * (16 * MAX_BYTES), (1, TOO_LONG))

    def test_each_cluster_refuses_just_these(self):
        """A row is told of exactly where it is refused for itself in clusters of each count of cycles, with as many slots as there may be and both channels."""
        rows = [(header, row, faults) for header, some in ((PLACEMENTS, ROWS), (SIGNALS, SIGNAL_ROWS)) for row, faults in some]
        tries = [json.dumps({"do": "try", "variant": "v1", "body": f"{header}\n{row}\n"}) for header, row, _ in rows]
        asked = f"{OPEN}\n" + "".join(f"supplier01 {text}\n" for text in tries)
        taken = set()
        for cycles in range(8, 65, 2):
            status, written, said = ran(["run"], self.folder, (WIDEST.format(cycles=cycles) + asked).encode())
            self.see(f"the run in a cluster of {cycles} cycles", (0, b""), (status, said))
            fates = [json.loads(line)["lines"][0].split()[1] for line in written.splitlines()[1:]]
            taken |= {row for (_, row, _), fate in zip(rows, fates, strict=True) if fate not in OF_ITSELF}
        for _, row, faults in rows:
            self.see(f"whether a cluster takes {row}", not faults, row in taken)


# The paths of docs/openapi.yaml with what stands in their braces; the last is a fault, and the name of what it is.
NUMBERS = "repetition", "part"
NOT_WORDS = "badname", "33", "0", "", "BadName_"
NOT_NAMES = "week-48", "", "1v", "a b", "n" * 33, "v%31", "\u00e9"
NOT_NUMBERS = "x", "", "-1", "+1", "1.0", "4294967296", "00000000001"
HOLES = {
    **dict.fromkeys(NUMBERS, ("4", NOT_NUMBERS, "a number is 1 to 10 digits, at most 4294967295")),
    "word": ("BadName", NOT_WORDS, "no refusal and no fault has this name or number"),
}
NAMES = "week_48", NOT_NAMES, NAME
NO_PATH = "no route has this path"


def filled(path, holes):
    """A path of the description with these in its braces."""
    return re.sub(r"{(\w+)}", lambda found: holes[found[1]], path)


def is_refused_for_itself(reply):
    """Whether the server has no route for a request, or refuses it for its text or a name."""
    said, _, body = reply.partition(b"\r\n\r\n")
    refused = json.loads(body).get("refused") if b"content-type: application/json" in said else ""
    return said.startswith(b"HTTP/1.1 404 Not Found\r\ncontent-length: 0\r\n") or refused in ("BadName", "BadText")


class Paths(RegisterCase):
    """`check --path` tells of each name, number and word in a path that is none, and of a path that no route has."""

    def setUp(self):
        super().setUp()
        self.paths = {path: set(methods) - {"parameters"} for path, methods in yaml.safe_load((TOP / "docs/openapi.yaml").read_text())["paths"].items()}
        # Of what a path is refused for is told of those of requests, not of the page's parts.
        self.paths = {path: methods for path, methods in self.paths.items() if path.startswith("/v1/") or path == "/"}

    def told(self, path, *faults):
        said = "".join(f"slotplan: {fault}\n" for fault in faults)
        wanted = (1, b"", said.encode()) if faults else (0, b"path: no fault\n", b"")
        self.see(f"check --path {path}", wanted, ran(["check", "--path", path], self.folder))

    def holes(self, path, **more):
        return {name: more.get(name, HOLES.get(name, NAMES)[0]) for name in re.findall(r"{(\w+)}", path)}

    def test_each_route(self):
        """Each hole of each path of the description, filled well and badly."""
        self.see("paths that have names", True, sum("{variant}" in path for path in self.paths) > 10)
        for path in self.paths:
            self.told(filled(path, self.holes(path)))
            for name in self.holes(path):
                _, bad, what = HOLES.get(name, NAMES)
                for text in bad:
                    self.told(filled(path, self.holes(path, **{name: text})), f'{{{name}}} is "{text.replace(chr(0xe9), "?")}", {what}')

    def test_all_told(self):
        self.told("/v1/variants/sport/imports/week-48", f'{{label}} is "week-48", {NAME}')
        self.told("/v1/variants/1v/frames/f-1/room/x", *(f'{{{name}}} is "{text}", {NAME}' for name, text in (("variant", "1v"), ("frame", "f-1"))), '{repetition} is "x", a number is 1 to 10 digits, at most 4294967295')

    def test_no_route(self):
        for path in "/v1/nothing", "/v1/variants/v1", "/v1/variants/v1/frame", "/v1/variants/v1/grants/", "/v1/variants/v1/exports/nodes/0":
            self.told(path, NO_PATH)
        for path in "", "v1/cluster", "//v1/cluster", "/slots/v1/cluster", "http://127.0.0.1:8080/v1/cluster":
            self.told(path, f"{NO_PATH}: it begins with /v1/")

    def test_the_server_refuses_just_these(self):
        """A path is told of exactly where the server has no route, or answers `BadName` or `BadText` to whoever asks."""
        self.create()
        with self.served() as (_, port):
            for path, methods in self.paths.items():
                bad = [(name, text) for name in self.holes(path) for text in HOLES.get(name, NAMES)[1] if text.isascii() and " " not in text]
                cases = [self.holes(path), *(self.holes(path, **{name: text}) for name, text in bad)]
                for holes in cases:
                    target = filled(path, holes)
                    refused = False
                    for method in methods:
                        body = b'{"do":"cluster"}' if path == "/v1/commands" else b"frame,node\n"
                        reply = sent(port, head(method.upper(), target, "supplier01", f"Content-Length: {len(body)}") + body)
                        refused |= is_refused_for_itself(reply)
                    status, _, _ = ran(["check", "--path", target], self.folder)
                    self.see(f"whether {target} is refused for itself", refused, status == 1)


class OneFile(TextCase):
    """One file is named, and it is read as far as it goes"""

    def test_words(self):
        (self.folder / "file").write_text("")
        for words in (), ("file", "--rows", "file"), ("--rows", "file", "--requests", "file"), ("file", "--requests", "file", "--rows", "file"), ("file", "--path", "/"):
            status, written, said = ran(["check", *words], self.folder)
            self.see(f"check {words}", (2, b""), (status, written))
            self.see(f"whether it is said of {words} which files are taken", True, b"--requests FILE" in said and b"--rows FILE" in said and b"--path PATH" in said)

    def test_not_read(self):
        for flag in "--requests", "--rows":
            for path in "none", ".", "/dev/null", "":
                self.fault(["check", flag, path], "CannotOpen")
