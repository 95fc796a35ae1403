"""Exports, loads, rooms, replacements and changed keys: as requests, by commands and over HTTP.

What is wanted was typed by hand from docs/FORMATS.md and docs/HTTP.md, or comes from another register, naive.py; none of it is the program's own output."""
import re
from itertools import product

from tests.drivers.connections import each_line
from tests.drivers.invocations import Invocation, InvocationCase, answered
from tests.drivers.program import ran
from tests.drivers.registers import RegisterCase
from tests.drivers.server import sent
from tests.models import naive
from tests.models.messages import CONTINUE, DONE, UNKNOWN, command, csv, engine, head, json, put, text
from tests.models.messages import refused as refused_bytes
from tests.models.random_scripts import random_script
from tests.models.scripts import CLUSTER, answers, done, refused, refused_row, request, script, suppliers
from tests.runner.parameters import for_values

INTEGRATOR, KEY, OTHER = "integrator1", "supplier01", "supplier02"
IN_V1 = dict(variant="v1")
BAD_TEXT = refused(1, "BadText")

# Slots 1 A, 1 B and 3 B are granted to n1, and h has no placement.
PLANNED = [
    done(INTEGRATOR, "open_variant", **IN_V1),
    done(INTEGRATOR, "add_node", supplier="s1", node="n1"),
    *(done(INTEGRATOR, "grant", **IN_V1, slot=slot, channel=channel, supplier="s1", node="n1") for slot, channel in ((1, "A"), (1, "B"), (3, "B"))),
    *(done(KEY, "add_frame", **IN_V1, frame=frame, node="n1") for frame in "fgeh"),
    done(KEY, "place", **IN_V1, frame="f", slot=1, channels="AB", base=0, repetition=2),
    done(KEY, "place", **IN_V1, frame="g", slot=1, channels="B", base=1, repetition=4),
    done(KEY, "place", **IN_V1, frame="e", slot=1, channels="A", base=3, repetition=4),
    done(KEY, "add_signal", **IN_V1, frame="f", signal="y", start=3, length=8, order="big"),
    done(KEY, "add_signal", **IN_V1, frame="f", signal="x", start=4, length=8, order="little"),
]

# ---- requests whose text is none

# Each request with its fields, as one is carried out.
WHOLE = {
    "export_frames": dict(**IN_V1, part=0),
    "export_placements": dict(**IN_V1, part=0),
    "export_signals": dict(**IN_V1, part=0),
    "load": IN_V1,
    "room": dict(**IN_V1, frame="h", repetition=4),
    "replace": dict(**IN_V1, body="frame,node\n"),
    "set_key": dict(supplier="s1", key="supplier09"),
}
WORDS = (
    "export", "exports", "export_frame", "export_framess", "Export_frames", "export frames", "export-frames", "export_", "export_nodes", "export_grants", "loads",
    "Load", "load ", "rooms", "ROOM", "replaced", "replacement", "Replace", "set_keys", "setkey", "SetKey", "set-key", "", "frames,node",
)
TEXTS = None, 7, 7.5, True, False, [], ["v1"], {}, {"v1": "v1"}
NUMBERS = None, "0", "4", "", 0.5, 4.0, -1, -4, 4_294_967_296, 10**30, True, False, [], [4], {}


def misformed():
    """Requests of which one field is missing, has another name, is one too many or is of another kind, and words that name no request."""
    for do, fields in WHOLE.items():
        for field in fields:
            yield request(KEY, do, **{name: value for name, value in fields.items() if name != field})
            yield request(KEY, do, **{(name.capitalize() if name == field else name): value for name, value in fields.items()})
            for other in NUMBERS if field in ("part", "repetition") else TEXTS:
                yield request(KEY, do, **{**fields, field: other})
        for more in "more", "label", "from", "slot", "base", "replace":
            yield request(KEY, do, **fields, **{more: 0})
        yield request(KEY, do)
    for word in WORDS:
        yield request(KEY, word, **IN_V1, part=0)
    for form in "-0", "00", "0.0", "1e0", "+1", "0x1", "1_0", "\u0661", "NaN":
        yield f'{KEY} {{"do":"export_frames","variant":"v1","part":{form}}}'
        yield f'{KEY} {{"do":"room","variant":"v1","frame":"h","repetition":{form}}}'


class Misformed(InvocationCase):
    """Of a request each field of another kind is `BadText`, whoever asks, and so is a word that names none; nothing changes."""

    def test_fields(self):
        lines = list(misformed())
        others = [line.replace(KEY, who, 1) for who in ("nobody123", INTEGRATOR) for line in lines]
        shown = request(KEY, "frames", **IN_V1), '{"lines":["FRAME e n1","AT 0001 A 03 04","FRAME f n1","AT 0001 AB 00 02","FRAME g n1","AT 0001 B 01 04","FRAME h n1"],"ok":"frames"}'
        self.ends(answered("fields of another kind", CLUSTER, [*PLANNED, *((line, BAD_TEXT) for line in [*lines, *others]), shown]))

    def test_whole(self):
        """Without a fault each is carried out, its fields in any order, and the last of a name counts."""
        lines = [request(KEY if do != "set_key" else INTEGRATOR, do, **dict(reversed(fields.items()))) for do, fields in WHOLE.items()]
        lines += ['supplier09 {"part":7,"part":0,"variant":"v9","variant":"v1","do":"load","do":"export_frames"}', 'supplier09 {"do":"load","variant":"\\u0076\\u0031"}']
        given = script(CLUSTER, [*PLANNED, *((line, None) for line in lines)])
        wanted = naive.answers(given)
        self.see("answers of naive.py that are refusals", 0, wanted.count(b"refused"))
        self.ends(Invocation("whole requests", given, wanted))


# ---- refusals, in their order

MANY = "v" * 33


def combined():
    """Each request with each mixture of what refuses it, of the integrator, a supplier, another one, and nobody."""
    owners = INTEGRATOR, KEY, OTHER, "supplier03", "nobody123"
    variants = "1v", MANY, "", "v9", "v1", "v2"
    for who, variant in product(owners, variants):
        yield request(who, "load", variant=variant)
        for kind, part in product(("frames", "placements", "signals"), (0, 1, 4_294_967_295)):
            yield request(who, f"export_{kind}", variant=variant, part=part)
        for frame, repetition in product(("1f", "x", "h", "full"), (0, 1, 3, 4, 64, 65, 128, 4_294_967_295)):
            yield request(who, "room", variant=variant, frame=frame, repetition=repetition)
        for body in "", "frame,node\nx,n9\n", "x" * 65_537, "frame,node\n1f,n1\n", "frame,signal,start,length,order\nf,y,3,8,big\nf,x,4,8,little\n":
            yield request(who, "replace", variant=variant, body=body)
    for who, supplier, key in product(owners, ("1s", "s9", "s1", "s3"), ("short", "k" * 65, "with space", "", KEY, OTHER, "supplier03", INTEGRATOR, "newKey2026")):
        yield request(who, "set_key", supplier=supplier, key=key)
        # (the keys are as they were for the next one)
        yield request(INTEGRATOR, "set_key", supplier="s1", key=KEY)
        yield request(INTEGRATOR, "set_key", supplier="s3", key="supplier03")


class Refusals(InvocationCase):
    """Where several refusals apply the first is answered, as by another register, naive.py: of queries and changes, in open and released variants."""

    seconds = 20

    def test_combined(self):
        more = [
            request(INTEGRATOR, "open_variant", variant="v2"),
            request(INTEGRATOR, "release", variant="v2"),
            request(INTEGRATOR, "grant", **IN_V1, slot=2, channel="A", supplier="s1", node="n1"),
            request(KEY, "add_frame", **IN_V1, frame="full", node="n1"),
            *(request(KEY, "place", **IN_V1, frame="full", slot=2, channels="A", base=base, repetition=16) for base in range(8)),
        ]
        lines = [*(line for line, _ in PLANNED), *more, *combined()]
        given = script({**CLUSTER, "suppliers": suppliers(3)}, [(line, None) for line in lines])
        self.ends(Invocation("refusals in their order", given, naive.answers(given)))

    def test_one_channel(self):
        """In a cluster of one channel there are no lanes of the other, and no room on both."""
        for channel in "AB":
            lines = [line for line, _ in PLANNED if f'"{"AB".replace(channel, "")}"' not in line and '"AB"' not in line]
            lines += [request(who, "load", **IN_V1) for who in (KEY, OTHER, INTEGRATOR)]
            lines += [request(KEY, "room", **IN_V1, frame="h", repetition=repetition) for repetition in (1, 2, 4, 8)]
            given = script({**CLUSTER, "channels": f'"{channel}"'}, [(line, None) for line in lines])
            self.ends(Invocation(f"loads and rooms of channel {channel}", given, naive.answers(given)))

    def test_room_is_where_place_is_done(self):
        """Each placement of a repetition is asked for, and taken back: it is done where the room has it, and nowhere else."""
        key, slots = dict(who=KEY), range(1, 5)
        for repetition in 1, 2, 8, 16:
            lines = []
            for slot, channels, base in product(slots, ("A", "B", "AB"), range(repetition)):
                fields = dict(**IN_V1, frame="h", slot=slot, channels=channels, base=base, repetition=repetition)
                lines += [request(**key, do="place", **fields), request(**key, do="unplace", **fields)]
            given = script(CLUSTER, [*PLANNED, *((line, None) for line in lines), (request(KEY, "room", **IN_V1, frame="h", repetition=repetition), None)])
            status, written, said = ran(["run"], self.folder, given)
            self.see("how it ends", (0, b""), (status, said))
            *told, room = written.decode().splitlines()[len(PLANNED):]
            fits = {}
            for place, (slot, channels, base) in zip(told[::2], product(slots, ("A", "B", "AB"), range(repetition)), strict=True):
                if place == '{"ok":"done"}':
                    fits.setdefault((slot, ("A", "AB", "B").index(channels)), []).append(f"{base:02}")
            rows = [" ".join([f"{slot:04}", ("A", "AB", "B")[at], f"{repetition:02}", *bases]) for (slot, at), bases in sorted(fits.items())]
            self.see(f"room of repetition {repetition}", naive.json.dumps({"lines": rows, "ok": "room"}, separators=(",", ":")), room)


# ---- as if alone


class Alone(InvocationCase):
    """Each supplier is answered as by a register of its own, naive.py, which gets its requests and the integrator's accepted ones that concern it."""

    def tried(self, supplier, given):
        cluster, _, requests = given.partition(b"---\n")
        lines = requests.splitlines()
        status, written, said = ran(["run"], self.folder, given)
        self.see("how it ends", (0, b"", len(lines)), (status, said, written.count(b"\n")))
        is_own = re.compile(rb"(keyfor|newkey\d{6}of)%s " % supplier.encode()).match
        of_all = re.compile(rb'integrator1 .*"do":"(open_variant|release)"').match
        names_it = re.compile(rb'integrator1 .*"supplier":"%s"' % supplier.encode()).match
        both = list(zip(lines, written.splitlines()))
        heard = [(line, answer) for line, answer in both if is_own(line) or answer == DONE and (of_all(line) or names_it(line))]
        keys = re.compile(rb'^(?!%s = )s\d+ = ".*\n' % supplier.encode(), re.M)
        alone = keys.sub(b"", cluster) + b"---\n" + b"".join(line + b"\n" for line, _ in heard)
        self.see("it asks, and so does the integrator", True, 100 < sum(bool(is_own(line)) for line, _ in heard) < len(heard))
        for (line, answer), right in zip(heard, naive.answers(alone).splitlines(), strict=True):
            self.see(f"{line[:120]!r}", right, answer)

    @for_values("s0", "s1", "s2", "s3")
    def test_revising(self, supplier):
        self.tried(supplier, random_script("revising", 1200, 4, 11))

    @for_values("s0", "s1", "s2", "s3")
    def test_comparing(self, supplier):
        self.tried(supplier, random_script("comparing", 1200, 4, 12))


# ---- over files: commands and a server

LINES = {
    ("frames", None): b"frame,node,supplier\ne,n1,s1\nf,n1,s1\ng,n1,s1\nh,n1,s1\n",
    ("frames", "s1"): b"frame,node\ne,n1\nf,n1\ng,n1\nh,n1\n",
    ("frames", "s2"): b"frame,node\n",
    ("placements", None): b"frame,node,slot,channels,base,repetition,supplier\ne,n1,1,A,3,4,s1\nf,n1,1,AB,0,2,s1\ng,n1,1,B,1,4,s1\n",
    ("placements", "s1"): b"frame,node,slot,channels,base,repetition\ne,n1,1,A,3,4\nf,n1,1,AB,0,2\ng,n1,1,B,1,4\n",
    ("placements", "s2"): b"frame,node,slot,channels,base,repetition\n",
    ("signals", None): b"frame,signal,start,length,order,supplier\nf,y,3,8,big,s1\nf,x,4,8,little,s1\n",
    ("signals", "s1"): b"frame,signal,start,length,order\nf,y,3,8,big\nf,x,4,8,little\n",
    ("signals", "s2"): b"frame,signal,start,length,order\n",
}
LOAD = {
    None: b"0001 A 48 64 n1 s1\n0001 B 48 64 n1 s1\n0002 A 00 64 - -\n0002 B 00 64 - -\n0003 A 00 64 - -\n0003 B 00 64 n1 s1\n0004 A 00 64 - -\n0004 B 00 64 - -\n",
    "s1": b"0001 A 48 64 n1\n0001 B 48 64 n1\n0003 B 00 64 n1\n",
    "s2": b"",
}
ROOM = {2: b"0003 B 02 00 01\n", 4: b"0001 A 04 01\n0001 B 04 03\n0003 B 04 00 01 02 03\n"}
# The frames behind each of two files for them, and the refusal of a third.
GOOD = b"frame,node,slot,channels,base,repetition\ng,n1,1,B,3,4\nh,n1,3,B,0,1\n"
REVISED = b"FRAME e n1\nAT 0001 A 03 04\nFRAME f n1\nAT 0001 AB 00 02\nFRAME g n1\nAT 0001 B 03 04\nFRAME h n1\nAT 0003 B 00 01\n"
TAKEN = GOOD.replace(b"h,n1,3,B,0,1", b"h,n1,1,A,0,1")
TAKEN_ANSWER = b'{"line":3,"no":29,"refused":"BadRow","row":{"channel":"A","cycle":0,"frame":"f","no":25,"refused":"CellTaken"}}'
REPLACED = b'{"ok":"replaced","rows":2}'


def header_of(lines):
    return lines[: lines.index(b"\n") + 1]


class RevisingCase(RegisterCase):
    """A test over a register in which these were asked."""

    def setUp(self):
        super().setUp()
        self.create()
        self.ask("".join(f"{line}\n" for line, _ in PLANNED).encode(), answers(PLANNED))

    def frames_are(self, lines):
        self.tell(["frames", "car.db", "v1", "--supplier", "s1"], lines)


class Commands(RevisingCase):
    """`export`, `load`, `room` and `replace` print what the requests answer, for all and for a supplier, and say what the words lack."""

    def test_exports(self):
        before = (self.folder / "car.db").read_bytes()
        for (kind, supplier), lines in LINES.items():
            of = [] if supplier is None else ["--supplier", supplier]
            self.tell(["export", "car.db", "v1", kind, *of], lines)
            self.tell(["export", *of, "car.db", "v1", kind], lines)
            self.tell(["export", "car.db", "v1", kind, "--part", "0", *of], lines)
            for part in "1", "2", "4294967295":
                self.tell(["export", "car.db", "v1", kind, *of, "--part", part], header_of(lines))
        self.see("the file behind exports", before, (self.folder / "car.db").read_bytes())

    def test_loads_and_rooms(self):
        for supplier, lines in LOAD.items():
            self.tell(["load", "car.db", "v1", *([] if supplier is None else ["--supplier", supplier])], lines)
        for repetition, lines in ROOM.items():
            self.tell(["room", "car.db", "v1", "h", str(repetition), "--supplier", "s1"], lines)

    def test_refused(self):
        for words in ["export", "car.db", "v9", "frames"], ["load", "car.db", "v9"], ["room", "car.db", "v9", "h", "4", "--supplier", "s1"]:
            self.turned_down(words, refused_bytes(10, "NoVariant"))
        for words in ["export", "car.db", "1v", "signals"], ["load", "car.db", "1v", "--supplier", "s1"], ["room", "car.db", "v1", "1h", "3", "--supplier", "s1"]:
            self.turned_down(words, refused_bytes(4, "BadName"))
        for words in ["export", "car.db", "v9", "placements"], ["load", "car.db", "v9"], ["room", "car.db", "1v", "h", "3"]:
            for supplier in "s3", "S1", "no name", "":
                self.turned_down([*words, "--supplier", supplier], refused_bytes(14, "NoSupplier"))
        for repetition in "0", "3", "128", "4294967295":
            self.turned_down(["room", "car.db", "v1", "h", repetition, "--supplier", "s1"], refused_bytes(5, "BadCycles"))
        self.turned_down(["room", "car.db", "v1", "x", "4", "--supplier", "s1"], refused_bytes(16, "NoFrame"))
        self.turned_down(["room", "car.db", "v1", "h", "4", "--supplier", "s2"], refused_bytes(16, "NoFrame"))
        self.ask(b'integrator1 {"do":"release","variant":"v1"}', DONE + b"\n")
        self.turned_down(["room", "car.db", "v1", "h", "4", "--supplier", "s1"], refused_bytes(11, "Released"))
        self.tell(["load", "car.db", "v1", "--supplier", "s1"], LOAD["s1"])
        self.tell(["export", "car.db", "v1", "signals", "--supplier", "s1"], LINES["signals", "s1"])

    def test_words_that_name_no_job(self):
        numbers = "x", "", "-1", "1.0", "4294967296"
        for words in (
            ["export"], ["export", "car.db"], ["export", "car.db", "v1"], ["export", "car.db", "v1", "frames", "0"],
            *(["export", "car.db", "v1", kind] for kind in ("nodes", "Frames", "frame", "", "export_frames")),
            *(["export", "car.db", "v1", "frames", "--part", number] for number in numbers),
            ["load", "car.db"], ["load", "car.db", "v1", "x"],
            ["room", "car.db", "v1", "h", "--supplier", "s1"], ["room", "car.db", "v1", "h", "4"],
            *(["room", "car.db", "v1", "h", number, "--supplier", "s1"] for number in numbers),
            ["replace", "car.db", KEY, "v1"], ["replace", "car.db", KEY, "v1", "week47", "rows.csv"],
        ):
            status, written, said = ran(words, self.folder)
            self.see(f"slotplan {' '.join(words)}", (2, b"", True), (status, written, said.startswith(b"error: ")))

    def test_replace(self):
        words = ["replace", "car.db", KEY, "v1", "rows.csv"]
        (self.folder / "rows.csv").write_bytes(TAKEN)
        self.turned_down(words, TAKEN_ANSWER)
        self.tell(["export", "car.db", "v1", "placements", "--supplier", "s1"], LINES["placements", "s1"])
        (self.folder / "rows.csv").write_bytes(GOOD)
        for _ in range(2):
            self.tell(words, REPLACED + b"\n")
            self.frames_are(REVISED)
        self.tell(["replace", "car.db", "-", "v1", "rows.csv"], REPLACED + b"\n", given=b"supplier01\nmore\n")
        self.turned_down(["replace", "car.db", "nobody123", "v1", "rows.csv"], refused_bytes(2, "UnknownKey"))
        self.turned_down(["replace", "car.db", INTEGRATOR, "v1", "rows.csv"], refused_bytes(3, "NotYours"))
        self.turned_down(["replace", "car.db", KEY, "1v", "rows.csv"], refused_bytes(4, "BadName"))
        self.turned_down(["replace", "car.db", KEY, "v9", "rows.csv"], refused_bytes(10, "NoVariant"))
        self.see("no import is kept", [], self.rows("SELECT * FROM imports"))
        self.frames_are(REVISED)
        self.sound()

    def test_files(self):
        longest = GOOD + b"\n" * (65_536 - len(GOOD))
        for name, data in ("longest.csv", longest), ("long.csv", longest + b"\n"), ("empty.csv", b""), ("latin.csv", b"frame,node\n\xff,n1\n"):
            (self.folder / name).write_bytes(data)
        words = ["replace", "car.db", KEY, "v1"]
        self.tell([*words, "longest.csv"], REPLACED + b"\n")
        self.turned_down([*words, "long.csv"], refused_bytes(23, "Limit"))
        self.turned_down([*words, "empty.csv"], refused_row(1, 1, "BadText").encode())
        self.turned_down([*words, "latin.csv"], refused_row(2, 1, "BadText").encode())
        self.fault([*words, "none.csv"], "CannotOpen")
        self.fault([*words, "."], "CannotOpen")
        self.fault(["replace", "none.db", KEY, "v1", "longest.csv"], "NotARegister")
        self.ask(b'integrator1 {"do":"release","variant":"v1"}', DONE + b"\n")
        self.turned_down([*words, "long.csv"], refused_bytes(11, "Released"))

    def test_full_output(self):
        for words in "export car.db v1 frames", "load car.db v1", "room car.db v1 h 4 --supplier s1":
            status, _, said = self.shell(f'"$1" {words} > /dev/full')
            self.see(f"{words}, and output that is full", (1, b"slotplan: WriteFailed\n"), (status, said))


# ---- over HTTP

OWNERS = {None: INTEGRATOR, "s1": KEY, "s2": OTHER}
BAD_TEXT_REPLY = json(refused_bytes(1, "BadText"), "400 Bad Request")
NO_NUMBERS = "x", "-1", "+1", "1.0", "0x1", "%30", "1_0", "1a", "1;2", "4294967296", "9999999999", "00000000000", "12345678901"
PATHS = [f"exports/{kind}/" for kind in ("frames", "placements", "signals")] + ["frames/h/room/"]


def at(path):
    return f"/v1/variants/v1/{path}"


def refusals_over_http():
    """Requests that are refused, by what comes first."""
    for path in "exports/frames/0", "load":
        yield head("GET", f"/v1/variants/v9/{path}", KEY), json(refused_bytes(10, "NoVariant"), "404 Not Found")
        yield head("GET", f"/v1/variants/1v/{path}", INTEGRATOR), json(refused_bytes(4, "BadName"), "422 Unprocessable Entity")
    for path in "exports/frames/0", "exports/placements/0", "exports/signals/0", "load", "frames/h/room/4":
        yield head("GET", at(path)), UNKNOWN
        yield head("GET", at(path), "nobody123"), UNKNOWN
        yield head("GET", at(path) + "/", KEY), engine("404 Not Found")
        for method in "POST", "PUT", "DELETE":
            yield head(method, at(path), KEY), engine("405 Method Not Allowed", "allow: GET")
    for path in "exports", "exports/frames", "exports/frames/", "exports/nodes/0", "exports/Frames/0", "frames/h/room", "frames/h/room/", "frames//room/4", "rooms":
        yield head("GET", at(path), KEY), engine("404 Not Found")
    yield head("GET", at("frames/h/room/3"), KEY), json(refused_bytes(5, "BadCycles"), "422 Unprocessable Entity")
    yield head("GET", at("frames/x/room/4"), KEY), json(refused_bytes(16, "NoFrame"), "404 Not Found")
    yield head("GET", at("frames/1h/room/3"), KEY), json(refused_bytes(4, "BadName"), "422 Unprocessable Entity")
    yield head("GET", at("frames/1h/room/3"), INTEGRATOR), json(refused_bytes(3, "NotYours"), "403 Forbidden")


def numbers_over_http():
    """A number in a path is 1 to 10 digits of a value that 32 bits have; it is judged before the key and before names."""
    for path, number in product(PATHS, NO_NUMBERS):
        yield head("GET", at(path) + number, KEY), BAD_TEXT_REPLY
    for path in PATHS:
        yield head("GET", at(path) + "x", "nobody123"), BAD_TEXT_REPLY
        yield head("GET", "/v1/variants/1v/" + path + "4294967296", KEY), BAD_TEXT_REPLY
    for part in "1", "0000000001", "4294967295":
        yield head("GET", at("exports/frames/") + part, KEY), csv(b"frame,node\n")
    yield head("GET", at("exports/signals/0000000000"), KEY), csv(LINES["signals", "s1"])
    yield head("GET", at("exports/signals/0?part=7"), KEY), csv(LINES["signals", "s1"])
    yield head("GET", at("frames/h/room/0000000004"), KEY), text(ROOM[4])
    yield head("GET", at("frames/h/room/4294967295"), KEY), json(refused_bytes(5, "BadCycles"), "422 Unprocessable Entity")


def replacements_over_http():
    """Files that are put in place of earlier ones, and what is no such request."""
    rows, lines = at("rows"), head("GET", at("frames"), KEY)
    yield put(rows, KEY, TAKEN), json(TAKEN_ANSWER, "422 Unprocessable Entity")
    yield head("GET", at("exports/placements/0"), KEY), csv(LINES["placements", "s1"])
    yield put(rows, KEY, GOOD), json(REPLACED)
    yield lines, text(REVISED)
    yield put(rows, KEY, GOOD, "Expect: 100-continue"), CONTINUE + json(REPLACED)
    yield lines, text(REVISED)
    yield put(rows, INTEGRATOR, GOOD), json(refused_bytes(3, "NotYours"), "403 Forbidden")
    yield put(rows, "nobody123", GOOD), UNKNOWN
    yield put("/v1/variants/1v/rows", KEY, GOOD), json(refused_bytes(4, "BadName"), "422 Unprocessable Entity")
    yield put("/v1/variants/v9/rows", KEY, GOOD), json(refused_bytes(10, "NoVariant"), "404 Not Found")
    yield put(rows, KEY, b""), json(refused_row(1, 1, "BadText").encode(), "422 Unprocessable Entity")
    yield put(rows, KEY, b"frame,node\n\xff,n1\n"), json(refused_row(2, 1, "BadText").encode(), "422 Unprocessable Entity")
    yield put(rows, KEY, b"frame,node\n"), json(b'{"ok":"replaced","rows":0}')
    yield put(rows, KEY, GOOD + b"\n" * (65_536 - len(GOOD))), json(REPLACED)
    yield head("PUT", rows, KEY), engine("411 Length Required")
    yield head("PUT", rows, KEY, "Content-Length: 65537") + b"x" * 65_537, engine("413 Payload Too Large")
    for length in "1a", "", "-1", "+1":
        yield head("PUT", rows, KEY, f"Content-Length: {length}"), engine("400 Bad Request")
    yield head("PUT", rows, KEY, "Content-Length: 1", "Content-Length: 1"), engine("400 Bad Request")
    yield head("PUT", rows, KEY, "Transfer-Encoding: chunked"), engine("501 Not Implemented")
    for method in "POST", "DELETE", "HEAD", "put", "get":
        yield head(method, rows, KEY), engine("405 Method Not Allowed", "allow: GET, PUT")
    yield head("PUT", rows + "/", KEY), engine("404 Not Found")
    yield head("PUT", at("rows/x"), KEY), engine("404 Not Found")
    yield command(KEY, b'{"do":"replace","variant":"v1","body":"frame,node\\n"}'), json(b'{"ok":"replaced","rows":0}')
    yield lines, text(REVISED)


class OverHttp(RevisingCase):
    """A server gives exports as CSV, loads and rooms as text, and takes a file in place of an earlier one; refusals are JSON."""

    def replies(self, pairs):
        self.in_turn("car.db", list(pairs))

    def test_reports(self):
        exports = [(head("GET", at(f"exports/{kind}/0"), OWNERS[supplier]), csv(lines)) for (kind, supplier), lines in LINES.items()]
        empty = [(head("GET", at(f"exports/{kind}/1"), OWNERS[supplier]), csv(header_of(lines))) for (kind, supplier), lines in LINES.items()]
        loads = [(head("GET", at("load"), OWNERS[supplier]), text(lines)) for supplier, lines in LOAD.items()]
        rooms = [(head("GET", at(f"frames/h/room/{repetition}"), KEY), text(lines)) for repetition, lines in ROOM.items()]
        self.replies([*exports, *empty, *loads, *rooms])

    def test_by_commands_in_json(self):
        self.replies([
            (command(KEY, b'{"do":"export_frames","variant":"v1","part":0}'), json(b'{"lines":["frame,node","e,n1","f,n1","g,n1","h,n1"],"ok":"export_frames"}')),
            (command(OTHER, b'{"do":"load","variant":"v1"}'), json(b'{"lines":[],"ok":"load"}')),
            (command(KEY, b'{"do":"room","variant":"v1","frame":"h","repetition":2}'), json(b'{"lines":["0003 B 02 00 01"],"ok":"room"}')),
            (command(KEY, b'{"do":"room","variant":"v1","frame":"h","repetition":"2"}'), BAD_TEXT_REPLY),
        ])

    def test_refusals(self):
        self.replies(refusals_over_http())

    def test_numbers(self):
        self.replies(numbers_over_http())

    def test_replacements(self):
        self.replies(replacements_over_http())
        self.see("no import is kept", [], self.rows("SELECT * FROM imports"))
        self.sound()

    def test_released(self):
        self.replies([
            (command(INTEGRATOR, b'{"do":"release","variant":"v1"}'), json(DONE)),
            (put(at("rows"), KEY, GOOD), json(refused_bytes(11, "Released"), "409 Conflict")),
            (head("GET", at("frames/h/room/4"), KEY), json(refused_bytes(11, "Released"), "409 Conflict")),
            (head("GET", at("load"), KEY), text(LOAD["s1"])),
            (head("GET", at("exports/placements/0"), INTEGRATOR), csv(LINES["placements", None])),
        ])

    def test_cut(self):
        """A file whose connection ends early changes nothing, and the next one is taken."""
        whole = put(at("rows"), KEY, GOOD)
        with self.served("--count", str(len(whole) + 2)) as (server, port):
            for cut in range(len(whole)):
                self.see(f"a file cut behind {cut} bytes", b"", sent(port, whole[:cut], end=True))
            self.see("the rows are as they were", csv(LINES["placements", "s1"]), sent(port, head("GET", at("exports/placements/0"), KEY)))
            self.see("the next one is taken", json(REPLACED), sent(port, whole))
            self.ends(server)
            self.see("each cut is said", b"slotplan: Truncated\n" * len(whole), each_line(server.stderr.read()))


class Keys(RevisingCase):
    """A supplier's key is changed: from the next connection on the old one is nobody's, and so it stays when the file was closed and opened again."""

    def test_over_http(self):
        change = b'{"do":"set_key","supplier":"%s","key":"%s"}'
        grants = "/v1/variants/v1/load"
        conflict, unprocessable = "409 Conflict", "422 Unprocessable Entity"
        self.in_turn("car.db", [
            (command(KEY, change % (b"s1", b"supplier09")), json(refused_bytes(3, "NotYours"), "403 Forbidden")),
            (command(INTEGRATOR, change % (b"s1", b"short")), json(refused_bytes(30, "BadKey"), unprocessable)),
            (command(INTEGRATOR, change % (b"s9", b"supplier02")), json(refused_bytes(14, "NoSupplier"), "404 Not Found")),
            *((command(INTEGRATOR, change % (b"s1", key)), json(refused_bytes(31, "KeyTaken"), conflict)) for key in (b"supplier01", b"supplier02", b"integrator1")),
            (head("GET", grants, KEY), text(LOAD["s1"])),
            (command(INTEGRATOR, change % (b"s1", b"supplier09")), json(DONE)),
            (head("GET", grants, KEY), UNKNOWN),
            (head("GET", grants, "supplier09"), text(LOAD["s1"])),
        ])
        self.see("suppliers in the file", [("s1", "supplier09"), ("s2", "supplier02")], self.rows("SELECT * FROM suppliers ORDER BY name"))
        self.in_turn("car.db", [
            (head("GET", grants, KEY), UNKNOWN),
            (head("GET", grants, "supplier09"), text(LOAD["s1"])),
            (command(INTEGRATOR, change % (b"s2", b"supplier01")), json(DONE)),
            (head("GET", grants, KEY), text(b"")),
            (put(at("rows"), KEY, b"frame,node\n"), json(b'{"ok":"replaced","rows":0}')),
        ])
        (self.folder / "rows.csv").write_bytes(GOOD)
        self.turned_down(["replace", "car.db", OTHER, "v1", "rows.csv"], refused_bytes(2, "UnknownKey"))
        self.tell(["replace", "car.db", "supplier09", "v1", "rows.csv"], REPLACED + b"\n")
        self.frames_are(REVISED)
        self.see("suppliers in the file", [("s1", "supplier09"), ("s2", "supplier01")], self.rows("SELECT * FROM suppliers ORDER BY name"))
        self.sound()

    def test_longest_key(self):
        longest = "k" * 64
        self.ask(request(INTEGRATOR, "set_key", supplier="s2", key=longest).encode(), DONE + b"\n")
        self.ask(f'{longest} {{"do":"load","variant":"v1"}}'.encode(), b'{"lines":[],"ok":"load"}\n')
        self.ask(request(INTEGRATOR, "set_key", supplier="s2", key=longest + "k").encode(), refused_bytes(30, "BadKey") + b"\n")
