"""Files that are sent whole: what they do not name is gone, of their kind alone. As requests, by commands and over HTTP, and what is promised of them.

What is wanted was typed by hand from docs/FORMATS.md and docs/HTTP.md, is made by their rules, or comes from another register, naive.py; none of it is the
program's own output, but where what it exports is given back to it."""
import json
from itertools import product

from tests.drivers.connections import each_line
from tests.drivers.invocations import Invocation, InvocationCase, difference
from tests.drivers.program import ran
from tests.drivers.registers import RegisterCase
from tests.drivers.server import sent
from tests.models import messages, naive
from tests.models.messages import CONTINUE, DONE, UNKNOWN, command, csv, engine, head, put, text
from tests.models.messages import refused as refused_bytes
from tests.models.random_scripts import random_script
from tests.models.scripts import FRAMES, IMPORT_BYTES, IMPORT_ROWS, LARGE, answers, done, refused_row, request, script, suppliers
from tests.runner.parameters import for_values

INTEGRATOR, KEY, OTHER = "integrator1", "supplier01", "supplier02"
IN_V1 = dict(variant="v1")
HEADERS = {"frames": "frame,node", "placements": "frame,node,slot,channels,base,repetition", "signals": "frame,signal,start,length,order"}

# Of each of two suppliers three frames with placements and signals.
PLANNED = [
    done(INTEGRATOR, "open_variant", **IN_V1),
    *(done(INTEGRATOR, "add_node", supplier=supplier, node=node) for supplier in ("s1", "s2") for node in ("n1", "n2")),
    *(done(INTEGRATOR, "grant", **IN_V1, slot=slot, channel=channel, supplier="s1", node="n1") for slot in (1, 2) for channel in "AB"),
    done(INTEGRATOR, "grant", **IN_V1, slot=3, channel="A", supplier="s1", node="n2"),
    done(INTEGRATOR, "grant", **IN_V1, slot=4, channel="A", supplier="s2", node="n1"),
    *(done(KEY, "add_frame", **IN_V1, frame=frame, node="n1") for frame in ("f1", "f2", "f3")),
    done(KEY, "place", **IN_V1, frame="f1", slot=1, channels="A", base=0, repetition=2),
    done(KEY, "place", **IN_V1, frame="f2", slot=1, channels="AB", base=1, repetition=4),
    done(KEY, "place", **IN_V1, frame="f3", slot=2, channels="B", base=3, repetition=8),
    done(KEY, "add_signal", **IN_V1, frame="f1", signal="x", start=0, length=8, order="little"),
    done(KEY, "add_signal", **IN_V1, frame="f2", signal="x", start=15, length=4, order="big"),
    done(OTHER, "add_frame", **IN_V1, frame="f1", node="n1"),
    done(OTHER, "place", **IN_V1, frame="f1", slot=4, channels="A", base=0, repetition=1),
    done(OTHER, "add_signal", **IN_V1, frame="f1", signal="x", start=0, length=8, order="little"),
]
# What is there, as files; and what s2 sees.
THERE = {
    "frames": ["f1,n1", "f2,n1", "f3,n1"],
    "placements": ["f1,n1,1,A,0,2", "f2,n1,1,AB,1,4", "f3,n1,2,B,3,8"],
    "signals": ["f1,x,0,8,little", "f2,x,15,4,big"],
}
OF_S2 = b"GRANT 0004 A n1\nFRAME f1 n1\nAT f1 0004 A 00 01\nSIGNAL f1 0000 08 little x\nGAP     100 f1\n"
# Files of which each byte is cut off.
FILES = {
    "frames": '\ufeff"frame","node"\r\nf1,n1\r\n"f2",n2\r\n\r\nf5,"n1"',
    "placements": '\ufeffframe,node,slot,channels,base,repetition\r\nf1,n1,1,"A",1,4\r"f2",n1,0001,AB,02,4\n\nf4,n2,3,A,3,64\nf3,n1,2,B,1,32\n',
    "signals": 'frame,"signal",start,length,order\nf1,y,4,10,little\r\n"f3",x,0,4,little\rf2,"x",0,8,little\n',
}


def file_of(kind, records):
    return "".join(f"{line}\n" for line in [HEADERS[kind], *records])


def whole(body, variant="v1", who=KEY):
    return request(who, "replace", variant=variant, body=body, whole=True)


def tried(body, variant="v1", who=KEY):
    return request(who, "try", variant=variant, body=body, replace=True, whole=True)


# ---- beside another register


class BesideAnotherRegister(InvocationCase):
    """Files that are sent whole are answered as by another register, naive.py, and leave the same rows."""

    seconds = 20

    def asked(self, name, lines, **changes):
        given = script({**LARGE, "suppliers": suppliers(3), **changes}, [(line, None) for line in [*(line for line, _ in PLANNED), *lines]])
        self.ends(Invocation(name, given, naive.answers(given)))

    @for_values(*FILES)
    def test_cut_at_each_byte(self, kind):
        """A file that is cut anywhere is another file, of which all is carried out or nothing, and that is what a try of it tells."""
        lines = []
        for end in range(len(FILES[kind]) + 1):
            body = FILES[kind][:end]
            lines += [tried(body), whole(body), request(KEY, "rows", **IN_V1), *(whole(file_of(*it)) for it in THERE.items())]
        self.asked(f"a file of {kind}, cut", [*lines, request(INTEGRATOR, "rows", **IN_V1)])

    @for_values(*HEADERS)
    def test_headers(self, kind):
        """Below a header alone all of its kind goes; what is no header takes nothing away."""
        header, lines = HEADERS[kind], []
        others = [header + ",", "," + header, header + ",supplier", header.upper(), header.replace(",", ", "), header.replace(",", ";"), " " + header]
        others += ["\ufeff\ufeff" + header, "", "\n", "\ufeff", '"', '"' + header + '"', "\ufeff" + header, header + "\r", "\n\n" + header]
        for other, rows in product(others, ("", "\nf1,n1\n", "\nf1,n1,1,A,1,4\n", "\nf1,x,0,1,little\n")):
            body = other + rows
            lines += [tried(body), whole(body), request(KEY, "rows", **IN_V1), *(whole(file_of(*it)) for it in THERE.items())]
        self.asked(f"headers near {header}", lines)

    def test_rows_and_bytes(self):
        """As many rows and bytes as a file may have, and one more: then nothing has gone."""
        rows = [f"g{n // 8:03},n1,{1 + n // 256},{'AB'[n // 128 % 2]},{n % 64},64" for n in range(IMPORT_ROWS) if n % 128 < 64]
        rows += [f"g{n // 8:03},n2,3,A,{n % 64},64" for n in range(IMPORT_ROWS, IMPORT_ROWS + 64)]
        signals = [f"f{1 + n % 3},x{n},{n},1,little" for n in range(192)]
        placed = file_of("placements", rows)
        bodies = [
            placed, placed + "\n" * (IMPORT_BYTES - len(placed)), placed + "\n" * (IMPORT_BYTES + 1 - len(placed)), file_of("placements", [*rows, "none"]),
            file_of("placements", rows[:1]), HEADERS["placements"] + "\n" * (IMPORT_BYTES - len(HEADERS["placements"])), "\u00e4" * (IMPORT_BYTES // 2),
            "\u00e4" * (IMPORT_BYTES // 2) + "x", file_of("signals", signals), file_of("signals", [*signals, "f1,y,500,1,little"]),
            *(file_of("frames", [f"f{1 + n % 3},n1" for n in range(count)]) for count in (IMPORT_ROWS, IMPORT_ROWS + 1, IMPORT_ROWS + 2)),
            file_of("frames", ["f1,n1"] * IMPORT_ROWS + ["none"]),
        ]
        lines = [line for body in bodies for line in (tried(body), whole(body), request(KEY, "rows", **IN_V1))]
        self.asked("rows and bytes of files", lines)

    def test_limits(self):
        """All frames of a supplier in place of all others, and one more; eight placements and 64 signals of a frame beside those that go."""
        names = [[f"{letter}{n},n1" for n in range(FRAMES)] for letter in "gh"]
        lines = [whole(file_of("frames", rows)) for rows in (names[0], names[1], [*names[0], "more,n1"], names[1][::-1], names[1][:1], THERE["frames"])]
        eight = [f"f1,n1,2,A,{base},8" for base in range(8)]
        for rows in eight, eight[::-1], [*eight, "f1,n1,1,A,0,64"], [*eight[1:], "f1,n1,1,A,0,1"], ["f2,n1,2,A,0,1", "f1,n1,1,A,0,1"], ["f1,n1,1,A,0,2", "f2,n1,1,A,0,4"]:
            lines += [tried(file_of("placements", rows)), whole(file_of("placements", rows)), request(KEY, "frames", **IN_V1)]
        many = [f"f1,x{n},{n},1,little" for n in range(64)]
        for rows in many, many[::-1], [*many, "f1,y,64,1,big"], [*many[1:], "f1,z,0,1,little"], ["f3,x,0,64,big", "f3,x,64,1,big"]:
            lines += [tried(file_of("signals", rows)), whole(file_of("signals", rows)), request(KEY, "export_signals", **IN_V1, part=0)]
        self.asked("limits within files", lines)

    def test_refusals(self):
        """Where several refusals apply the first is answered; and `whole` of another kind, or of a try that replaces nothing, is no request."""
        lines = [request(INTEGRATOR, "open_variant", variant="v2"), request(INTEGRATOR, "release", variant="v2")]
        bodies = "", "x" * (IMPORT_BYTES + 1), "frame,node\n1f,n1\n", file_of("frames", ["f1,n1"]), FILES["placements"]
        for who, variant, body in product((INTEGRATOR, KEY, OTHER, "supplier03", "nobody123"), ("1v", "", "v9", "v2", "v1"), bodies):
            lines += [whole(body, variant, who), tried(body, variant, who)]
        for who, flag in product((INTEGRATOR, KEY, "nobody123"), (True, False, None, 0, 1, -1, 0.0, "true", "", [], [True], {}, {"whole": True})):
            for do, fields in ("replace", {}), ("try", {}), ("try", {"replace": True}), ("try", {"replace": False}), ("import", {"label": "a"}):
                lines.append(request(who, do, **IN_V1, body="frame\n", **fields, whole=flag))
            lines += [request(who, "replace", **IN_V1, body="frame\n", replace=flag), request(who, "rows", **IN_V1, whole=flag)]
        self.asked("refusals in their order", [*lines, request(INTEGRATOR, "rows", **IN_V1)])

    def test_variants_one_from_another(self):
        """In a variant that was opened from another what goes stays in its parent; and what comes again is the same row again."""
        bodies = [
            file_of("frames", ["f2,n1", "f4,n2"]), file_of("placements", ["f2,n1,1,A,3,4", "f4,n2,3,A,0,1"]), file_of("signals", ["f4,y,0,16,little"]),
            *(file_of(*it) for it in THERE.items()), file_of("frames", ["f1,n2", "f2,n1"]), file_of("signals", []), file_of("frames", []),
        ]
        lines = []
        for level in range(1, 6):
            lines += [request(INTEGRATOR, "release", variant=f"v{level}"), request(INTEGRATOR, "open_variant", variant=f"v{level + 1}", **{"from": f"v{level}"})]
            for body in bodies[level % 3 :]:
                lines += [tried(body, f"v{level + 1}"), whole(body, f"v{level + 1}"), whole(body, f"v{level}")]
                lines += [request(who, "rows", variant=f"v{n}") for who in (KEY, INTEGRATOR) for n in (level, level + 1)]
            lines += [request(OTHER, "diff", variant=f"v{level + 1}", **{"from": "v1"}), request(KEY, "diff", variant=f"v{level + 1}", **{"from": "v1"})]
            if level % 2:
                lines += [whole(file_of(*it), f"v{level + 1}") for it in THERE.items()]
        self.asked("files for variants one from another", lines)


# ---- what you take afterwards is what you sent


def fields_of(line):
    return json.loads(line.partition(b" ")[2])


class WhatYouTake(InvocationCase):
    """What you take afterwards is what you sent: behind a file that was sent whole its kind's exports have its rows, and no others. Of other kinds there is
    what was there, but for frames that went, and for those that came; others' rows stay; and the same file again changes nothing."""

    seconds = 30

    def tried(self, seed):
        """Before each such file, behind it and behind it again, all rows, and the exports of its supplier."""
        cluster, _, requests = random_script("revising", 900, 3, seed).partition(b"---\n")
        lines, files = [], []
        for line in requests.splitlines():
            asked, key = fields_of(line) if b"{" in line else {}, line.partition(b" ")[0].decode()
            if not asked.get("whole"):
                lines.append(line)
                continue
            shown = [request(INTEGRATOR, "rows", variant=asked["variant"]), *(request(key, f"export_{kind}", variant=asked["variant"], part=0) for kind in HEADERS)]
            shown = [line.encode() for line in shown]
            files.append((len(lines), asked))
            lines += [*shown, line, *shown, line, *shown]
        given = cluster + b"---\n" + b"".join(line + b"\n" for line in lines)
        status, written, said = ran(["run"], self.folder, given)
        self.see("how it ends", (0, b"", len(lines)), (status, said, written.count(b"\n")))
        self.see("how another register answers otherwise", [], difference("answers", naive.answers(given), written))
        told = [json.loads(answer) for answer in written.splitlines()]
        taken = [self.taken(told[at : at + 14], asked) for at, asked in files]
        self.see("some are carried out, and others refused", True, min(taken.count(True), taken.count(False)) > 5)

    def taken(self, told, asked):
        """Whether the file was carried out, once it was looked at."""
        before, answer, behind, again, last = told[:4], told[4], told[5:9], told[9], told[10:]
        self.see("the same file again", (answer, behind), (again, last))
        header, *records = asked["body"].splitlines()
        if answer.get("ok") != "replaced":
            self.see("behind a refused file", before, behind)
            return False
        kinds = list(HEADERS)
        at = list(HEADERS.values()).index(header)
        sent_rows = {",".join(str(int(it)) if it.isdigit() else it for it in record.split(",")) for record in records}
        self.see(f"{kinds[at]} behind the file", sorted(sent_rows), sorted(behind[1 + at]["lines"][1:]))
        old, new = ({kind: part["lines"][1:] for kind, part in zip(kinds, parts[1:])} for parts in (before, behind))
        stays = set(old["frames"]) & set(new["frames"])
        if kinds[at] == "frames":
            names = {row.partition(",")[0] for row in stays}
            for kind in "placements", "signals":
                self.see(f"{kind} of frames that stay", [row for row in old[kind] if row.partition(",")[0] in names], new[kind])
        else:
            self.see("frames that were there", set(), set(old["frames"]) - stays)
            new_frames = {row.partition(",")[0] for row in new["frames"]} - {row.partition(",")[0] for row in old["frames"]}
            self.see("frames that came", set(), new_frames - {row.partition(",")[0] for row in records})
            other = ({"placements", "signals"} - {kinds[at]}).pop()
            self.see(f"{other} behind {kinds[at]}", old[other], new[other])
        return True

    @for_values(1, 2, 3)
    def test_mixture(self, seed):
        self.tried(seed)


# ---- over files: commands and a server


class WholeCase(RegisterCase):
    """A test over a register in which these were asked."""

    def setUp(self):
        super().setUp()
        self.create()
        self.ask("".join(f"{line}\n" for line, _ in PLANNED).encode(), answers(PLANNED))

    def exports_are(self, **files):
        for kind, records in {**THERE, **files}.items():
            self.tell(["export", "car.db", "v1", kind, "--supplier", "s1"], file_of(kind, records).encode())
        self.tell(["rows", "car.db", "v1", "--supplier", "s2"], OF_S2)

    def put_down(self, **files):
        for name, body in files.items():
            (self.folder / f"{name}.csv").write_bytes(body if isinstance(body, bytes) else body.encode())


class Commands(WholeCase):
    """`replace --whole` and `try --replace --whole` print what the requests answer; `--whole` of a try that replaces nothing is no job."""

    def test_replace(self):
        words = ["replace", "car.db", KEY, "v1"]
        self.put_down(frames=file_of("frames", ["f1,n1", "f3,n2"]), placed=file_of("placements", ["f1,n1,2,AB,0,2"]), none=HEADERS["signals"], taken=file_of("placements", ["f1,n1,1,A,0,2", "k,n1,1,A,0,4"]), empty="")
        self.turned_down([*words, "taken.csv", "--whole"], b'{"line":3,"no":29,"refused":"BadRow","row":{"channel":"A","cycle":0,"frame":"f1","no":25,"refused":"CellTaken"}}')
        self.turned_down([*words, "empty.csv", "--whole"], refused_row(1, 1, "BadText").encode())
        self.exports_are()
        for _ in range(2):
            self.tell([*words, "--whole", "frames.csv"], b'{"ok":"replaced","rows":2}\n')
            self.exports_are(frames=["f1,n1", "f3,n2"], placements=["f1,n1,1,A,0,2"], signals=["f1,x,0,8,little"])
        self.tell(["replace", "--whole", "car.db", "-", "v1", "placed.csv"], b'{"ok":"replaced","rows":1}\n', given=b"supplier01\n")
        self.exports_are(frames=["f1,n1", "f3,n2"], placements=["f1,n1,2,AB,0,2"], signals=["f1,x,0,8,little"])
        self.tell([*words, "none.csv", "--whole"], b'{"ok":"replaced","rows":0}\n')
        self.exports_are(frames=["f1,n1", "f3,n2"], placements=["f1,n1,2,AB,0,2"], signals=[])
        self.see("no import is kept", [], self.rows("SELECT * FROM imports"))
        self.sound()

    def test_try(self):
        before = (self.folder / "car.db").read_bytes()
        self.put_down(moved=file_of("placements", ["f1,n1,1,A,0,1", "f2,n1,1,A,1,2"]), nodes=file_of("frames", ["f1,n2", "f2,n1"]), none=HEADERS["frames"], empty="")
        for name, status, lines in (
            ("moved", 1, b"0002 00 done\n0003 25 CellTaken 01 A f1\n"), ("nodes", 0, b"0002 00 done\n0003 00 done\n"), ("none", 0, b""), ("empty", 1, b"0001 01 BadText\n"),
        ):
            self.tell(["try", "car.db", KEY, "v1", f"{name}.csv", "--replace", "--whole"], lines, status=status)
            self.tell(["try", "--whole", "car.db", KEY, "v1", "--replace", f"{name}.csv"], lines, status=status)
        self.tell(["try", "car.db", KEY, "v1", "nodes.csv", "--replace"], b"0002 20 NodeDiffers\n0003 00 done\n", status=1)
        self.see("the file", before, (self.folder / "car.db").read_bytes())

    def test_words_that_name_no_job(self):
        self.put_down(none=HEADERS["frames"])
        for words in (
            ["try", "car.db", KEY, "v1", "none.csv", "--whole"], ["try", "--whole", "car.db", KEY, "v1", "none.csv"], ["import", "car.db", KEY, "v1", "a", "none.csv", "--whole"],
            ["replace", "car.db", KEY, "v1", "none.csv", "--replace"], ["replace", "car.db", KEY, "v1", "none.csv", "--whole", "true"],
            ["replace", "car.db", KEY, "v1", "none.csv", "--whole=true"], ["replace", "car.db", KEY, "v1", "--whole"], ["replace", "car.db", KEY, "v1", "none.csv", "--Whole"],
        ):
            status, written, said = ran(words, self.folder)
            self.see(f"slotplan {' '.join(words)}", (2, b"", True), (status, written, said.startswith(b"error: ")))
        self.exports_are()

    def test_refused(self):
        self.put_down(frames=file_of("frames", ["f1,n1"]), long=HEADERS["frames"] + "\n" * IMPORT_BYTES, latin=b"frame,node\n\xff,n1\n")
        for words in ["replace", "car.db", "--whole"], ["try", "car.db", "--replace", "--whole"]:
            for more, refusal in (
                (["nobody123", "v1", "frames.csv"], (2, "UnknownKey")), ([INTEGRATOR, "1v", "frames.csv"], (3, "NotYours")), ([KEY, "1v", "frames.csv"], (4, "BadName")),
                ([KEY, "v9", "long.csv"], (10, "NoVariant")), ([KEY, "v1", "long.csv"], (23, "Limit")),
            ):
                self.turned_down([*words, *more], refused_bytes(*refusal))
            self.fault([*words, KEY, "v1", "none.csv"], "CannotOpen")
        self.turned_down(["replace", "car.db", KEY, "v1", "latin.csv", "--whole"], refused_row(2, 1, "BadText").encode())
        self.exports_are()
        self.ask(b'integrator1 {"do":"release","variant":"v1"}', DONE + b"\n")
        self.turned_down(["replace", "car.db", KEY, "v1", "frames.csv", "--whole"], refused_bytes(11, "Released"))


class RowsThatStay(WholeCase):
    """A row that is there and comes again is not written anew: another SQLite finds it under the number that it had."""

    TEXTS = {"frames": "name || ',' || node", "placements": "frame || ',' || slot || channels || base", "signals": "frame || ',' || name || start"}

    def numbered(self):
        """Of each table the supplier's rows, by their numbers."""
        return {table: dict(self.rows(f"SELECT rowid, {row} FROM {table} WHERE supplier = 's1'")) for table, row in self.TEXTS.items()}

    def sends(self, kind, records, **flags):
        line = request(KEY, "replace", **IN_V1, body=file_of(kind, records), **flags)
        self.ask(line.encode(), b'{"ok":"replaced","rows":%d}\n' % len(records))

    def test_what_is_there(self):
        """What is there already leaves the file as it is, byte by byte."""
        before = (self.folder / "car.db").read_bytes()
        for (kind, records), flags in product(THERE.items(), ({}, {"whole": True})):
            self.sends(kind, records[::-1], **flags)
            self.see(f"whether the file stays behind {kind} {flags}", True, before == (self.folder / "car.db").read_bytes())

    def test_one_that_changes(self):
        """The rows of f1 go, and another comes, behind those that stay, in another order."""
        for kind, new in ("frames", "f4,n1"), ("placements", "f1,n1,2,A,0,2"), ("signals", "f1,y,0,8,little"):
            before = self.numbered()
            self.sends(kind, [*THERE[kind][:0:-1], new], whole=True)
            after = self.numbered()
            for table, rows in before.items():
                stay = {number: row for number, row in rows.items() if not row.startswith("f1,") or kind not in (table, "frames")}
                self.see(f"{table} that stay behind {kind}", stay, {number: row for number, row in after[table].items() if number in stay})
            for whole_file in THERE.items():
                self.sends(*whole_file, whole=True)
            self.exports_are()


ROWS, TRIES = "/v1/variants/v1/rows/whole", "/v1/variants/v1/tries/whole"


def json_refused(number, name, status):
    return messages.json(refused_bytes(number, name), status)


def whole_over_http(path, good, bad):
    """A file that fits, with its reply, one that does not, and what is no such request."""
    (fits, reply), (other, no_reply) = good, bad
    yield put(path, KEY, other), no_reply
    yield put(path, KEY, fits), reply
    yield put(path, KEY, fits, "Expect: 100-continue"), CONTINUE + reply
    yield put(path + "?whole=false", KEY, fits), reply
    yield put(path, KEY, fits + b"\n" * (IMPORT_BYTES - len(fits))), reply
    yield put(path, INTEGRATOR, fits), json_refused(3, "NotYours", "403 Forbidden")
    for key in None, "nobody123":
        yield put(path, key, fits), UNKNOWN
    yield put(path.replace("v1/variants/v1", "v1/variants/1v"), KEY, fits), json_refused(4, "BadName", "422 Unprocessable Entity")
    yield put(path.replace("v1/variants/v1", "v1/variants/v9"), KEY, fits), json_refused(10, "NoVariant", "404 Not Found")
    yield head("PUT", path, KEY), engine("411 Length Required")
    yield head("PUT", path, KEY, f"Content-Length: {IMPORT_BYTES + 1}") + b"x" * (IMPORT_BYTES + 1), engine("413 Payload Too Large")
    for length in "1a", "", "-1", "+1":
        yield head("PUT", path, KEY, f"Content-Length: {length}"), engine("400 Bad Request")
    yield head("PUT", path, KEY, "Content-Length: 1", "Content-Length: 1"), engine("400 Bad Request")
    yield head("PUT", path, KEY, "Transfer-Encoding: chunked"), engine("501 Not Implemented")
    for method in "GET", "POST", "DELETE", "HEAD", "put":
        yield head(method, path, KEY), engine("405 Method Not Allowed", "allow: PUT")
    for other in path + "/", path + "/0", path + "s", path.replace("whole", "Whole"), path.replace("v1/variants/v1/", "v1/variants/"):
        yield put(other, KEY, fits), engine("404 Not Found")


class OverHttp(WholeCase):
    """A server takes a file whole, and tells its fates; a connection that ends early changes nothing."""

    def test_replacements(self):
        good = file_of("frames", ["f1,n1", "f4,n1"]).encode()
        taken = json.dumps({"line": 2, "no": 29, "refused": "BadRow", "row": {"no": 21, "refused": "NotGranted"}}, separators=(",", ":")).encode()
        bad = file_of("placements", ["f1,n1,3,A,0,2"]).encode(), messages.json(taken, "422 Unprocessable Entity")
        self.in_turn("car.db", list(whole_over_http(ROWS, (good, messages.json(b'{"ok":"replaced","rows":2}')), bad)))
        self.exports_are(frames=["f1,n1", "f4,n1"], placements=["f1,n1,1,A,0,2"], signals=["f1,x,0,8,little"])
        self.see("no import is kept", [], self.rows("SELECT * FROM imports"))
        self.sound()

    def test_tries(self):
        good = file_of("placements", ["f1,n1,1,A,0,1"]).encode(), messages.lines("try", b"0002 00 done\n")
        bad = file_of("placements", ["f1,n1,3,A,0,2", "f1,n1,1,A,1,2"]).encode(), messages.lines("try", b"0002 21 NotGranted\n0003 00 done\n")
        self.in_turn("car.db", list(whole_over_http(TRIES, good, bad)))
        self.exports_are()

    def test_by_commands_in_json(self):
        body = json.dumps(file_of("signals", ["f3,x,0,8,little"])).encode()
        self.in_turn("car.db", [
            (command(KEY, b'{"do":"try","variant":"v1","body":%s,"whole":true}' % body), json_refused(1, "BadText", "400 Bad Request")),
            (command(KEY, b'{"do":"replace","variant":"v1","body":%s,"whole":"true"}' % body), json_refused(1, "BadText", "400 Bad Request")),
            (command(KEY, b'{"do":"try","variant":"v1","body":%s,"replace":true,"whole":true}' % body), messages.lines("try", b"0002 00 done\n")),
            (command(KEY, b'{"do":"replace","variant":"v1","body":%s,"whole":true}' % body), messages.json(b'{"ok":"replaced","rows":1}')),
            (head("GET", "/v1/variants/v1/exports/signals/0", KEY), csv(file_of("signals", ["f3,x,0,8,little"]).encode())),
            (head("GET", "/v1/variants/v1/rows", OTHER), text(OF_S2)),
            (command(INTEGRATOR, b'{"do":"release","variant":"v1"}'), messages.json(DONE)),
            (put(ROWS, KEY, b"frame,node\n"), json_refused(11, "Released", "409 Conflict")),
            (put(TRIES, KEY, b"frame,node\n"), json_refused(11, "Released", "409 Conflict")),
        ])

    def test_cut(self):
        """A file whose connection ends early takes nothing away, and the next one is taken."""
        request = put(ROWS, KEY, b"frame,node\nf1,n1\n")
        with self.served("--count", str(len(request) + 1)) as (server, port):
            for cut in range(len(request)):
                self.see(f"a file cut behind {cut} bytes", b"", sent(port, request[:cut], end=True))
            self.see("the next one is taken", messages.json(b'{"ok":"replaced","rows":1}'), sent(port, request))
            self.ends(server)
            self.see("each cut is said", b"slotplan: Truncated\n" * len(request), each_line(server.stderr.read()))
        self.exports_are(frames=["f1,n1"], placements=["f1,n1,1,A,0,2"], signals=["f1,x,0,8,little"])


# ---- weeks of a supplier


class Weeks(WholeCase):
    """A supplier keeps each week's exports, sends revised spreadsheets whole, and goes back to last week by three files."""

    def taken(self):
        """The three files of what is there."""
        return {kind: ran(["export", "car.db", "v1", kind, "--supplier", "s1"], self.folder)[1].decode() for kind in HEADERS}

    def sends(self, kind, body, rows):
        self.put_down(sheet=body)
        self.tell(["try", "car.db", KEY, "v1", "sheet.csv", "--replace", "--whole"], "".join(f"{line:04} 00 done\n" for line in range(2, rows + 2)).encode())
        self.tell(["replace", "car.db", KEY, "v1", "sheet.csv", "--whole"], b'{"ok":"replaced","rows":%d}\n' % rows)
        self.see(f"what is taken of the {kind} that were sent", sorted(body.splitlines()), sorted(self.taken()[kind].splitlines()))

    def test_back_to_last_week(self):
        last_week = self.taken()
        # a frame is taken out, one is renamed, one moves to another node, and one is new
        self.sends("frames", file_of("frames", ["f1,n2", "f2b,n1", "f4,n1"]), 3)
        self.exports_are(frames=["f1,n2", "f2b,n1", "f4,n1"], placements=[], signals=[])
        self.sends("placements", file_of("placements", ["f1,n2,3,A,0,1", "f2b,n1,1,AB,1,4", "f4,n1,1,A,0,2"]), 3)
        self.sends("signals", file_of("signals", ["f2b,x,15,4,big", "f4,x,0,8,little", "f4,y,8,8,little"]), 3)
        for kind, body in last_week.items():
            self.sends(kind, body, body.count("\n") - 1)
        self.exports_are()
        for kind, body in last_week.items():
            self.sends(kind, body, body.count("\n") - 1)
        self.exports_are()
        self.sound()

    def test_one_row_of_a_sheet(self):
        """A row is deleted, another is changed, and the sheet is sent whole: what was deleted is gone."""
        self.sends("placements", file_of("placements", ["f1,n1,1,A,0,2", "f2,n1,1,AB,1,8"]), 2)
        self.exports_are(placements=["f1,n1,1,A,0,2", "f2,n1,1,AB,1,8"])
        self.sends("signals", file_of("signals", ["f2,x,15,4,big"]), 1)
        self.exports_are(placements=["f1,n1,1,A,0,2", "f2,n1,1,AB,1,8"], signals=["f2,x,15,4,big"])
        self.sends("frames", file_of("frames", ["f1,n1", "f2,n1"]), 2)
        self.exports_are(frames=["f1,n1", "f2,n1"], placements=["f1,n1,1,A,0,2", "f2,n1,1,AB,1,8"], signals=["f2,x,15,4,big"])
