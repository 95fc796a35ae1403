"""The built program, refused memory.

A small library that cc makes, loaded before the C library, refuses one allocation of a run: the first, the second, .. until none is refused, or every so
many, others in each test.

The answers that are right are those that were typed by hand beside the scripts, or, without a request, those of naive.py, a register that python3's
sqlite3 keeps."""
import functools
import json
import shutil
import sqlite3
from contextlib import closing
from typing import NamedTuple

from tests import TOP
from tests.drivers.preload import Refuser, calls_from
from tests.drivers.program import SECONDS, ran
from tests.drivers.registers import RegisterCase
from tests.drivers.server import sent
from tests.drivers.states import ALL, BOOKS, schema_in
from tests.models import messages, naive, schema1
from tests.models.messages import DONE, FIGURE_LINES, UNKNOWN, command, csv, engine, head, post, put, refused, text
from tests.models.picture import compare
from tests.runner.case import Case
from tests.runner.parameters import for_each

UNAVAILABLE = refused(28, "Unavailable")
NO_MEMORY, NOT_MADE, READ_FAILED = b"slotplan: NoMemory\n", b"slotplan: Unavailable\n", b"slotplan: ReadFailed\n"


class RefusedCase(Case):
    """A test that refuses a run each allocation in turn."""

    is_apart = in_memory = True
    step = 120

    def setUp(self):
        super().setUp()
        self.refuser = Refuser(self.folder)

    def each_refused(self, runs, well, behind=False):
        """What each run gives that is refused an allocation, by what its environment has more; the last run, which is refused none, ends well."""
        for tried, call in enumerate(calls_from(self.turn, self.each)):
            got = runs(self.refuser.refusing(call, behind))
            if not self.refuser.has_acted():
                self.see("it is refused memory, and then no more", (True, well), (tried > 0, got))
                print(f"{tried} allocations refused", flush=True)
                return
            yield f"allocation {call} refused", got


# ---- scripts


class Script:
    """A script with its answers, and with those of the register that was not asked one of its requests."""

    def __init__(self, name):
        self.given = (TOP / f"{name}.script").read_bytes()
        self.answers = (TOP / f"{name}.answers").read_bytes().splitlines(keepends=True)
        cluster, end, requests = self.given.partition(b"\n---\n")
        self.start, self.requests = cluster + end, [line + b"\n" for line in requests.split(b"\n") if line]

    @functools.cache
    def answers_without(self, line):
        """The lines that are right where this one was Unavailable."""
        script = self.start + b"".join(self.requests[:line] + self.requests[line + 1 :])
        got = naive.answers(script).splitlines(keepends=True)
        return [*got[:line], UNAVAILABLE + b"\n", *got[line:]]

    def may_be_unavailable(self, line):
        """Whether the request is not refused by its text, or for its key."""
        return json.loads(self.answers[line]).get("no", 28) > 8

    def right(self, written):
        """The answers that are right where these were written, or None."""
        lines = [line for line, answer in enumerate(written) if answer == UNAVAILABLE + b"\n"]
        if not lines:
            return self.answers
        return self.answers_without(lines[0]) if len(lines) == 1 and self.may_be_unavailable(lines[0]) else None

    def may_end(self, ended):
        """Whether a run in which an allocation was refused ended as it may."""
        status, out, said = ended
        written = out.splitlines(keepends=True)
        right = self.right(written)
        if (status, said) == (0, b""):
            return written == right
        if (status, said) == (1, NO_MEMORY):
            return right is not None and written == right[: len(written)]
        return (status, out, said) == (1, b"", NOT_MADE)


# Scripts whose answers stand beside them: the first one, signals, imports, and variants opened one from another.
@for_each([
    ("first", "examples/first"),
    ("both_orders", "tests/rows/both_orders"),
    ("import_refused", "tests/rows/import_refused"),
    ("import_comes_again", "tests/rows/import_comes_again"),
    ("import_files", "tests/rows/import_files"),
    ("release_and_open", "tests/rows/release_and_open"),
    ("rows_as_files", "tests/rows/rows_as_files"),
    ("a_revised_file", "tests/rows/a_revised_file"),
    ("room_and_load", "tests/rows/room_and_load"),
    ("keys_changed", "tests/rows/keys_changed"),
    ("differences", "tests/rows/differences_of_each_kind"),
    ("tries", "tests/rows/tries"),
    ("tries_of_replacements", "tests/rows/tries_of_replacements"),
    ("rows", "tests/rows/rows_of_a_variant"),
    ("whole", "tests/rows/whole_replacements"),
    ("flat", "tests/rows/flat_openings"),
])
class Scripts(RefusedCase):
    """A script's run that is refused memory answers one request Unavailable, none that is refused by its text, or ends with a word behind right lines.

    Each other line is answered as by the register without that request. Where the register could not be made nothing is written."""

    def tried(self, name):
        script = Script(name)
        well = 0, b"".join(script.answers), b""
        self.see(name, well, ran(["run"], self.folder, script.given))
        for what, ended in self.each_refused(lambda more: ran(["run"], self.folder, script.given, more), well):
            self.see(what, True, script.may_end(ended) or ended)


# ---- a register's file


TABLES = "suppliers", "variants", "nodes", "grants", "frames", "placements", "signals", "dropped", "imports"

BASE = [
    ("integrator1", b'{"do":"open_variant","variant":"v0"}'),
    ("integrator1", b'{"do":"release","variant":"v0"}'),
    ("integrator1", b'{"do":"open_variant","variant":"v1"}'),
    ("integrator1", b'{"do":"add_node","supplier":"s1","node":"n1"}'),
    ("integrator1", b'{"do":"grant","variant":"v1","slot":1,"channel":"A","supplier":"s1","node":"n1"}'),
    ("integrator1", b'{"do":"grant","variant":"v1","slot":2,"channel":"A","supplier":"s1","node":"n1"}'),
    ("supplier01", b'{"do":"add_frame","variant":"v1","frame":"f1","node":"n1"}'),
    ("supplier01", b'{"do":"place","variant":"v1","frame":"f1","slot":1,"channels":"A","base":0,"repetition":64}'),
    ("supplier01", b'{"do":"add_signal","variant":"v1","frame":"f1","signal":"speed","start":0,"length":8,"order":"little"}'),
]
ROWS = b"frame,node,slot,channels,base,repetition\nf1,n1,1,A,1,64\nf2,n1,1,A,2,4\n"


def rows_in(file):
    """What a register file has, and whether SQLite finds it sound."""
    with closing(sqlite3.connect(file)) as register:
        is_sound = register.execute("PRAGMA integrity_check").fetchall() == [("ok",)] and not register.execute("PRAGMA foreign_key_check").fetchall()
        return is_sound, {table: sorted(register.execute(f"SELECT * FROM {table}").fetchall(), key=repr) for table in TABLES}


class FileCase(RefusedCase, RegisterCase):
    """A test over a register file, which each run begins with anew."""

    def setUp(self):
        super().setUp()
        self.car, self.kept = self.folder / "car.db", self.folder / "kept"
        (self.folder / "rows.csv").write_bytes(ROWS)
        self.create()
        self.ask(b"".join(key.encode() + b" " + line + b"\n" for key, line in BASE), (DONE + b"\n") * len(BASE))
        self.kept.write_bytes(self.car.read_bytes())

    def anew(self):
        for file in self.folder.glob("*.db*"):
            file.unlink()
        shutil.copy(self.kept, self.car)

    def replies(self, requests, more=None):
        """The replies to these requests, and how the server ended."""
        with self.served("--count", str(len(requests)), env=more) as (server, port):
            replies = [sent(port, data) for data in requests]
            return replies, (server.wait(SECONDS), server.stderr.read())

    def perform(self, words, more=None, given=b""):
        """What a command prints, and the rows."""
        self.anew()
        return ran(words, self.folder, given, more), rows_in(self.car)


# ---- requests to a server


FRAMES = head("GET", "/v1/variants/v1/frames", "integrator1")
UNAVAILABLE_REPLY = messages.json(UNAVAILABLE, "503 Service Unavailable")
IMPORTED, REPLACED = b'{"ok":"imported","rows":2}', b'{"ok":"replaced","rows":2}'
CHANGES = DONE_REPLY, IMPORTED_REPLY, REPLACED_REPLY = [messages.json(answer) for answer in (DONE, IMPORTED, REPLACED)]
PLACED, SIGNALS = b"frame,node,slot,channels,base,repetition\nf1,n1,1,A,0,64\n", b"frame,signal,start,length,order,supplier\nf1,speed,0,8,little,s1\n"
TRIED = b"frame,node,slot,channels,base,repetition\nf1,n1,1,A,0,32\nf2,n1,1,A,0,64\nf2,n2,1,A,2,4\nf3,n1,2,A,0,1\n"
FATES = b"0002 25 CellTaken 00 A f1\n0003 25 CellTaken 00 A f1\n0004 15 NoNode\n0005 00 done\n"
REPLACING_FATES = FATES.replace(b"0002 25 CellTaken 00 A f1", b"0002 00 done")
SEEN = b"GRANT 0001 A n1\nGRANT 0002 A n1\nFRAME f1 n1\nAT f1 0001 A 00 64\nSIGNAL f1 0000 08 little speed\nGAP    6400 f1\n"
DIFFERENCE = b"".join(b"+ %s\n" % row for row in SEEN.splitlines())
TURNED_ROUND = DIFFERENCE.replace(b"+", b"-").replace(b"\n", b" s1\n")
LOAD, ROOM = b"0001 A 01 64 n1\n0002 A 00 64 n1\n", b"0001 A 02 01\n0002 A 02 00 01\n"

OF_INTEGRATOR = {
    "open_variant": b'{"do":"open_variant","variant":"v2"}',
    "open_variant_from": b'{"do":"open_variant","variant":"v2","from":"v0"}',
    "open_variant_flat": b'{"do":"open_variant","variant":"v2","from":"v0","flat":true}',
    "release": b'{"do":"release","variant":"v1"}',
    "add_supplier": b'{"do":"add_supplier","supplier":"s3","key":"supplier03"}',
    "set_key": b'{"do":"set_key","supplier":"s2","key":"supplier09"}',
    "add_node": b'{"do":"add_node","supplier":"s2","node":"n2"}',
    "grant": b'{"do":"grant","variant":"v1","slot":3,"channel":"B","supplier":"s1","node":"n1"}',
    "revoke": b'{"do":"revoke","variant":"v1","slot":2,"channel":"A","supplier":"s1"}',
}
OF_SUPPLIER = {
    "add_frame": b'{"do":"add_frame","variant":"v1","frame":"f2","node":"n1"}',
    "drop_frame": b'{"do":"drop_frame","variant":"v1","frame":"f1"}',
    "place": b'{"do":"place","variant":"v1","frame":"f1","slot":1,"channels":"A","base":1,"repetition":64}',
    "unplace": b'{"do":"unplace","variant":"v1","frame":"f1","slot":1,"channels":"A","base":0,"repetition":64}',
    "add_signal": b'{"do":"add_signal","variant":"v1","frame":"f1","signal":"level","start":8,"length":8,"order":"little"}',
    "drop_signal": b'{"do":"drop_signal","variant":"v1","frame":"f1","signal":"speed"}',
}


def asked():
    """One request of each kind on the base, and what is refused, each with its name and its right reply."""
    for key, lines in ("integrator1", OF_INTEGRATOR), ("supplier01", OF_SUPPLIER):
        for name, line in lines.items():
            yield name, command(key, line), DONE_REPLY
    yield "import", post("/v1/variants/v1/imports/week1", "supplier01", ROWS), IMPORTED_REPLY
    yield "replace", put("/v1/variants/v1/rows", "supplier01", ROWS), REPLACED_REPLY
    yield "replace_whole", put("/v1/variants/v1/rows/whole", "supplier01", ROWS), REPLACED_REPLY
    yield "frames_whole", put("/v1/variants/v1/rows/whole", "supplier01", b"frame,node\nf2,n1\nf3,n1\n"), REPLACED_REPLY
    yield "try", post("/v1/variants/v1/tries", "supplier01", TRIED), messages.lines("try", FATES)
    yield "try_to_replace", put("/v1/variants/v1/tries", "supplier01", TRIED), messages.lines("try", REPLACING_FATES)
    yield "try_whole", put("/v1/variants/v1/tries/whole", "supplier01", TRIED), messages.lines("try", REPLACING_FATES)
    yield "diff", head("GET", "/v1/variants/v1/since/v0", "supplier01"), text(DIFFERENCE)
    yield "diff_of_all", head("GET", "/v1/variants/v0/since/v1", "integrator1"), text(TURNED_ROUND)
    yield "cluster", head("GET", "/v1/cluster", "supplier01"), text(FIGURE_LINES + b"supplier s1\n")
    yield "variants", head("GET", "/v1/variants", "supplier01"), text(b"v0 - 1 released\nv1 - 1 open\n")
    yield "nodes", head("GET", "/v1/nodes", "supplier01"), text(b"n1\n")
    yield "nodes_of_all", head("GET", "/v1/nodes", "integrator1"), text(b"n1 s1\n")
    variant = "/v1/variants/v1"
    yield "grants", head("GET", f"{variant}/grants", "supplier01"), text(b"0001 A n1\n0002 A n1\n")
    yield "frames", head("GET", f"{variant}/frames", "supplier01"), text(b"FRAME f1 n1\nAT 0001 A 00 64\n")
    yield "schedule", head("GET", f"{variant}/schedule", "supplier01"), text(b"00 0001 A f1 n1\n")
    yield "schedule_of_all", head("GET", f"{variant}/schedule", "integrator1"), text(b"00 0001 A f1 n1 s1\n")
    yield "gaps", head("GET", f"{variant}/gaps", "supplier01"), text(b"GAP    6400 f1\n")
    yield "layout", head("GET", f"{variant}/frames/f1/layout", "supplier01"), text(b"0000 08 little speed\n")
    yield "load", head("GET", f"{variant}/load", "supplier01"), text(LOAD)
    yield "room", head("GET", f"{variant}/frames/f1/room/2", "supplier01"), text(ROOM)
    yield "rows", head("GET", f"{variant}/rows", "supplier01"), text(SEEN)
    yield "rows_of_all", head("GET", f"{variant}/rows", "integrator1"), text(SEEN.replace(b"\n", b" s1\n"))
    yield "export", head("GET", f"{variant}/exports/placements/0", "supplier01"), csv(PLACED)
    yield "export_of_all", head("GET", f"{variant}/exports/signals/0", "integrator1"), csv(SIGNALS)
    yield "query_in_JSON", command("supplier01", b'{"do":"schedule","variant":"v1"}'), messages.json(b'{"lines":["00 0001 A f1 n1"],"ok":"schedule"}')
    yield "refused_one", command("supplier01", BASE[6][1]), messages.json(refused(19, "Exists"), "409 Conflict")
    yield "of_nobody", head("GET", f"{variant}/frames", "nobody123"), UNKNOWN
    yield "of_no_route", head("GET", "/v1/nothing", "supplier01"), engine("404 Not Found")


@for_each(asked())
class Requests(FileCase):
    """A request to a server that is refused memory is carried out and answered, or is Unavailable and changes nothing; the next one is served.

    Or there is no reply, the word NoMemory is said, and the register is the one before the request or the one after it. Where the memory was that for
    what came in, before the request was complete, the word is ReadFailed, and the register is the one before it."""

    def serve(self, data, more=None):
        """The reply to the request, then that to a query, how the server ended, and the rows."""
        self.anew()
        (reply, shown), ended = self.replies([data, FRAMES], more)
        return reply, ended, (rows_in(self.car), shown)

    def tried(self, data, right):
        self.anew()
        (shown,), _ = self.replies([FRAMES])
        before = rows_in(self.car), shown
        reply, ended, after = self.serve(data)
        self.see("it", (right, (0, b""), True), (reply, ended, after[0][0]))
        self.see("whether it changes the rows", right in CHANGES, after[0] != before[0])
        states = {right: [after], UNAVAILABLE_REPLY: [before], b"": [before, after]}
        for what, (reply, ended, found) in self.each_refused(lambda more: self.serve(data, more), (right, (0, b""), after), behind=True):
            said = b"" if reply else READ_FAILED if READ_FAILED in ended[1] else NO_MEMORY
            ends = (0, said), (1, said + NOT_MADE)  # or the register failed to close
            stands = [before] if said == READ_FAILED else states.get(reply, [])
            self.see(what, True, (found in stands and ended in ends) or (reply, ended, found))

    def test_picture(self):
        """How its page looks is no format, so the right one is that of the command, which is compared with the plan below."""
        self.anew()
        _, page, _ = ran(["picture", "car.db", "v1"], self.folder)
        self.tried(head("GET", "/v1/variants/v1/picture", "integrator1"), messages.html(page))


# ---- commands on files


class CommandCase(FileCase):
    """A test of a command on the file."""

    def each_of(self, words, right):
        """Refuses its allocations; gives how it ended, after each."""
        self.anew()
        before = rows_in(self.car)
        ended, after = self.perform(words)
        self.see("it", ((0, right, b""), True), (ended, after[0]))
        self.see("whether it changes the rows", words[0] in ("import", "replace"), after != before)
        lacks, fails, is_refused = (1, b"", NO_MEMORY), (1, b"", NOT_MADE), (1, b"", UNAVAILABLE + b"\n")
        ends, not_closed = (0, right, b""), (1, right, NOT_MADE)
        wanted = {ends: [after], not_closed: [after], lacks: [before, after], fails: [before], is_refused: [before]}
        for what, (ended, rows) in self.each_refused(lambda more: self.perform(words, more), ((0, right, b""), after)):
            self.see(what, True, rows in wanted.get(ended, []) or (ended, rows))
            yield ended


# What the page of a picture shows of the base, as `compare` takes it.
PLAN = {
    "channels": "AB",
    "slots": 4,
    "cycles": 64,
    "suppliers": ["s1", "s2"],
    "viewer": None,
    "grants": [(1, "A", "n1", "s1"), (2, "A", "n1", "s1")],
    "cells": [(0, 1, "A", "f1", "n1", "s1")],
    "frames": [("f1", "n1", "s1", [("1", "A", "0/64")], "6400")],
    "layouts": {("s1", "f1"): [("speed", 0, 8, "little")]},
}


@for_each([
    ("schedule", ["schedule", "car.db", "v1"], b"00 0001 A f1 n1 s1\n"),
    ("gaps", ["gaps", "car.db", "v1"], b"GAP    6400 f1 s1\n"),
    ("cluster", ["cluster", "car.db"], FIGURE_LINES + b"supplier s1\nsupplier s2\n"),
    ("variants", ["variants", "car.db"], b"v0 - 1 released\nv1 - 1 open\n"),
    ("nodes", ["nodes", "car.db"], b"n1 s1\n"),
    ("load", ["load", "car.db", "v1", "--supplier", "s1"], LOAD),
    ("room", ["room", "car.db", "v1", "f1", "2", "--supplier", "s1"], ROOM),
    ("export", ["export", "car.db", "v1", "signals"], SIGNALS),
    ("rows", ["rows", "car.db", "v1", "--supplier", "s1"], SEEN),
    ("diff", ["diff", "car.db", "v0", "v1", "--supplier", "s1"], DIFFERENCE),
    ("diff_of_all", ["diff", "car.db", "v1", "v0"], TURNED_ROUND),
    ("try", ["try", "car.db", "supplier01", "v1", "rows.csv"], b"0002 00 done\n0003 00 done\n"),
    ("try_to_replace", ["try", "car.db", "supplier01", "v1", "rows.csv", "--replace"], b"0002 00 done\n0003 00 done\n"),
    ("import", ["import", "car.db", "supplier01", "v1", "week1", "rows.csv"], IMPORTED + b"\n"),
    ("replace", ["replace", "car.db", "supplier01", "v1", "rows.csv"], REPLACED + b"\n"),
    ("replace_whole", ["replace", "car.db", "supplier01", "v1", "rows.csv", "--whole"], REPLACED + b"\n"),
    ("try_whole", ["try", "car.db", "supplier01", "v1", "rows.csv", "--replace", "--whole"], b"0002 00 done\n0003 00 done\n"),
])
class Commands(CommandCase):
    """A command that is refused memory prints the right text, or ends with a word or the refusal Unavailable and leaves the rows as before or after it."""

    def tried(self, words, right):
        for _ in self.each_of(words, right):
            pass

    def test_picture(self):
        """How its page looks is no format, so the right one is that which shows the plan where memory is ample."""
        words = ["picture", "car.db", "v1"]
        (_, page, _), _ = self.perform(words)
        self.see("what is wrong with the page", [], compare(page.decode(), PLAN))
        self.tried(words, page)


class Creating(CommandCase):
    """Where `create` is refused memory, a register is made, or what is left can be made one."""

    def test_create(self):
        words = ["create", "new.db", "cluster.toml"]
        for ended in self.each_of(words, b""):
            new = self.folder / "new.db"
            if ended[0] == 0:
                self.see("a register was made", 2, len(rows_in(new)[1]["suppliers"]))
            again = ran(words, self.folder)
            self.see("what was left is a register, or can be made one", True, again in ((0, b"", b""), (1, b"", b"slotplan: NotEmpty\n")) or again)
            is_sound, rows = rows_in(new)
            self.see("a new register", (True, []), (is_sound, rows["variants"]))


class Line(NamedTuple):
    """A line of `ask`, what is answered to it, and the row that it adds to a table."""

    line: bytes
    answer: bytes
    table: str = None
    row: tuple = None


ADDS = Line(b'supplier01 {"do":"add_frame","variant":"v1","frame":"f2","node":"n1"}\n', DONE + b"\n", "frames", ("v1", "s1", "f2", "n1"))
PLACES = Line(
    b'supplier01 {"do":"place","variant":"v1","frame":"f1","slot":1,"channels":"A","base":1,"repetition":64}\n',
    DONE + b"\n",
    "placements",
    ("v1", "s1", "f1", 1, "A", 1, 64),
)
SHOWS = Line(b'supplier01 {"do":"schedule","variant":"v1"}\n', b'{"lines":["00 0001 A f1 n1","01 0001 A f1 n1"],"ok":"schedule"}\n')
SHOWS_ONE = SHOWS._replace(answer=b'{"lines":["00 0001 A f1 n1"],"ok":"schedule"}\n')  # where nothing was placed
LINES = [ADDS, PLACES, SHOWS, Line(b'supplier01 {"do":"add_frame","variant":"v1","frame":"f1","node":"n1"}\n', refused(19, "Exists") + b"\n")]
ANSWERED = (0, b"".join(line.answer for line in LINES), b"")


def rows_behind(rows, lines):
    """The rows behind these lines, from those before them."""
    is_sound, tables = rows
    return is_sound, {table: sorted(has + [line.row for line in lines if line.table == table], key=repr) for table, has in tables.items()}


def asked_states(before):
    """How `ask` may end where an allocation is refused, each with what the register may then be: one line is Unavailable; or a fault
    ends it behind whole answers, and the line that it then was at is carried out or not; or the register was not opened."""
    states = {ANSWERED: [rows_behind(before, LINES)], (1, b"", NOT_MADE): [before]}
    states[1, ANSWERED[1], NOT_MADE] = states[ANSWERED]  # the file failed to close
    for at, line in enumerate(LINES):
        others = [SHOWS_ONE if other is SHOWS and line is PLACES else other for other in LINES]
        answers = [UNAVAILABLE + b"\n" if other is line else other.answer for other in others]
        states[0, b"".join(answers), b""] = [rows_behind(before, LINES[:at] + LINES[at + 1 :])]
        written = b"".join(other.answer for other in LINES[:at])
        states[1, written, NO_MEMORY] = [rows_behind(before, LINES[:at]), rows_behind(before, LINES[: at + 1])]
        if at:
            states[1, written, NOT_MADE] = states[1, written, NO_MEMORY]
    return states


class Asking(FileCase):
    """Where `ask` is refused memory, one line is Unavailable and changes nothing, or a word ends it, and what it answered as done is in the file."""

    def test_ask(self):
        given = b"".join(line.line for line in LINES)
        self.anew()
        states = asked_states(rows_in(self.car))
        ended, rows = self.perform(["ask", "car.db"], given=given)
        self.see("ask", (ANSWERED, states[ANSWERED]), (ended, [rows]))
        for what, (ended, rows) in self.each_refused(lambda more: self.perform(["ask", "car.db"], more, given), (ANSWERED, states[ANSWERED][0])):
            self.see(what, True, rows in states.get(ended, []) or (ended, rows))


class Migrating(RefusedCase):
    """Where `migrate` is refused memory, the register has its rows, in schema 1 or in schema 2."""

    def test_migrate(self):
        old, car = schema1.filled(self.folder / "old.db", BOOKS[ALL]), self.folder / "car.db"
        before = rows_in(old)
        done, lacks, fails = (0, b"", b""), (1, b"", NO_MEMORY), (1, b"", NOT_MADE)

        def migrate(more=None):
            for file in self.folder.glob("car.db*"):
                file.unlink()
            shutil.copy(old, car)
            return ran(["migrate", "car.db"], self.folder, more=more), schema_in(self.folder), rows_in(car)

        self.see("migrate", (done, 2, before), migrate())
        for what, (ended, schema, rows) in self.each_refused(migrate, (done, 2, before)):
            self.see(what, True, (ended, schema) in ((done, 2), (lacks, 1), (lacks, 2), (fails, 1)) or (ended, schema))
            self.see(f"{what}: the rows", before, rows)
