"""A register that gets thirteen requests, one after another: what is replied to each, which rows are in the file after so many, and folders with the files of
registers after none, five or all of them. What becomes of a register in a file is told by after how many it stands."""
import shutil
import socket
import sqlite3
import subprocess
from contextlib import closing, contextmanager
from pathlib import Path
from typing import NamedTuple

from tests.models import schema1
from tests.models.messages import CLUSTER, DONE, command, json, post, put, refused
from tests.models.scripts import CLUSTER as KEYS
from tests.runner.case import Case, folder_in_memory

from .program import ran
from .server import HERE, listens_on, started

# How many seconds a command, or a connection, may take.
SECONDS = 10

BODY = b'\xef\xbb\xbfframe,signal,start,length,order\r\n"f1","x",0,8,little\r\n'
TABLES = "suppliers", "nodes", "variants", "grants", "frames", "placements", "signals", "imports", "dropped"
UNAVAILABLE = json(refused(28, "Unavailable"), "503 Service Unavailable")
NOT_YOURS = json(refused(3, "NotYours"), "403 Forbidden")
NOTHING = "no register"
LOG_HEAD = 41  # how many bytes of a log say that it is one


class Request(NamedTuple):
    """A request that changes the register, and the rows that it adds and takes away."""

    data: bytes
    right: bytes  # what is replied
    again: bytes  # what is replied where it comes once more
    adds: list
    takes: list = []
    line: bytes = b""  # as `ask` reads it


def order(key, line, again, *adds, takes=()):
    return Request(command(key, line), json(DONE), again, list(adds), list(takes), key.encode() + b" " + line + b"\n")


def lined(request):
    """The request as `ask` reads and answers it: a reply's body is the answer, on a line."""
    right, again = (reply.partition(b"\r\n\r\n")[2] + b"\n" for reply in (request.right, request.again))
    return request._replace(data=request.line, right=right, again=again)


EXISTS = json(refused(19, "Exists"), "409 Conflict")
RELEASED = json(refused(11, "Released"), "409 Conflict")
NO_FRAME = json(refused(16, "NoFrame"), "404 Not Found")
KEY_TAKEN = json(refused(31, "KeyTaken"), "409 Conflict")
IMPORTED, REPLACED = (json(b'{"ok":"%s","rows":1}' % word) for word in (b"imported", b"replaced"))
REVISION = b"frame,signal,start,length,order\nf1,y,15,8,big\n"
WHOLE = b"frame,signal,start,length,order\nf1,z,0,4,little\n"

REQUESTS = [
    order("integrator1", b'{"do":"open_variant","variant":"v1"}', EXISTS, ("variants", ("v1", None, 1, 0, 0))),
    order("integrator1", b'{"do":"add_node","supplier":"s1","node":"n1"}', EXISTS, ("nodes", ("s1", "n1"))),
    order("integrator1", b'{"do":"grant","variant":"v1","slot":1,"channel":"A","supplier":"s1","node":"n1"}', EXISTS, ("grants", ("v1", 1, "A", "s1", "n1"))),
    order("supplier01", b'{"do":"add_frame","variant":"v1","frame":"f1","node":"n1"}', EXISTS, ("frames", ("v1", "s1", "f1", "n1"))),
    order(
        "supplier01",
        b'{"do":"place","variant":"v1","frame":"f1","slot":1,"channels":"A","base":0,"repetition":64}',
        json(b'{"channel":"A","cycle":0,"frame":"f1","no":25,"refused":"CellTaken"}', "409 Conflict"),
        ("placements", ("v1", "s1", "f1", 1, "A", 0, 64)),
    ),
    Request(
        post("/v1/variants/v1/imports/a", "supplier01", BODY),
        IMPORTED,
        IMPORTED,
        [("signals", ("v1", "s1", "f1", "x", 0, 8, 0)), ("imports", ("s1", "a", "v1", BODY, 1))],
        line=rb'supplier01 {"do":"import","variant":"v1","label":"a","body":"\ufeffframe,signal,start,length,order\r\n\"f1\",\"x\",0,8,little\r\n"}' + b"\n",
    ),
    Request(
        put("/v1/variants/v1/rows", "supplier01", REVISION),
        REPLACED,
        REPLACED,
        [("signals", ("v1", "s1", "f1", "y", 15, 8, 1))],
        takes=[("signals", ("v1", "s1", "f1", "x", 0, 8, 0))],
        line=rb'supplier01 {"do":"replace","variant":"v1","body":"frame,signal,start,length,order\nf1,y,15,8,big\n"}' + b"\n",
    ),
    Request(
        put("/v1/variants/v1/rows/whole", "supplier01", WHOLE),
        REPLACED,
        REPLACED,
        [("signals", ("v1", "s1", "f1", "z", 0, 4, 0))],
        takes=[("signals", ("v1", "s1", "f1", "y", 15, 8, 1))],
        line=rb'supplier01 {"do":"replace","variant":"v1","body":"frame,signal,start,length,order\nf1,z,0,4,little\n","whole":true}' + b"\n",
    ),
    order(
        "integrator1",
        b'{"do":"set_key","supplier":"s2","key":"supplier09"}',
        KEY_TAKEN,
        ("suppliers", ("s2", "supplier09")),
        takes=[("suppliers", ("s2", "supplier02"))],
    ),
    order(
        "integrator1", b'{"do":"release","variant":"v1"}', RELEASED, ("variants", ("v1", None, 1, 1, 0)), takes=[("variants", ("v1", None, 1, 0, 0))]
    ),
    order(
        "integrator1",
        b'{"do":"open_variant","variant":"v2","from":"v1"}',
        EXISTS,
        ("variants", ("v2", "v1", 2, 0, 1)),
        ("grants", ("v2", 1, "A", "s1", "n1")),
    ),
    order(
        "integrator1",
        b'{"do":"open_variant","variant":"v3","from":"v1","flat":true}',
        EXISTS,
        ("variants", ("v3", None, 1, 0, 0)),
        ("grants", ("v3", 1, "A", "s1", "n1")),
        ("frames", ("v3", "s1", "f1", "n1")),
        ("placements", ("v3", "s1", "f1", 1, "A", 0, 64)),
        ("signals", ("v3", "s1", "f1", "z", 0, 4, 0)),
    ),
    order("supplier01", b'{"do":"drop_frame","variant":"v2","frame":"f1"}', NO_FRAME, ("dropped", ("v2", "s1", "f1"))),
]
PLACED, ALL = 5, len(REQUESTS)  # after so many the frame is placed, and all are carried out


def rows_after(count):
    """The rows of each table after so many requests."""
    rows = {table: set() for table in TABLES}
    rows["suppliers"] = {("s1", "supplier01"), ("s2", "supplier02")}
    for request in REQUESTS[:count]:
        for table, row in request.takes:
            rows[table].remove(row)
        for table, row in request.adds:
            rows[table].add(row)
    return rows


BOOKS = [rows_after(count) for count in range(ALL + 1)]


def ended_after(count):
    """How the command that prints the schedule of v1 ends after so many requests."""
    if count == NOTHING:
        return 1, b"", b"slotplan: NotARegister\n"
    if count == 0:
        return 1, b"", refused(10, "NoVariant") + b"\n"
    return 0, b"00 0001 A f1 n1 s1\n" if count >= PLACED else b"", b""


# ---- files


def copied(files, folder):
    """The files of a register, where they are there, put into a folder."""
    folder.mkdir(exist_ok=True)
    for name in "car.db", "car.db-wal", "car.db-shm", "car.db-journal":
        (folder / name).unlink(missing_ok=True)
        if (files / name).exists():
            shutil.copy(files / name, folder / name)
    return folder


def has_frames(files):
    """Whether the log has anything behind its head."""
    log = files / "car.db-wal"
    return log.exists() and log.stat().st_size > LOG_HEAD


def count_in(files):
    """After how many requests the register stands that another SQLite finds in a copy of the files, or why none does."""
    with folder_in_memory() as room, closing(sqlite3.connect(copied(files, Path(room)) / "car.db")) as file:
        try:
            if not file.execute("SELECT name FROM sqlite_schema").fetchall():
                return NOTHING
            wrong = file.execute("PRAGMA integrity_check").fetchall() != [("ok",)] or file.execute("PRAGMA foreign_key_check").fetchall()
            rows = {table: set(file.execute(f"SELECT * FROM {table}").fetchall()) for table in TABLES}
        except sqlite3.DatabaseError as error:
            return NOTHING if "not a database" in str(error) else f"SQLite says: {error}"
    return "not sound" if wrong else BOOKS.index(rows) if rows in BOOKS else rows


# The rows of `register`, `cluster` and `cluster2`, the last of which schema 1 has not.
HEADS = {
    1: ([(1, 1)], [schema1.cluster_row(KEYS)], None),
    2: ([(1, 2)], [], [(*schema1.cluster_row(KEYS), 64)]),
}


def schema_in(files):
    """The schema by those rows, in a copy of the files, or the rows."""
    with folder_in_memory() as room, closing(sqlite3.connect(copied(files, Path(room)) / "car.db")) as file:
        there = {name for (name,) in file.execute("SELECT name FROM sqlite_schema")}
        heads = tuple(file.execute(f"SELECT * FROM {table}").fetchall() if table in there else None for table in ("register", "cluster", "cluster2"))
    return next((schema for schema, rows in HEADS.items() if rows == heads), heads)


# ---- the program on them


def performed(words, files, more=None):
    """How a command ends: its status, what it writes, and what it says."""
    try:
        return ran(words, files, more=more, seconds=SECONDS)
    except subprocess.TimeoutExpired:
        return f"not ended within {SECONDS} seconds", b"", b""


def replied(port, data):
    """What is replied to these bytes: nothing where the server ends."""
    got = b""
    try:
        with socket.create_connection((HERE, port), SECONDS) as stream:
            stream.sendall(data)
            while piece := stream.recv(65536):
                got += piece
    except OSError:
        pass
    return got


@contextmanager
def server_of(files, connections, more=None):
    """A server of the register for so many connections, and its port; no port where it does not come to listen."""
    with started(files, "--count", str(connections), env=more) as (server, line, port):
        yield server, port if line == listens_on(port) else None


class Bases(NamedTuple):
    """Folders with the files of registers, and one to run in."""

    none: Path  # no file
    new: Path
    old: Path  # of schema 1, after all requests
    placed: Path  # after five requests, in its file alone
    logged: Path  # after five requests, some of them in its log
    run: Path


def bases(test):
    """Makes them in the test's folder. The cluster file, and that of an import, lie beside each."""
    made = Bases(*(test.folder / name for name in Bases._fields))
    for folder in made:
        folder.mkdir()
        (folder / "cluster.toml").write_bytes(CLUSTER)
    (made.run / "signals.csv").write_bytes(BODY)
    test.see("a register is made", (0, b"", b""), performed(["create", "car.db", "cluster.toml"], made.new))
    schema1.filled(made.old / "car.db", BOOKS[ALL])
    copied(made.new, made.placed)
    copied(made.new, made.logged)
    with server_of(made.placed, PLACED) as (server, port), server_of(made.logged, PLACED + 1) as (_, other):
        for request in REQUESTS[:PLACED]:
            test.see("the base", [request.right] * 2, [replied(port, request.data), replied(other, request.data)])
        test.see("the base is closed", 0, server.wait(SECONDS))
    test.see("what the log has of the file that was closed, and of the one that was not", [False, True], [has_frames(made.placed), has_frames(made.logged)])
    return made


class StateCase(Case):
    """A test whose folder, in memory, has the files of registers in known states."""

    in_memory = True

    def setUp(self):
        super().setUp()
        self.made = bases(self)
