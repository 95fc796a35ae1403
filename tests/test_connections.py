"""What no contract says of the built program: where its server listens, what it reads and writes in which order, how many connections it serves,
and in how much memory; and what is read as a file, in how many reads. Many connections at once are tried in test_many.

What is wanted was typed by hand from docs/HTTP.md and docs/FORMATS.md, or is made by their rules; none of it is the program's own
output."""
import os
import socket
import sqlite3
import time
from contextlib import closing, suppress
from functools import partial
from itertools import product

from tests.drivers.connections import FRAMES, NOTHING, SCHEDULE, ConnectionCase, LongCase, PlannedCase, add_frame, adds, long_schedule
from tests.drivers.http_clients import (
    comes_to, connected, has_arrived, interrupt, is_heard, limited, meanwhile, memory_of, narrow, open_at, received, reset, waited,
)
from tests.drivers.preload import Pieces
from tests.drivers.program import SECONDS
from tests.drivers.registers import RegisterCase
from tests.drivers.server import sent
from tests.models import scripts
from tests.models.messages import CLUSTER, CONTINUE, DONE, engine, head, json, post, refused, text

# For how many seconds the server reads what is still sent where it has replied before it read the whole request.
REST = 1
# How many bytes of that it reads at most; and more than that and the system holds of a connection on both sides.
REST_BYTES, MOST_SENT = 1_048_576, 33_554_432
CONNECTIONS = 20_001
FILE_READS = 100_000
IMPORT_BYTES = 65_536
# How many bytes of pages a server keeps at most beside the one in use, as docs/OPERATE.md says. By how many bytes its memory grows at most where it is
# told to keep the fewest: by three pages, and by what is needed to read one.
KEPT, FEW = 134_217_728, 16_777_216

ADD = add_frame("f7")
LONG_BODY = b"x" * 200_000
TOO_LONG = head("POST", "/v1/commands", "supplier01", f"Content-Length: {len(LONG_BODY)}"), engine("413 Payload Too Large")


# ---- one connection


class Listening(PlannedCase):
    """A server listens on 127.0.0.1 alone, and serves as many connections as it is told."""

    def test_here_alone(self):
        others = ["127.0.0.2", "::1"]
        with socket.socket(socket.AF_INET, socket.SOCK_DGRAM) as one:
            try:
                one.connect(("192.0.2.1", 9))  # nothing is sent; it says which address leads to a network
                others.append(one.getsockname()[0])
            except OSError:
                pass
        with self.served("--count", "1") as (server, port):
            for address in others:
                try:
                    socket.create_connection((address, port), SECONDS).close()
                    self.see(f"it listens on {address}", False, True)
                except OSError:
                    self.see(f"it listens on {address}", False, False)
            self.see("it listens on 127.0.0.1", FRAMES[1], sent(port, FRAMES[0]))
            self.ends(server)

    def test_as_many_as_it_is_told(self):
        with self.served("--count", str(CONNECTIONS)) as (server, port):
            replies = {sent(port, NOTHING[0]) for _ in range(CONNECTIONS)}
            self.see(f"to each of {CONNECTIONS}", {NOTHING[1]}, replies)
            self.ends(server)


class Keeping(ConnectionCase):
    """A server keeps pages of what it reads, of as many MiB at most as it is told, and its memory grows no more, however many it reads."""

    waits, seconds = False, 30
    keepers = [f"s{number}" for number in range(1, 4)]
    cluster = scripts.cluster_file({**scripts.LARGE, "suppliers": scripts.suppliers(len(keepers))}).encode()

    def setUp(self):
        """As many variants as there may be, in each of which each supplier has as many frames and signals as it may."""
        super().setUp()
        self.create()
        frames, signals = [f"f{number:03}" for number in range(scripts.FRAMES)], range(scripts.SIGNALS)
        variants = [f"v{number}" for number in range(2, scripts.VARIANTS + 1)]
        with closing(sqlite3.connect(self.folder / "car.db")) as file, file:
            file.execute("INSERT INTO variants VALUES ('v1', NULL, 1, 1, 0)")
            file.executemany("INSERT INTO variants VALUES (?, 'v1', 2, 0, 1)", [(name,) for name in variants])
            file.executemany("INSERT INTO nodes VALUES (?, 'n1')", [(name,) for name in self.keepers])
            file.executemany("INSERT INTO frames VALUES ('v1', ?, ?, 'n1')", product(self.keepers, frames))
            rows = ((*frame, f"x{at}", 8 * at, 8) for frame in product(self.keepers, frames) for at in signals)
            file.executemany("INSERT INTO signals VALUES ('v1', ?, ?, ?, ?, ?, 0)", rows)
        self.variants = ["v1", *variants]

    def grown(self, *words):
        """By how many bytes its memory has grown when all pages were read, and the first ones again."""
        wanted = text("".join(f"{8 * at:04} 08 little x{at} {name}\n" for name in self.keepers for at in range(scripts.SIGNALS)).encode())
        with self.served("--count", str(3 + len(self.variants)), *words) as (server, port):
            self.see("before a page is read", NOTHING[1], sent(port, NOTHING[0]))
            before = memory_of(server)
            for variant in (*self.variants, "v1"):
                self.see(f"to one in {variant}", wanted, sent(port, head("GET", f"/v1/variants/{variant}/frames/f000/layout", "integrator1")))
            grown = memory_of(server) - before
            print(f"its memory has grown by {grown} bytes", flush=True)
            self.see("behind that", NOTHING[1], sent(port, NOTHING[0]))
            self.ends(server)
        return grown

    def test_memory(self):
        grown = self.grown("--memory", "128")
        self.see("by how many bytes its memory has grown", True, 2 * FEW < grown <= KEPT or grown)
        grown = self.grown("--memory", "1")
        self.see("by how many bytes where it keeps the fewest", True, grown <= FEW or grown)


class Reading(PlannedCase):
    """A request is read to its end, behind `100 Continue` where it asks for that, and however often that is interrupted; a failed read is not
    repeated."""

    def test_invited(self):
        """A client that waits for `100 Continue` before it sends the body gets it."""
        whole = adds("f7", "Expect: 100-continue")
        with self.served("--count", "1") as (server, port):
            with connected(port) as stream:
                stream.sendall(whole[: -len(ADD)])
                self.see("behind the head alone", CONTINUE, received(stream, len(CONTINUE)))
                stream.sendall(ADD)
                self.see("behind the body", json(DONE), received(stream))
            self.ends(server)

    def test_ends_and_failures(self):
        """The input's end is no failure of a read, and a failed read is not tried again."""
        whole = adds("f7", "Expect: 100-continue")
        with self.served("--count", "5") as (server, port):
            for cut in 20, len(whole) - 1:
                self.see("a request that ends early", CONTINUE if cut > 20 else b"", sent(port, whole[:cut], end=True))
                with connected(port) as stream:
                    stream.sendall(whole[:cut])
                    if cut > 20:
                        self.see("behind the head", CONTINUE, received(stream, len(CONTINUE)))
                    self.see("it is heard", True, is_heard(port))
                    reset(stream)
                self.see("it is let go", 0, comes_to(0, lambda: open_at(server)))
            self.see("the next one is served", FRAMES[1], sent(port, FRAMES[0]))
            self.ends(server, b"slotplan: Truncated\nslotplan: ReadFailed\n" * 2)

    def test_interrupted(self):
        whole = adds("f7", "Expect: 100-continue")
        with self.served("--count", "1") as (server, port):
            with connected(port) as stream:
                stream.sendall(whole[:20])
                interrupt(server)
                stream.sendall(whole[20 : -len(ADD)])
                self.see("behind a head that was interrupted", CONTINUE, received(stream, len(CONTINUE)))
                stream.sendall(ADD[:20])
                interrupt(server)
                stream.sendall(ADD[20:])
                self.see("behind a body that was interrupted", json(DONE), received(stream))
            self.ends(server)


class Writing(LongCase):
    """A long reply is written whole to a client that reads late, however often that is interrupted, and whatever the client sent behind its
    request."""

    def test_interrupted(self):
        with self.served("--count", "1", *limited(SECONDS)) as (server, port):
            with narrow(port) as stream:
                stream.sendall(SCHEDULE)
                stream.recv(1, socket.MSG_PEEK)  # the reply has begun
                interrupt(server)
                self.see("a long reply", text(long_schedule()), received(stream))
            self.ends(server)

    def test_before_what_follows(self):
        with self.served("--count", "1", *limited(SECONDS)) as (server, port):
            with narrow(port) as stream:
                stream.sendall(SCHEDULE + b"x" * 6_000)
                self.see("all of it is there", True, has_arrived(stream))
                self.see("a long reply before what follows", text(long_schedule()), received(stream))
            self.ends(server)


# ---- requests that are refused before they are read


class TooLong(PlannedCase):
    """A client whose body is too long can still send it, for a second, at once or in pieces, and has the reply whole; then it is let go."""

    def can_send(self, size, pause):
        with self.served("--count", "1") as (server, port):
            with connected(port) as stream:
                stream.setsockopt(socket.SOL_SOCKET, socket.SO_SNDBUF, 4096)
                begun = time.monotonic()
                stream.sendall(TOO_LONG[0])
                try:
                    for at in range(0, len(LONG_BODY), size):
                        time.sleep(pause)
                        stream.sendall(LONG_BODY[at : at + size])
                except ConnectionError as error:
                    self.see("it takes what is sent within a second", True, time.monotonic() - begun > REST or error)
                self.see("to a body that is too long", TOO_LONG[1], received(stream))
            self.ends(server)

    def test_at_once(self):
        self.can_send(len(LONG_BODY), 0)

    def test_in_pieces(self):
        self.can_send(20_000, 0.05)

    def test_more_than_is_read(self):
        """It reads 1 MiB of it, and no more: nobody keeps it reading for a second as fast as can be sent."""
        with self.served("--count", "1") as (server, port):
            with connected(port) as stream:
                begun, count = time.monotonic(), 0
                stream.sendall(TOO_LONG[0])
                with suppress(ConnectionError):
                    while count < MOST_SENT:
                        stream.sendall(b"x" * 65_536)
                        count += 65_536
                self.see("it reads so much, or for a second", True, count >= REST_BYTES or time.monotonic() - begun > REST or count)
                self.see("it reads no more", True, count < MOST_SENT or count)
            self.ends(server)

    def test_that_does_not_end(self):
        """It reads on for a second, in which the next one is served."""
        with self.served("--count", "2", *limited(SECONDS)) as (server, port):
            with connected(port) as stream:
                begun = time.monotonic()
                stream.sendall(TOO_LONG[0])
                with meanwhile(partial(stream.sendall, b"x" * 1_000), 0.2):
                    self.see("the reply", TOO_LONG[1], received(stream))
                    self.see("the next one is served", FRAMES[1], sent(port, FRAMES[0]))
                    self.see("at once", True, time.monotonic() - begun < REST or time.monotonic() - begun)
                    self.see("the server ends", 0, server.wait(SECONDS))
                    self.see("it reads on for a second", True, waited(begun, REST))
            self.ends(server)


# ---- files


def import_of(count):
    """A file of one row, with as many empty lines behind as make it so many bytes."""
    row = b"frame,signal,start,length,order\nf1,speed,0,8,little\n"
    return row + b"\n" * (count - len(row))


class Files(RegisterCase):
    """What is read as CONFIG or FILE is a file, of at most so many bytes, in at most so many reads; what is none, or is longer, is told at once."""

    def setUp(self):
        super().setUp()
        self.plan()

    def files(self):
        return {path.name: path.read_bytes() for path in self.folder.iterdir() if path.is_file()}

    def test_alone(self):
        """A pipe, a folder or a device is no file. That is told at once, whether somebody writes into the pipe or not, and nothing is
        made or changed. A link to a file is one."""
        (self.folder / "inside").mkdir()
        for pipe in "unwritten", "written":
            os.mkfifo(self.folder / pipe)
        (self.folder / "to_pipe").symlink_to("unwritten")
        (self.folder / "to_file").symlink_to("cluster.toml")
        before = self.files()
        paths = "unwritten", "written", "to_pipe", "inside", ".", "/dev/zero"
        with open(os.open(self.folder / "written", os.O_RDWR), "wb", buffering=0) as writer:
            writer.write(CLUSTER)
            begun = time.monotonic()
            for path in paths:
                self.fault(["create", "new.db", path], "CannotOpen")
                self.fault(["import", "car.db", "supplier01", "v1", "a", path], "CannotOpen")
            passed = time.monotonic() - begun
            self.see("it is told at once", True, passed <= len(paths) or passed)
        self.see("nothing is made or changed", before, self.files())
        self.create("new.db", "to_file")

    def test_in_pieces(self):
        """A file is read in as many reads as are allowed, of which the last finds its end, and in none more."""
        pieces, path = Pieces(self.folder), self.folder / "pieces"
        more = pieces.of(path)
        whole = CLUSTER + b"#" * (FILE_READS - 1 - len(CLUSTER))
        path.write_bytes(whole)
        self.tell(["create", "new.db", "pieces"], more=more)
        self.see("reads of CONFIG", FILE_READS, pieces.reads())
        path.write_bytes(whole + b"#")
        self.fault(["create", "none.db", "pieces"], "CannotOpen", more)
        self.see("reads of a CONFIG that takes too many", FILE_READS, pieces.reads())
        self.see("no register is made of it", False, (self.folder / "none.db").exists())
        words = ["import", "car.db", "supplier01", "v1", "a", "pieces"]
        path.write_bytes(import_of(IMPORT_BYTES + 1))
        self.turned_down(words, refused(23, "Limit"), more)
        self.see("reads of a FILE that is too long", IMPORT_BYTES + 1, pieces.reads())
        path.write_bytes(import_of(IMPORT_BYTES))
        self.tell(words, b'{"ok":"imported","rows":1}\n', more=more)
        self.see("reads of FILE", IMPORT_BYTES + 1, pieces.reads())

    def test_longest(self):
        """A file that is too long is refused, and not cut; as long as may be, it is carried out."""
        words = ["import", "car.db", "supplier01", "v1"]
        for count in IMPORT_BYTES + 1, IMPORT_BYTES + 2, 20 * IMPORT_BYTES:
            (self.folder / "long.csv").write_bytes(import_of(count))
            self.turned_down([*words, "a", "long.csv"], refused(23, "Limit"))
        (self.folder / "longest.csv").write_bytes(import_of(IMPORT_BYTES))
        self.tell([*words, "a", "longest.csv"], b'{"ok":"imported","rows":1}\n')
        again = post("/v1/variants/v1/imports/a", "supplier01", import_of(IMPORT_BYTES))
        self.in_turn("car.db", [(again, json(b'{"ok":"imported","rows":1}'))])
