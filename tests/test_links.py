"""The built program's server, given malformed requests, requests in two pieces, and connections that end or fail at each byte.

A client sends a request up to each of its bytes, and then no more, or resets the connection. A small library that cc makes, loaded before the C library,
has the server read or write one byte a call, and lets its reads or writes fail, be interrupted for ever or take nothing, behind each byte. It
interrupts standard input and standard error, as often as it is told.

What is wanted was typed by hand from docs/FORMATS.md and docs/HTTP.md."""
import socket
import struct
from contextlib import ExitStack

from tests.drivers.connections import each_line
from tests.drivers.http_clients import connected, had, is_heard, put
from tests.drivers.preload import Links
from tests.drivers.program import SECONDS, ran
from tests.drivers.registers import RegisterCase
from tests.drivers.server import HERE
from tests.drivers.states import BODY, replied
from tests.models.messages import CONTINUE, DONE, FIRST, FIRST_ANSWERS, UNKNOWN, command, engine, head, json, post, refused, text
from tests.runner.parameters import for_each

LINE = b'{"do":"add_frame","variant":"v1","frame":"f7","node":"n1"}'
ADD = command("supplier01", LINE, "Expect: 100-continue")
HEAD_ENDS = len(ADD) - len(LINE)
EXISTS = json(refused(19, "Exists"), "409 Conflict")
BAD_TEXT = json(refused(1, "BadText"), "400 Bad Request")
SCHEDULE = head("GET", "/v1/variants/v1/schedule", "supplier01")
SCHEDULED = text(b"00 0001 A f1 n1\n")
FRAMES = head("GET", "/v1/variants/v1/frames", "supplier01")
ONE_FRAME, TWO_FRAMES = (text(b"FRAME f1 n1\nAT 0001 A 00 64\n" + more) for more in (b"", b"FRAME f7 n1\n"))
# All lines of a script or of `ask` are read in so many reads at most.
READS = 20_000_000
TOO_MANY = b"slotplan: TooManyReads\n"
ASKED, ANSWERED = b"supplier01 " + LINE + b"\n", DONE + b"\n"
IMPORT, IMPORTED = post("/v1/variants/v1/imports/a", "supplier01", BODY), json(b'{"ok":"imported","rows":1}')


class LinkCase(RegisterCase):
    """A test over a register with a frame, which each server of it begins with."""

    in_memory = True

    def setUp(self):
        super().setUp()
        self.plan()
        self.kept = (self.folder / "car.db").read_bytes()

    def anew(self):
        for file in self.folder.glob("car.db*"):
            file.unlink()
        (self.folder / "car.db").write_bytes(self.kept)

    def asked(self, requests, more=None):
        """What a server replies to these requests, and what it says."""
        self.anew()
        with self.served("--count", str(len(requests)), env=more) as (server, port):
            replies = [replied(port, data) for data in requests]
            self.ends(server)
            return replies, server.stderr.read()


def with_fields(*fields, body=b""):
    """A command of the supplier with these fields alone."""
    return head("POST", "/v1/commands", None, *fields) + body


KEY = "X-Office-Key: supplier01"
SCHEDULE_PATH = "/v1/variants/v1/schedule"

# Requests that are not well formed, each with its reply.
MALFORMED = {
    "length twice": (with_fields(KEY, "Content-Length: 58", "Content-Length: 58", body=LINE), engine("400 Bad Request")),
    "length that is no number": (with_fields(KEY, "Content-Length: 1a", body=LINE), engine("400 Bad Request")),
    "empty length": (with_fields(KEY, "Content-Length:", body=LINE), engine("400 Bad Request")),
    "length with a plus": (with_fields(KEY, "Content-Length: +58", body=LINE), engine("400 Bad Request")),
    "negative length": (with_fields(KEY, "Content-Length: -1", body=LINE), engine("400 Bad Request")),
    "length of thirty digits": (with_fields(KEY, "Content-Length: " + "9" * 30, body=LINE), engine("413 Payload Too Large")),
    "no body": (with_fields(KEY, "Content-Length: 0"), BAD_TEXT),
    "body that is not UTF-8": (with_fields(KEY, "Content-Length: 1", body=b"\xff"), BAD_TEXT),
    "key twice": (with_fields(KEY, KEY, "Content-Length: 58", body=LINE), UNKNOWN),
    "no key": (with_fields("Content-Length: 58", body=LINE), UNKNOWN),
    "deep body": (with_fields(KEY, "Content-Length: 200", body=b"[" * 200), BAD_TEXT),
    "as many fields as may be": (head("GET", SCHEDULE_PATH, "supplier01", *[f"x{n}: 1" for n in range(62)]), SCHEDULED),
    "a field more": (
        head("GET", SCHEDULE_PATH, "supplier01", *[f"x{n}: 1" for n in range(63)]) + b"x" * 10_000,
        engine("431 Request Header Fields Too Large"),
    ),
    "query": (head("GET", f"{SCHEDULE_PATH}?x=1", "supplier01"), SCHEDULED),
    "empty query": (head("GET", f"{SCHEDULE_PATH}?", "supplier01"), SCHEDULED),
    "path that is not ASCII": (head("GET", "/v1/variants/v\u00fc/schedule", "supplier01"), engine("404 Not Found")),
    "path that is not UTF-8": (head("GET", SCHEDULE_PATH, "supplier01").replace(b"v1/schedule", b"v\xff/schedule"), engine("400 Bad Request")),
}


class Malformed(LinkCase):
    """A request that is not well formed has its reply, nothing is said of it, and the next one is served."""

    def test_one_after_another(self):
        replies, said = self.asked([data for data, _ in MALFORMED.values()])
        for (name, (_, wanted)), got in zip(MALFORMED.items(), replies, strict=True):
            self.see(name, wanted, got)
        self.see("nothing is said of them", b"", said)


# ---- requests in two pieces


def begun_well(head_and_body):
    """Where a request may be cut: at each byte of its head and three behind it, and before its last."""
    ends = head_and_body.find(b"\r\n\r\n") + 4
    return sorted({*range(1, min(ends + 4, len(head_and_body))), len(head_and_body) - 1})


GRANTS = b'{"do":"grants","variant":"v1"}'
WELL_FORMED = {
    "report": (SCHEDULE, SCHEDULED),
    "query": (command("supplier01", GRANTS), json(b'{"lines":["0001 A n1"],"ok":"grants"}')),
    "query behind an invitation": (command("supplier01", GRANTS, "Expect: 100-continue"), CONTINUE + json(b'{"lines":["0001 A n1"],"ok":"grants"}')),
    "two requests": (SCHEDULE + ADD, SCHEDULED),
}
REFUSED = {
    "no route": (head("GET", "/v1/nothing"), engine("404 Not Found")),
    "another method": (head("PUT", "/v1/commands", "supplier01"), engine("405 Method Not Allowed", "allow: POST")),
    "no length": (head("POST", "/v1/commands", "supplier01") + LINE, engine("411 Length Required")),
    "body that is too long": (head("POST", "/v1/commands", "supplier01", "Content-Length: 65537"), engine("413 Payload Too Large")),
    "body in chunks": (head("POST", "/v1/commands", "supplier01", "Transfer-Encoding: chunked"), engine("501 Not Implemented")),
    "nothing of the kind": (b"nothing of the kind\r\n\r\n", engine("400 Bad Request")),
}
# Bytes that no head has, wherever they stand in it.
STRANGE = b"\0\x7f"


def strange():
    """A request with such a byte before each byte of its head."""
    for at in range(len(SCHEDULE)):
        for byte in STRANGE:
            yield f"byte {byte} at {at}", (SCHEDULE[:at] + bytes([byte]) + SCHEDULE[at:], engine("400 Bad Request"))


class InTwo(LinkCase):
    """A request that comes in two pieces, whichever they are, is answered as one that comes at once."""

    step, at_once = 16, 250

    def halves(self, requests, each=1):
        """Every so many of these requests, each cut into every two pieces."""
        cases = [(name, data, cut, wanted) for name, (data, wanted) in requests for cut in begun_well(data)][self.turn % each :: each]
        self.anew()
        with self.served("--count", str(len(cases)), "--seconds", str(SECONDS)) as (server, port):
            for begin in range(0, len(cases), self.at_once):
                with ExitStack() as held:
                    asked = [(held.enter_context(connected(port)), *case) for case in cases[begin : begin + self.at_once]]
                    for stream, _, data, cut, _ in asked:
                        stream.sendall(data[:cut])
                    self.see("the first pieces are heard", True, is_heard(port))
                    for stream, name, data, cut, wanted in asked:
                        put(stream, data[cut:])
                        self.see(f"{name}, cut behind {cut} bytes", wanted, had(stream))
                        stream.close()
            self.ends(server)
            self.see("nothing is said of them", b"", server.stderr.read())

    def test_well_formed(self):
        self.halves(WELL_FORMED.items())

    def test_refused(self):
        self.halves(REFUSED.items())

    def test_malformed(self):
        self.halves(MALFORMED.items(), 4)

    def test_strange(self):
        self.halves(strange(), self.each)

    def test_longest(self):
        """A head of as many bytes as may be, cut about its end, and one that has more."""
        for more, wanted in (0, SCHEDULED), (1, engine("431 Request Header Fields Too Large")):
            data = SCHEDULE.replace(b"\r\n\r\n", b"\r\nx: \r\n\r\n")
            data = data.replace(b"x: ", b"x: " + b"x" * (8_192 - len(data) + more))
            cuts = [*range(8_192 - 8, 8_192 + more), 1, 100, 4_096]
            with self.served("--count", str(len(cuts))) as (server, port):
                for cut in cuts:
                    with connected(port) as stream:
                        stream.sendall(data[:cut])
                        self.see("the first piece is heard", True, is_heard(port))
                        put(stream, data[cut:])
                        self.see(f"a head of {len(data)} bytes, cut behind {cut}", wanted, had(stream))
                self.ends(server)


# ---- a client that ends or resets its connection


def cut(port, data, resets):
    """What is replied to these bytes, behind which the client sends no more, or resets the connection."""
    with socket.create_connection((HERE, port), SECONDS) as stream:
        stream.sendall(data)
        if resets:
            stream.setsockopt(socket.SOL_SOCKET, socket.SO_LINGER, struct.pack("ii", 1, 0))
            return b""
        stream.shutdown(socket.SHUT_WR)
        got = b""
        while piece := stream.recv(65536):
            got += piece
        return got


class Cut(LinkCase):
    """A request whose client ends or resets the connection behind any of its bytes asks nothing, and the next one is served."""

    def test_at_each_byte(self):
        cuts = range(len(ADD))
        with self.served("--count", str(2 * len(cuts) + 1)) as (server, port):
            for end in cuts:
                begun = CONTINUE if end >= HEAD_ENDS else b""
                self.see(f"a request cut behind {end} bytes", begun, cut(port, ADD[:end], False))
                cut(port, ADD[:end], True)
            self.see("nothing was asked", ONE_FRAME, replied(port, FRAMES))
            self.ends(server)
            said = each_line(server.stderr.read()).splitlines()
        # They are side by side: which word comes first is left open.
        self.see("each cut is said", len(cuts), said.count(b"slotplan: Truncated"))
        # A client that is gone may be told where `100 Continue` is written, too.
        resets = [word for word in said if word != b"slotplan: Truncated"]
        self.see("each reset is said", True, set(resets) <= {b"slotplan: ReadFailed", b"slotplan: WriteFailed"} or set(resets))
        self.see("so often", len(cuts), len(resets))


# ---- reads and writes that fail


class FailingCase(LinkCase):
    """A test of a server whose first connection fails."""

    is_apart = True

    def setUp(self):
        super().setUp()
        self.links = Links(self.folder)

    def first_of(self, data, **how):
        """What the server replies to a request over a connection that fails so, to one for the frames behind it, and what it says."""
        (first, frames), said = self.asked([data, FRAMES], self.links.ending(**how))
        self.see(f"{how}: it came to that", True, self.links.has_acted())
        return first, frames, said


class OneByte(FailingCase):
    """A request that is read by one byte a call, and a reply that is written so, are as others."""

    def test_each(self):
        for data, wanted, frames in (ADD, CONTINUE + json(DONE), TWO_FRAMES), (SCHEDULE, SCHEDULED, ONE_FRAME):
            for how in {"RECV_PIECE": 1}, {"SEND_PIECE": 1}, {"RECV_PIECE": 1, "SEND_PIECE": 1}:
                self.see(f"{how}: {data[:40]}", (wanted, frames, b""), self.first_of(data, **how))


@for_each([("failing", "ECONNRESET", b"ReadFailed"), ("interrupted", "EINTR", b"TooManyReads"), ("that_find_the_end", "zero", b"Truncated")])
class FailingReads(FailingCase):
    """A request whose reads fail behind some of its bytes, or are interrupted for ever, asks nothing; a word is said, and the next one is served."""

    def tried(self, way, word):
        for room in 0, 1, 20, HEAD_ENDS - 1, HEAD_ENDS, len(ADD) - 1:
            begun = CONTINUE if room >= HEAD_ENDS else b""
            got = self.first_of(ADD, RECV_ROOM=room, RECV_WAY=way)
            self.see(f"reads that end in {way} behind {room} bytes", (begun, ONE_FRAME, b"slotplan: %s\n" % word), got)


WHOLE_REPLY = CONTINUE + json(DONE)
ENDS = 0, 1, len(CONTINUE) - 1, len(CONTINUE), len(CONTINUE) + 1, len(WHOLE_REPLY) - 1


@for_each([("failing", "EPIPE", range(len(WHOLE_REPLY))), ("interrupted", "EINTR", ENDS), ("that_take_nothing", "zero", ENDS)])
class FailingWrites(FailingCase):
    """Where writes fail, the frame is there exactly where the final reply was begun, and the client has what was written so far."""

    def tried(self, way, rooms):
        for room in rooms:
            frames = TWO_FRAMES if room >= len(CONTINUE) else ONE_FRAME
            got = self.first_of(ADD, SEND_ROOM=room, SEND_WAY=way)
            self.see(f"writes that end in {way} behind {room} bytes", (WHOLE_REPLY[:room], frames, b"slotplan: WriteFailed\n"), got)
        got = self.first_of(SCHEDULE, SEND_ROOM=0, SEND_WAY=way)
        self.see(f"a report of which each write ends in {way}", (b"", ONE_FRAME, b"slotplan: WriteFailed\n"), got)


class LostReplies(FailingCase):
    """What was asked is in the file though its reply is lost: a frame that is added once more is there already, an import is answered and acts once."""

    def test_of_frames(self):
        for room in 0, 1, len(json(DONE)) - 1:
            how = self.links.ending(SEND_ROOM=len(CONTINUE) + room, SEND_WAY="EPIPE")
            (lost, again, frames), said = self.asked([ADD, ADD, FRAMES], how)
            wanted = (CONTINUE + json(DONE)[:room], CONTINUE + EXISTS, TWO_FRAMES, b"slotplan: WriteFailed\n")
            self.see(f"a frame whose reply is lost behind {room} bytes", wanted, (lost, again, frames, said))
            self.see("it came to that", True, self.links.has_acted())
            self.sound()

    def test_of_imports(self):
        for room in 0, 1, len(IMPORTED) - 1:
            (lost, again), said = self.asked([IMPORT, IMPORT], self.links.ending(SEND_ROOM=room, SEND_WAY="EPIPE"))
            self.see(f"an import whose reply is lost behind {room} bytes", (IMPORTED[:room], IMPORTED, b"slotplan: WriteFailed\n"), (lost, again, said))
            self.see("it came to that", True, self.links.has_acted())
            self.see("its row is there once", [("v1", "s1", "f1", "x", 0, 8, 0)], self.rows("SELECT * FROM signals"))
            self.see("it is kept once", [("s1", "a", "v1", BODY, 1)], self.rows("SELECT * FROM imports"))
            self.sound()


class Interrupted(FailingCase):
    """Input is read in 20,000,000 reads, interrupted ones too, and no more; a line on standard error is tried 1,000 times more, whatever those before took."""

    def interrupted(self, waits, words, given, wanted):
        """How this ends whose input is interrupted so often before it gives anything."""
        got = ran(words, self.folder, given, self.links.ending(INPUT_WAITS=waits))
        self.see(f"{' '.join(words)} behind {waits} interruptions of its input", wanted, got)
        self.see("it came to that", True, self.links.has_acted())

    def test_script(self):
        """One read gives it all, and one finds its end."""
        self.interrupted(READS - 2, ["run"], FIRST, (0, FIRST_ANSWERS, b""))
        self.interrupted(READS - 1, ["run"], FIRST, (1, b"", TOO_MANY))

    def test_lines(self):
        """What was read is answered, though the end of all is not found; and where there was no end of a line, nothing is."""
        for waits, wanted in (READS - 2, (0, ANSWERED, b"")), (READS - 1, (1, ANSWERED, TOO_MANY)), (READS, (1, b"", TOO_MANY)):
            self.anew()
            self.interrupted(waits, ["ask", "car.db"], ASKED, wanted)

    def test_key(self):
        (self.folder / "signals.csv").write_bytes(BODY)
        self.interrupted(1_000, ["import", "car.db", "-", "v1", "a", "signals.csv"], b"supplier01\n", (0, b'{"ok":"imported","rows":1}\n', b""))

    def test_words(self):
        """A line is told in one write. With 1,001 interruptions before each, the first line is given up; the next meets none, and tells how often the
        word came again."""
        for waits, times in (1_000, 3), (1_001, 2):
            with self.served("--count", "3", env=self.links.ending(ERROR_WAITS=waits)) as (server, port):
                for _ in range(3):
                    cut(port, ADD[:1], False)
                self.ends(server)
                self.see(f"lines with {waits} interruptions before each write", b"slotplan: Truncated\n" * times, each_line(server.stderr.read()))
            self.see("it came to that", True, self.links.has_acted())
