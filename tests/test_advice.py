"""Explanations and advice over HTTP: what `slotplan explain` and `slotplan check` print, to those who have HTTP alone. The register stays as it was."""
import subprocess

from tests.drivers.program import SECONDS, program
from tests.drivers.registers import RegisterCase
from tests.drivers.server import sent, started
from tests.models.messages import UNKNOWN, engine, head, post, put, reply, text

NOT_FOUND = engine("404 Not Found")
ROWS, REQUESTS = "/v1/checks/rows", "/v1/checks/requests"
EXPLAINED = "/v1/explanations"
MOST_BYTES = 65_536
HEADER = "frame,node,slot,channels,base,repetition"
# Files as a spreadsheet may write them, each with the line that is told of it, and where it begins.
FAULTS = {
    b"frame;node\nf;n1\n": b'line 1: the header is "frame;node"',
    b"\xff\xfef\x00r\x00": b"line 1: ",
    b"frame,node\nf1,n1\nf 2,n1\n": b'line 3: field "frame"',
    b"": b"line 1: the file has no header",
    f"{HEADER}\nf1,n1,1,A,0,x\n".encode(): b'line 2: field "repetition"',
    b"frame,node\n" + b"f1,n1\n" * 513: b"line 514: the row is one too many",
}
FINE = b"frame,node\nf1,n1\n", b"frame,node\n", b"\xef\xbb\xbfframe,node\r\nf1,n1\r\n", b"frame,node\n" + b"f1,n1\n" * 512
ASKED_FAULTS = {
    b"supplier01\n": b"line 1: there is no space",
    b"\n\nsupplier01 {}\n": b"line 3: ",
    b'short {"do":"variants"}\n': b"line 1: the key is none",
    b'supplier01 {"do":"variants"}\nsupplier01 {"do":"gaps","variant":"1v"}\n': b'line 2: field "variant"',
}
ASKED_FINE = b"", b"\n\n", b'supplier01 {"do":"variants"}\r\n', b'nobodys1 {"do":"gaps","variant":"v9"}'


def advice(body):
    return reply("200 OK", "text/plain; charset=utf-8", body)


class Advice(RegisterCase):
    """Whoever has a key is told what is wrong with a text, whatever the register holds."""

    def setUp(self):
        super().setUp()
        self.plan()

    def replies(self, *asked, end=False):
        """What a server of the register replies to each of these, behind which the input may end. The register's file is as it was."""
        before = (self.folder / "car.db").read_bytes()
        with started(self.folder, "--count", str(len(asked))) as (_, _, port):
            got = [sent(port, data, end) for data in asked]
        self.see("the register's file", True, before == (self.folder / "car.db").read_bytes())
        return got

    def printed(self, kind, body):
        """What `check` prints of the text on standard error."""
        (self.folder / "text").write_bytes(body)
        return subprocess.run([program(), "check", kind, "text"], cwd=self.folder, capture_output=True, timeout=SECONDS).stderr

    def test_faults_by_hand(self):
        for path, faults in ((ROWS, FAULTS), (REQUESTS, ASKED_FAULTS)):
            for (body, begin), got in zip(faults.items(), self.replies(*(post(path, "supplier01", body) for body in faults))):
                self.see(f"{path} of {body[:40]}", (True, True), (got.startswith(b"HTTP/1.1 200 OK\r\n"), got.partition(b"\r\n\r\n")[2].startswith(begin)))

    def test_as_the_command_prints_them(self):
        for path, kind, bodies in ((ROWS, "--rows", FAULTS), (REQUESTS, "--requests", ASKED_FAULTS)):
            for body, got in zip(bodies, self.replies(*(post(path, "integrator1", body) for body in bodies))):
                self.see(f"{path} of {body[:40]}", advice(self.printed(kind, body)), got)

    def test_no_fault(self):
        for path, bodies in ((ROWS, FINE), (REQUESTS, ASKED_FINE)):
            for body, got in zip(bodies, self.replies(*(post(path, "supplier02", body) for body in bodies))):
                self.see(f"{path} of {body[:40]}", advice(b""), got)

    def test_the_longest(self):
        longest = b"frame,node\n" + b"\n" * (MOST_BYTES - 11)
        asked = [post(ROWS, "supplier01", longest), post(ROWS, "supplier01", longest + b"\n")]
        self.see("the most bytes, and one more", [advice(b""), engine("413 Payload Too Large")], self.replies(*asked))

    def test_whose_key(self):
        asked = [
            post(ROWS, "nobodys1", FINE[0]),
            post(ROWS, None, FINE[0]),
            post(ROWS, "supplier01", FINE[0], "X-Office-Key: supplier01"),
            post(REQUESTS, "nobodys1", b"x"),
        ]
        self.see("nobody's", [UNKNOWN] * 4, self.replies(*asked))

    def test_methods_and_paths(self):
        for asked, right in (
            (head("GET", ROWS, "supplier01"), engine("405 Method Not Allowed", "allow: POST")),
            (put(REQUESTS, "supplier01", b""), engine("405 Method Not Allowed", "allow: POST")),
            (head("POST", ROWS, "supplier01"), engine("411 Length Required")),
            (post("/v1/checks", "supplier01", b""), NOT_FOUND),
            (post("/v1/checks/frames", "supplier01", b""), NOT_FOUND),
            (post(ROWS + "/1", "supplier01", b""), NOT_FOUND),
        ):
            (got,) = self.replies(asked)
            self.see(asked[:60], right, got)

    def test_cut_short(self):
        """Of a text that is cut at each byte nothing is told."""
        whole = post(ROWS, "supplier01", FINE[0])
        cuts = range(len(whole) - len(FINE[0]), len(whole))
        self.see("nothing is replied", [b""] * len(cuts), self.replies(*(whole[:cut] for cut in cuts), end=True))


class Explanations(RegisterCase):
    """What a word means is told to everybody; a word that is not explained has no route."""

    replies = Advice.replies

    def explained(self, *word):
        return subprocess.run([program(), "explain", *word], capture_output=True, check=True, timeout=SECONDS).stdout

    def test_words(self):
        self.plan()
        words = [line.split(":")[0] for line in self.explained().decode().splitlines()]
        asked = [*words, *map(str, range(1, 33))]
        for word, got in zip(asked, self.replies(*(head("GET", f"{EXPLAINED}/{word}") for word in asked))):
            self.see(word, text(self.explained(word)), got)

    def test_by_hand(self):
        self.create()
        for word, begin in (("CellTaken", b"CellTaken: refusal 25."), ("25", b"CellTaken: refusal 25."), ("BadRow", b"BadRow: refusal 29."), ("Truncated", b"Truncated: ")):
            (got,) = self.replies(head("GET", f"{EXPLAINED}/{word}", "nobodys1"))
            self.see(word, True, got.partition(b"\r\n\r\n")[2].startswith(begin))

    def test_all(self):
        self.create()
        asked = head("GET", EXPLAINED), head("GET", EXPLAINED, "supplier01"), head("GET", EXPLAINED + "?word=x", "nobodys1")
        self.see("all words", [text(self.explained())] * 3, self.replies(*asked))

    def test_no_route(self):
        self.create()
        not_allowed = engine("405 Method Not Allowed", "allow: GET")
        for asked, right in (
            (head("GET", EXPLAINED + "/"), NOT_FOUND),
            (head("GET", EXPLAINED + "/0"), NOT_FOUND),
            (head("GET", EXPLAINED + "/33"), NOT_FOUND),
            (head("GET", EXPLAINED + "/025"), NOT_FOUND),
            (head("GET", EXPLAINED + "/celltaken"), NOT_FOUND),
            (head("GET", EXPLAINED + "/CellTaken/"), NOT_FOUND),
            (post(EXPLAINED + "/nothing", "supplier01", b""), NOT_FOUND),
            (post(EXPLAINED + "/CellTaken", "supplier01", b""), not_allowed),
            (post(EXPLAINED, "supplier01", b""), not_allowed),
        ):
            (got,) = self.replies(asked)
            self.see(asked[:60], right, got)
