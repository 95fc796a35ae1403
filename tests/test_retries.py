"""The built program, whose reads and writes are interrupted as often as it may try them again, and once more.

Small libraries that cc makes, loaded before the C library, interrupt them. The counts are those of docs/FORMATS.md and docs/HTTP.md."""
from tests.drivers.preload import Interrupts, Links
from tests.drivers.program import ran
from tests.drivers.registers import RegisterCase
from tests.drivers.server import sent
from tests.models.messages import FIRST, FIRST_ANSWERS, head, json, post, text

RETRIES = 1_000  # for each text that is printed
KEY_READS = 100_000
IMPORT_BYTES = 65_536
SHOWN = b"00 0001 A f1 n1 s1\n"
WRITE_FAILED = 1, b"", b"slotplan: WriteFailed\n"


class Writes(RegisterCase):
    """A text that is printed is tried 1,000 times more where its writes are interrupted, and then it is WriteFailed."""

    def setUp(self):
        super().setUp()
        self.plan()
        self.interrupts = Interrupts(self.folder)

    def interrupted(self, times, words, wanted, given=b""):
        """How this ends that meets so many interruptions before each of its writes."""
        self.see(f"{words} behind {times} interruptions", wanted, ran(words, self.folder, given, self.interrupts.before_writes(times)))
        self.see("it came to that", True, self.interrupts.has_acted())

    def test_commands(self):
        for words, given, written in (
            (["schedule", "car.db", "v1"], b"", SHOWN),
            (["variants", "car.db"], b"", b"v1 - 1 open\n"),
            (["ask", "car.db"], b'integrator1 {"do":"variants"}\n', b'{"lines":["v1 - 1 open"],"ok":"variants"}\n'),
            (["import", "car.db", "supplier01", "v1", "a", "rows.csv"], b"", b'{"ok":"imported","rows":0}\n'),
        ):
            (self.folder / "rows.csv").write_bytes(b"frame,node\n")
            self.interrupted(RETRIES + 1, words, WRITE_FAILED, given)
            self.interrupted(RETRIES, words, (0, written, b""), given)

    def test_script(self):
        """The answers of a script are one text: of six the last meets what is left by the five before it."""
        answers = FIRST_ANSWERS.count(b"\n")
        self.see("answers", 6, answers)
        self.interrupted(RETRIES // answers, ["run"], (0, FIRST_ANSWERS, b""), FIRST)
        cut_short = b"".join(FIRST_ANSWERS.splitlines(True)[:-1])
        self.interrupted(RETRIES // answers + 1, ["run"], (1, cut_short, WRITE_FAILED[2]), FIRST)


class Reads(RegisterCase):
    """What may be read in many reads is read in as many, and in none more."""

    def setUp(self):
        super().setUp()
        self.plan()
        self.links = Links(self.folder)
        (self.folder / "rows.csv").write_bytes(b"frame,node\ng1,n1\n")

    def test_key(self):
        """The last read that is allowed gives the key."""
        words = ["import", "car.db", "-", "v1", "a", "rows.csv"]
        for waits, wanted in (KEY_READS, (1, b"", b"slotplan: TooManyReads\n")), (KEY_READS - 1, (0, b'{"ok":"imported","rows":1}\n', b"")):
            got = ran(words, self.folder, b"supplier01\n", self.links.ending(INPUT_WAITS=waits))
            self.see(f"a key behind {waits} interruptions", wanted, got)
            self.see("it came to that", True, self.links.has_acted())

    def test_connection(self):
        """A body as long as may be is read byte by byte: in some 65,700 reads, of 100,000 that are allowed."""
        body = b"frame,node\ng1,n1\n"
        body += b"\n" * (IMPORT_BYTES - len(body))
        with self.served("--count", "2", "--seconds", "600", env=self.links.ending(RECV_PIECE=1)) as (server, port):
            self.see("an import in bytes", json(b'{"ok":"imported","rows":1}'), sent(port, post("/v1/variants/v1/imports/a", "supplier01", body)))
            self.see("it came to that", True, self.links.has_acted())
            frames = text(b"FRAME f1 n1\nAT 0001 A 00 64\nFRAME g1 n1\n")
            self.see("the next one", frames, sent(port, head("GET", "/v1/variants/v1/frames", "supplier01")))
            self.ends(server)
            self.see("what it says", b"", server.stderr.read())
