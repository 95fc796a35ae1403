"""Answers with the numbers of their lines, as `ask --lines` and `run --lines` give them.

What is wanted was typed by hand from docs/FORMATS.md; none of it is the program's own output."""
import subprocess

from tests.drivers.invocations import Invocation, InvocationCase, faulty
from tests.drivers.program import SECONDS, program, ran
from tests.drivers.registers import RegisterCase
from tests.models.messages import CLUSTER, DONE, FIRST, FIRST_ANSWERS, REQUESTS

LINE_BYTES = 1_048_576

OPEN = b'integrator1 {"do":"open_variant","variant":"%s"}'
BAD_TEXT = b'{"no":1,"refused":"BadText"}'
UNKNOWN_KEY = b'{"no":2,"refused":"UnknownKey"}'
BAD_NAME = b'{"no":4,"refused":"BadName"}'

# Blank lines and refused ones, ends of both kinds, and a last line without an end; and the answers.
LINES = (
    b"\n"
    + OPEN % b"v1" + b"\r\n"
    b"\r\n"
    b"\n"
    b"integrator1 open\n"
    b" \n"
    b'nobody99 {"do":"variants"}\r\n'
    b"\n"
    b"---\n"
    + OPEN % b"1v" + b"\n"
    b"\n"
    + OPEN % b"v2"
)
ANSWERS = {2: DONE, 5: BAD_TEXT, 6: BAD_TEXT, 7: UNKNOWN_KEY, 9: BAD_TEXT, 10: BAD_NAME, 12: DONE}


def plain(answers):
    return b"".join(b"%s\n" % answer for answer in answers.values())


def numbered(answers, above=0):
    """With the numbers of their lines, where so many stand above the first."""
    return b"".join(b"%d %s\n" % (number + above, answer) for number, answer in answers.items())


class Asked(RegisterCase):
    """Each answer of `ask --lines` begins with the number of its line in the input; without the word no byte of it is there."""

    def setUp(self):
        super().setUp()
        self.create()

    def ask(self, given, written, said=b"", status=0):
        self.see(f"ask --lines {given[:100]!r}", (status, written, said), ran(["ask", "car.db", "--lines"], self.folder, given))

    def test_lines(self):
        self.ask(LINES, numbered(ANSWERS))

    def test_without_the_word(self):
        self.tell(["ask", "car.db"], plain(ANSWERS), given=LINES)

    def test_word_first(self):
        self.tell(["ask", "--lines", "car.db"], numbered(ANSWERS), given=LINES)

    def test_no_request(self):
        for given in b"", b"\n", b"\r\n\n\n":
            self.ask(given, b"")

    def test_line_that_is_too_long(self):
        """What was answered before it keeps its numbers; the line itself has no answer."""
        long = b"\n" + OPEN % b"v1" + b"\n\n" + b"k" * (LINE_BYTES + 1) + b"\n" + OPEN % b"v2" + b"\n"
        self.ask(long, numbered({2: DONE}), b"slotplan: TooLong\n", 1)

    def test_line_as_long_as_may_be(self):
        self.ask(b"\n\n" + b"k" * LINE_BYTES + b"\n\n\n" + OPEN % b"v1", numbered({3: BAD_TEXT, 6: DONE}))

    def test_many_lines(self):
        """More lines than come in one read, two of three of them blank."""
        lines = 30_000
        self.ask(b"x\n\n\r\n" * (lines // 3), numbered({number: BAD_TEXT for number in range(1, lines, 3)}))

    def test_byte_by_byte(self):
        """The numbers do not depend on how the input comes in."""
        pipes = {"stdin": subprocess.PIPE, "stdout": subprocess.PIPE}
        with subprocess.Popen([program(), "ask", "car.db", "--lines"], cwd=self.folder, bufsize=0, **pipes) as asks:
            for byte in LINES:
                asks.stdin.write(bytes([byte]))
            asks.stdin.close()
            self.see("what is written", numbered(ANSWERS), asks.stdout.read())
            self.see("the status", 0, asks.wait(SECONDS))

    def test_as_check_counts(self):
        """`check --requests` tells faults of the lines that `ask` refuses for their text, by the same numbers."""
        (self.folder / "changes.txt").write_bytes(LINES)
        status, _, said = ran(["check", "--requests", "changes.txt"], self.folder)
        self.see("lines with faults", (1, [5, 6, 9, 10]), (status, sorted({int(line.split()[1].rstrip(b":")) for line in said.splitlines()})))


class Run(InvocationCase):
    """Each answer of `run --lines` begins with the number of its line in the script."""

    # The lines above the first request: those of the cluster file, and the separator.
    above = CLUSTER.count(b"\n") + 1

    def ends_numbered(self, name, given, answers, above):
        self.ends(Invocation(name, given, numbered(answers, above), words=("run", "--lines")), Invocation(f"{name}, without numbers", given, plain(answers)))

    def test_first_script(self):
        self.see("the lines above", 14, self.above)
        self.ends_numbered("the first script", FIRST, dict(enumerate(FIRST_ANSWERS.splitlines(), 1)), 14)

    def test_lines(self):
        self.ends_numbered("blank and refused lines", CLUSTER + b"---\n" + LINES, ANSWERS, self.above)

    def test_ends_of_the_cluster_file(self):
        """A cluster file with blank lines, and with carriage returns at its ends."""
        cluster = b"\n\n" + CLUSTER.replace(b"\n", b"\r\n") + b"\r\n"
        self.ends_numbered("a cluster file of other ends", cluster + b"---\r\n" + LINES, ANSWERS, self.above + 3)

    def test_no_request(self):
        self.ends(Invocation("no line behind the separator", CLUSTER + b"---", words=("run", "--lines")))
        self.ends(faulty("no separator", CLUSTER + REQUESTS, "NoSeparator", words=("run", "--lines")))
