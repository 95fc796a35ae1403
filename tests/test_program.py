"""The built program as its users start it: its words, its help, its script's size, its input and its output.

What is wanted was typed by hand from docs/FORMATS.md, the help in tests/help; none of it is the program's own output."""
from tests import TOP
from tests.drivers.invocations import Invocation, InvocationCase, faulty
from tests.models.messages import FIRST, FIRST_ANSWERS
from tests.runner.parameters import for_values

HELP = {file.stem: file.read_bytes() for file in (TOP / "tests/help").glob("*.txt")}
SCRIPT_BYTES = 16_777_216

NOT_UTF8 = b"""\
error: a word is not UTF-8 text

For more information, try '--help'.
"""


def usage(said, *end):
    """What is said of words that are no job, before the way to help."""
    return "\n".join([f"error: {said}", "", *end, "For more information, try '--help'.", ""]).encode()


def unknown(word, *tip):
    return usage(f"unrecognized subcommand '{word}'", *tip, "Usage: slotplan <COMMAND>", "")


# The words that each command wants, in the order in which they stand.
REQUIRED = {
    "create": "<DB> <CONFIG>",
    "migrate": "<DB>",
    "serve": "<DB> <PORT>",
    "ask": "<DB>",
    "diff": "<DB> <FROM> <TO>",
    "layout": "<DB> <VARIANT> <FRAME>",
    "room": "<DB> <VARIANT> <FRAME> <REPETITION>",
    "export": "<DB> <VARIANT> <ROWS>",
    "import": "<DB> <KEY> <VARIANT> <LABEL> <FILE>",
    "replace": "<DB> <KEY> <VARIANT> <FILE>",
    "try": "<DB> <KEY> <VARIANT> <FILE>",
    **dict.fromkeys(("cluster", "variants", "nodes"), "<DB>"),
    **dict.fromkeys(("grants", "frames", "schedule", "gaps", "load", "rows", "picture"), "<DB> <VARIANT>"),
}

NO_ROWS = usage("export takes ROWS that are frames, placements or signals", "Usage: slotplan <COMMAND>", "")
NO_REPLACEMENT = usage("try takes --whole only with --replace", "Usage: slotplan <COMMAND>", "")
NO_FILE = usage("check takes one of these: CONFIG, --requests FILE, --rows FILE, --path PATH, --register DB", "Usage: slotplan <COMMAND>", "")


class Help(InvocationCase):
    """Each command's help is printed whole, and so is the program's."""

    def test_program(self):
        for words in ("--help",), ("-h",), ("help",):
            self.ends(Invocation(f"the words {words}", written=HELP["slotplan"], words=words))

    def test_each_command(self):
        listed = [line.split()[0] for line in HELP["slotplan"].decode().partition("Commands:\n")[2].partition("\n\n")[0].splitlines()]
        self.see("the commands that have a help here", sorted(listed), sorted({*HELP, "help"} - {"slotplan"}))
        for name in HELP.keys() - {"slotplan"}:
            self.ends(Invocation(f"the help of {name}", written=HELP[name], words=(name, "--help")))

    def test_told(self):
        """Each help first tells in a line what its command does, and shows an example; so a report whose text was forgotten is seen."""
        for name, text in HELP.items():
            front, _, rest = text.decode().partition("\n\nUsage: slotplan")
            self.see(f"the help of {name} tells what it does", True, bool(front.strip()))
            self.see(f"the help of {name} shows an example", True, "\nExample:" in rest)

    @for_values("run", "serve")
    def test_other_words(self, name):
        for words in (name, "-h"), ("help", name):
            self.ends(Invocation(f"the words {words}", written=HELP[name], words=words))


class Words(InvocationCase):
    """Words that name no job end with status 2, and standard error says why; the usage comes with it."""

    def no_job(self, said, *words, given=FIRST):
        self.ends(Invocation(f"the words {words}", given, said=said, status=2, words=words))

    def test_no_words(self):
        self.no_job(HELP["slotplan"], given=b"")

    def test_unknown_command(self):
        self.no_job(unknown("jump"), "jump")
        for word in "Run", "run ":
            self.no_job(unknown(word, "  tip: a similar subcommand exists: 'run'", ""), word)

    def test_too_many(self):
        for more in "run", "x":
            self.no_job(usage(f"unexpected argument '{more}' found", "Usage: slotplan run [OPTIONS]", ""), "run", more)

    @for_values(*REQUIRED)
    def test_too_few(self, name):
        wanted = REQUIRED[name].split()
        options = [] if name != "room" else ["--supplier <NAME>"]
        for count in range(len(wanted)):
            lacking = "".join(f"\n  {word}" for word in (*options, *wanted[count:]))
            end = f"Usage: slotplan {' '.join((name, *options, *wanted))}"
            said = f"the following required arguments were not provided:{lacking}"
            self.no_job(usage(said, end, ""), name, *"dvwxyz"[:count])

    def test_ports(self):
        for port in "0", "65536":
            self.no_job(usage(f"invalid value '{port}' for '<PORT>': {port} is not in 1..=65535"), "serve", "d", port, given=b"")

    def test_numbers(self):
        for option, value, most in ("--count", "N", 1_000_000), ("--seconds", "N", 3_600), ("--memory", "MIB", 1_000_000):
            for number in "0", str(most + 1), "x":
                why = f"{number} is not in 1..={most}" if number.isdigit() else "invalid digit found in string"
                self.no_job(usage(f"invalid value '{number}' for '{option} <{value}>': {why}"), "serve", "d", "1", option, number, given=b"")

    def test_options_of_a_server(self):
        """Each has a value, and stands there once; then the register is opened."""
        end = "Usage: slotplan serve [OPTIONS] <DB> <PORT>"
        for option in "--count <N>", "--seconds <N>", "--memory <MIB>":
            name = option.split()[0]
            self.no_job(usage(f"a value is required for '{option}' but none was supplied"), "serve", "d", "1", name, given=b"")
            self.no_job(usage(f"the argument '{option}' cannot be used multiple times", end, ""), "serve", "d", "1", *(name, "7") * 2, given=b"")
            self.ends(Invocation(f"the word {name}", said=b"slotplan: NotARegister\n", status=1, words=("serve", "d", "1", name, "64")))

    def test_numbers_of_reports(self):
        for number, why in ("4294967296", "4294967296 is not in 0..=4294967295"), ("x", "invalid digit found in string"):
            self.no_job(usage(f"invalid value '{number}' for '<REPETITION>': {why}"), "room", "d", "v", "f", number, "--supplier", "s")
            self.no_job(usage(f"invalid value '{number}' for '--part <N>': {why}"), "export", "d", "v", "frames", "--part", number)

    def test_rows(self):
        for rows in "frame", "Frames", "variants", "":
            self.no_job(NO_ROWS, "export", "d", "v", rows)

    def test_whole_imports(self):
        for words in ("d", "k", "v", "f", "--whole"), ("--whole", "d", "-", "v", "f"):
            self.no_job(NO_REPLACEMENT, "try", *words)

    def test_files_to_check(self):
        two = ("c", "--requests", "r"), ("c", "--rows", "r"), ("--requests", "q", "--rows", "r"), ("c", "--requests", "q", "--rows", "r")
        for words in (), *two:
            self.no_job(NO_FILE, "check", *words)

    def test_not_utf8(self):
        for words in (b"\xff",), (b"run\xff",), (b"\xffrun",), (b"run", b"\xff"), (b"--help", b"\xff"), (b"r\xc0\xb5n",):
            self.no_job(NOT_UTF8, *words)


class Sizes(InvocationCase):
    """A script has at most 16,777,216 bytes; a longer one is `TooLong`, and one that memory cannot hold `NoMemory`."""

    feeds = b"\n" * SCRIPT_BYTES

    def test_line_feeds(self):
        self.ends(faulty("as many line feeds as a script has bytes", self.feeds, "NoSeparator"), faulty("one line feed more", self.feeds + b"\n", "TooLong"))

    def test_first_script(self):
        longest = FIRST + self.feeds[len(FIRST) :]
        self.ends(Invocation("the first script, as long as a script may be", longest, FIRST_ANSWERS))
        self.ends(faulty("the first script, one byte longer", longest + b"\n", "TooLong"))

    def test_without_end(self):
        self.ends(faulty("a script without end", b"", "TooLong", line='exec "$@" < /dev/zero'))

    def test_no_memory(self):
        self.ends(faulty("a script that memory cannot hold", self.feeds, "NoMemory", line='ulimit -v 16384; exec "$@"'))


class Streams(InvocationCase):
    """Input that cannot be read is `ReadFailed`; output that is closed, full or read by nobody is `WriteFailed`."""

    def test_input(self):
        self.ends(faulty("a folder for standard input", b"", "ReadFailed", line='exec "$@" < /'))
        self.ends(faulty("standard input closed", b"", "ReadFailed", line='exec "$@" <&-'))

    def test_no_reader(self):
        self.ends(faulty("standard output without a reader", FIRST, "WriteFailed", is_read=False))

    @for_values("run", "--help")
    def test_output(self, word):
        for end, is_said in (">&-", True), ("> /dev/full", True), (">&- 2>&-", False), ("> /dev/full 2> /dev/full", False):
            said = b"slotplan: WriteFailed\n" if is_said else b""
            self.ends(Invocation(f"{word} {end}", FIRST, said=said, status=1, words=(word,), line=f'exec "$@" {end}'))

    def test_standard_error(self):
        self.ends(Invocation("usage 2> /dev/full", status=2, words=("jump",), line='exec "$@" 2> /dev/full'))
        self.ends(Invocation("usage 2>&-", status=2, words=("jump",), line='exec "$@" 2>&-'))
        self.ends(Invocation("usage >&-", said=unknown("jump"), status=2, words=("jump",), line='exec "$@" >&-'))
        self.ends(Invocation("no separator 2> /dev/full", b"x\n", status=1, line='exec "$@" 2> /dev/full'))
