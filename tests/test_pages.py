"""What the pages name is there: files, commands, calls and what their links lead to; and each file says what it is for. It needs nothing built."""
import re
import subprocess
from fnmatch import fnmatch
from functools import cache

from tests import TOP
from tests.runner.case import Case
from tests.runner.parameters import for_values
from tools.calls import calls
from tools.heads import CRATES, FOLDERS, KINDS, files, head, is_class_of_tests, modules, said_by, sentences

PAGES = [TOP / "README.md", *(path for place in ("docs", "tests", "bench", "examples", "clients") for path in sorted((TOP / place).rglob("*.md")))]
# Pages on the code, in which a word of code is a word of the sources.
ON_CODE = [TOP / f"docs/{name}.md" for name in ("PROVED", "DEFINITIONS", "DEVELOPING", "DECISIONS")]
PLACES = [*(f"crates/*/{folder}" for folder in ("src", "specs", "proofs", "must-fail", "wrong-bodies")), "tests", "tools", "bench", "examples", "clients"]
# In DEVELOPING this is any file of a reader's own.
OWN = "crates/NAME/wrong-bodies/WHAT_IT_DOES.edit"
FILE = re.compile(r"`([\w./*-]+\.(?:rt|antt|edit|py))`")
CODE = re.compile(r"^```.*?\n(.*?)^```|`([^`\n]+)`", re.M | re.DOTALL)
WORD = re.compile(r"`(\w+(?:::\w+)*)`")
LINK = re.compile(r"\]\(([^)#\s]*)(?:#([^)\s]*))?\)")
HEADING = re.compile(r"^#+ (.*)$", re.M)
# What only the system can tell: when a poll wakes.
UNSAID = {"Port::watch"}
SLOTPLAN = re.compile(r"(?:^|\$ |-- |\| |bin/)slotplan ([a-z]+)", re.M)
MAKE = re.compile(r"(?:^|\$ )make ((?:[a-z][\w/-]*(?: |$))+)", re.M)
MODULE = re.compile(r"python3 -m ((?:tests|tools|clients)\.[\w.]+)")


def codes(page):
    """What stands in a page as code, in a line or in a block."""
    return "\n".join(block or line for block, line in CODE.findall(page.read_text()))


def missing(names, paths):
    """The names with which no path ends; a star stands for any letters."""
    return sorted(name for name in set(names) - {OWN} if not any(fnmatch(f"/{path}", f"*/{name}") for path in paths))


def anchors(page):
    """The names by which links lead to a page's headings."""
    return {re.sub(r"[^\w -]", "", heading.lower()).replace(" ", "-") for heading in HEADING.findall(page.read_text())}


@cache
def texts():
    """What the sources say, and beside them the tests, the Makefile, the list of crates and the formats. Each has its file's name before it."""
    paths = [path for kind in ("crates/*/src/**/*.rt", "crates/*/specs/*.antt", "tests/**/*.py", "tools/*.py") for path in TOP.glob(kind)]
    return [f"{path.stem}\n{path.read_text()}" for path in [*paths, *(TOP / name for name in ("Makefile", "crates.txt", "HANDLES", "docs/FORMATS.md"))]]


@cache
def words():
    return {word for text in texts() for word in re.findall(r"\w+", text)}


@cache
def is_declared(whose, name):
    """Whether some source that has the word `whose`, or is named so, has a function, a field, a case or a definition of this name."""
    declared = re.compile(rf"\bfn {name}\b|^\s*(?:pub )?{name}\b(?:: |,|\(| \{{)|\bghost {name}\b|^{name}\b", re.M)
    return any(re.search(rf"\b{whose}\b", text) and declared.search(text) for text in texts())


class NamesOnPages(Case):
    """Each file, command, call and page that a page names is there."""

    def on_each(self, what, found, pages=PAGES):
        for page in pages:
            self.see(f"{page.relative_to(TOP)}: {what} that are not there", [], sorted(set(found(page))))

    def test_files(self):
        """The end of a file's path is enough, as `specs/Book.antt`."""
        paths = [str(path.relative_to(TOP)) for place in PLACES for path in TOP.glob(f"{place}/**/*")]
        self.on_each("files", lambda page: missing(FILE.findall(page.read_text()), paths))

    def test_links(self):
        def lost(page):
            for path, anchor in LINK.findall(page.read_text()):
                if ":" not in path:
                    to = (page.parent / path).resolve() if path else page
                    if not to.exists() or anchor and anchor not in anchors(to):
                        yield f"{path}#{anchor}"

        self.on_each("ends of links", lost)

    def test_commands(self):
        """Of `slotplan` by its help, of `make` by the Makefile."""
        jobs = {path.stem for path in (TOP / "tests/help").iterdir()}
        targets = set(re.findall(r"^([\w/-]+):", (TOP / "Makefile").read_text(), re.M)) | {"out/unproved/slotplan", "out/slotplan-plans"}
        self.see("there are commands and targets", (True, True), ("serve" in jobs, "prove" in targets))
        self.on_each("commands of slotplan", lambda page: set(SLOTPLAN.findall(codes(page))) - jobs)
        self.on_each("targets of make", lambda page: {word for found in MAKE.findall(codes(page)) for word in found.split()} - targets)
        self.on_each("modules", lambda page: [it for it in MODULE.findall(codes(page)) if not list(TOP.glob(f"{it.replace('.', '/')}*"))])

    def test_make_alone(self):
        """It prints what there is to make: each target but those of which others are made."""
        within = {"help", "run-unproved", "demo-unproved", "look-unproved", "build", "toolchain"}
        there = set(re.findall(r"^\.PHONY: (.*)$", (TOP / "Makefile").read_text(), re.M)[0].split()) - within
        said = subprocess.run(["make", "--no-print-directory"], cwd=TOP, capture_output=True, text=True, check=True).stdout
        self.see("targets", there | {"out/slotplan-plans"}, set(re.findall(r"^  make (\S+)", said, re.M)))

    def test_words(self):
        """`Type::call` is a call, a field or a case of the type; any other word of code stands in the sources."""

        def lost(page):
            for name in WORD.findall(page.read_text()):
                *whose, last = name.split("::")
                if not set(name.split("::")) <= words() or whose and not is_declared(whose[-1], last):
                    yield name

        self.on_each("words of the sources", lost, ON_CODE)


class Heads(Case):
    """Each file of the sources, the tests and the benchmarks says what it is for."""

    @for_values(*CRATES)
    def test_crates(self, crate):
        """A head of a file of src/ is one or two sentences."""
        for kind in KINDS:
            for path in files(crate, kind):
                said = sentences(head(path, kind.comment))
                self.see(f"{path.relative_to(TOP)}: it has a head", True, said >= 1)
                self.see(f"{path.relative_to(TOP)}: it is short", True, said <= 2 or kind.folder != "src")

    @for_values(*CRATES)
    def test_calls(self, crate):
        """Each public call has a text, and a clause, where any can say what it does."""
        silent = [call.name for call in calls(crate) if not call.text or not call.clauses and call.name not in UNSAID]
        self.see("calls that say nothing of themselves", [], silent)

    def test_calls_of_lib(self):
        """lib.rt of fr_page has its calls itself."""
        self.see("calls of fr_page", ["Part::bytes", "Part::digest"], [call.name for call in calls("fr_page")])

    @for_values(*FOLDERS)
    def test_modules(self, folder):
        silent = [str(path) for path, module in modules(folder) for it in [module, *filter(is_class_of_tests, module.body)] if not said_by(it)]
        self.see("files and classes that say nothing of themselves", [], silent)
