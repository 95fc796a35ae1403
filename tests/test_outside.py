"""Files, connections and clocks are reached from a few files of the sources alone. It needs nothing built.

No clause sees what a job does with the system behind the crates' backs. Who reads these files has read all that can touch a path, a port or a clock."""
import re

from tests import TOP
from tests.runner.case import Case
from tools.heads import CRATES

# What each file may use, of the crates that are no tests.
MAY = {
    "fr_cli/src/files/inspection.rt": {"fs", "os"},
    "fr_cli/src/files/local_files.rt": {"fs"},
    "fr_cli/src/files/local_registers.rt": {"fs", "os"},
    "fr_cli/src/files/local_watch.rt": {"fs", "os"},
    "fr_cli/src/streams/local_listener.rt": {"net", "os", "mio"},
    "fr_cli/src/timed_stream.rt": {"net", "time"},
    "fr_desks/src/file_desk.rt": {"fs"},
    "fr_links/src/held.rt": {"time", "mio"},
    "fr_links/src/link.rt": {"mio"},
    "fr_links/src/links.rt": {"time", "mio"},
    "fr_links/src/port.rt": {"mio"},
    "fr_links/src/table.rt": {"time", "mio"},
    "fr_links/src/wire.rt": {"net", "mio"},
    "slotplan/src/main.rt": {"env", "process"},
    "slotplan/src/notices.rt": {"time"},
    "slotplan/src/streams.rt": {"fs", "os"},
}
TESTS = {"fr_tests", "fr_tests_program", "fr_tests_registers"}
SYSTEM = {"fs", "net", "time", "process", "env", "thread", "os"}
# A path into std, and the first names of each that a list in braces brings in; and the crate by which connections wait for one another.
PATH, LIST, MIO = re.compile(r"\bstd::(\w+|\*)"), re.compile(r"\bstd::\{([^;]*)\}"), re.compile(r"\bmio::")


def code(text):
    """The text without comments and without what is said in quotes."""
    return re.sub(r"//[^\n]*", "", re.sub(r'"(?:[^"\\]|\\.)*"', '""', text))


def modules(text):
    """What reaches the system that a source names: modules of std, and mio."""
    plain = code(text)
    listed = {name for found in LIST.findall(plain) for name in re.findall(r"(?:^|,)\s*(\w+|\*)", re.sub(r"\{[^{}]*\}", "", found))}
    named = set(PATH.findall(plain)) | listed
    return (SYSTEM if "*" in named else named & SYSTEM) | ({"mio"} if MIO.search(plain) else set())


def sources():
    for crate in CRATES:
        if crate not in TESTS:
            for path in sorted((TOP / "crates" / crate / "src").rglob("*.rt")):
                yield str(path.relative_to(TOP / "crates")), path.read_text()


class Outside(Case):
    """`std::fs`, `std::net`, `std::time` and other ways to the system stand in the files that are named here, and in no other."""

    def test_files(self):
        found = {name: used for name, text in sources() if (used := modules(text))}
        self.see("some are found", True, {"fr_cli/src/files/local_watch.rt", "slotplan/src/streams.rt"} <= set(found))
        for name, used in found.items():
            self.see(f"what {name} uses, and may not", set(), used - MAY.get(name, set()))

    def test_what_is_found(self):
        """A path, a list, a list in a list, and all of std are found; comments and texts are not."""
        for text, wanted in (
            ("use std::fs;", {"fs"}),
            ("use std::fs::{self, File};", {"fs"}),
            ("use std::{io, fs::File};", {"fs"}),
            ("use std::{\n    fs,\n    net::{TcpStream, Shutdown},\n};", {"fs", "net"}),
            ("let at = std::time::Instant::now();", {"time"}),
            ("use std::*;", SYSTEM),
            ("use std::{io::{self, Read}, *};", SYSTEM),
            ("// std::fs is not used\nlet s = \"std::net\";", set()),
            ("use std::collections::{BTreeMap};", set()),
            ("use mio::net::TcpStream;", {"mio"}),
        ):
            self.see(text, wanted, modules(text))
