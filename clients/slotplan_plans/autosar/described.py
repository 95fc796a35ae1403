"""The words by which commands read descriptions, and what is proposed of them."""
from dataclasses import dataclass, field, replace

from ..faults import Fault
from ..fibex import reading as fibex
from ..fibex.document import is_fibex
from ..tables import rows_of
from . import known, reading
from .proposal import Proposal

SUPPLIERS, SENDERS = ("ecu", "supplier"), ("triggering", "ecu")


def add_reading(parser, tables=True):
    """How a description is read; with the tables that tell of what it does not."""
    parser.add_argument("--cluster", metavar="NAME", help="which FlexRay cluster, where the description has several")
    parser.add_argument("--variant-of", metavar="LABEL", action="append", default=[], help="what of variation points holds")
    parser.add_argument("--senders", metavar="TABLE", help="a table with the columns triggering, ecu: who sends, where the file does not tell")
    if tables:
        parser.add_argument("--suppliers", metavar="TABLE", help="a table with the columns ecu, supplier")
        parser.add_argument("--names", metavar="TABLE", help="the names.csv that `import` wrote: what is called so stays so")


@dataclass
class Described:
    """How a description is read, by the words of a command."""

    cluster: str = None
    labels: tuple = ()
    senders: dict = field(default_factory=dict)
    suppliers: dict = field(default_factory=dict)
    names: known.Known = field(default_factory=known.Known)

    def found(self, files, texts=None):
        """What is found in files, or in these texts of them: of AUTOSAR, or in a file of FIBEX."""
        if texts is None and any(map(is_fibex, files)):
            return fibex.read(files, self.cluster, self.senders)
        return reading.read(files, self.cluster, texts, self.senders, self.labels)

    def proposal(self, found, variant=None, without=()):
        """What is proposed of what was found, without the frames of some paths."""
        kept = replace(found, frames={path: frame for path, frame in found.frames.items() if path not in without})
        return Proposal(kept, self.suppliers, variant, self.names)

    def proposed(self, files, variant=None):
        """What is proposed of files."""
        return self.proposal(self.found(files), variant)


def described(given):
    """How a description is read by a command line."""
    table = lambda name, columns: pairs_in(path, columns) if (path := getattr(given, name, None)) else {}
    names = known.read(given.names) if getattr(given, "names", None) else known.Known()
    return Described(given.cluster, tuple(given.variant_of), table("senders", SENDERS), table("suppliers", SUPPLIERS), names)


def pairs_in(path, columns):
    """A table of two columns: what the second has for each of the first."""
    found = {}
    for line, (key, value) in rows_of(path, columns):
        if found.setdefault(key, value) != value:
            raise Fault(f"{path}: line {line}: {key!a:.200} stands above with another {columns[1]}")
    return found
