"""The laws of crates: python3 -m tools.laws [--word WORD] [CRATE..] prints each law with what it says in words, and the definition that is
proved of it, as they stand in the sources. `make laws WORD=released` runs it, and prints the laws in which that word stands.

A law is a public function of laws.rt, or of a file of the folder laws/, that does nothing: its contract is what holds. Its clause names a
definition of specs/, which is found by what the file imports."""
import argparse
import re
import signal
import sys
from typing import NamedTuple

from tests import TOP

from .calls import ITEM, clauses_behind, masked, text_before
from .heads import CRATES

IMPORT = re.compile(r"^ghost use Rattle\.(\w+)\.specs\.(\w+)\.\{([^}]*)\};", re.M)


class Definition(NamedTuple):
    """Where a definition stands, and its lines, with the comment before it."""

    place: str
    lines: list


class Law(NamedTuple):
    """Its name, where it stands, its text, its clause, and the definition that the clause names, if that is found."""

    name: str
    place: str
    text: str
    clause: str
    definition: Definition | None

    def has(self, word):
        """Whether the word stands somewhere in it, in whatever case."""
        stated = self.definition.lines if self.definition else []
        return word.lower() in "\n".join([self.name, self.text, self.clause, *stated]).lower()


def laws(crate, top=TOP):
    """The laws of a crate, file by file."""
    source = top / "crates" / crate / "src"
    for path in [*source.glob("laws.rt"), *sorted(source.glob("laws/*.rt"))]:
        text = path.read_text()
        code = masked(text)
        named = {name.strip(): (of, file) for of, file, names in IMPORT.findall(text) for name in names.split(",")}
        for item in ITEM.finditer(code):
            if item["public"]:
                at = item.start("name") - len("fn ")
                _, clauses = clauses_behind(text, code, at)
                clause = " ".join(said for _, _, said in clauses)
                stated = definition(top, named, re.match(r"\w*", clause)[0])
                yield Law(item["name"], placed(top, path, text, at), text_before(text, item.start()), clause, stated)


def placed(top, path, text, at):
    """A place in a file, by its line."""
    return f"{path.relative_to(top)}:{text.count(chr(10), 0, at) + 1}"


def definition(top, named, name):
    """What this word means, by the file of specs/ that is imported for it: the lines around its declaration that have no empty line between them."""
    if name not in named:
        return None
    crate, file = named[name]
    path = top / "crates" / crate / "specs" / f"{file}.antt"
    text = path.read_text() if path.is_file() else ""
    found = re.search(rf"^ *(?:abbrev|unfoldable|record) pub {name}\b|^ *pub record {name}\b", text, re.M)
    if not found:
        return None
    gap, end = text.rfind("\n\n", 0, found.start()), text.find("\n\n", found.start())
    begin = 0 if gap < 0 else gap + 2
    block = text[begin : len(text) if end < 0 else end].rstrip("\n").split("\n")
    return Definition(placed(top, path, text, begin), block)


def lines_of(law):
    """What is printed of a law."""
    yield f"  {law.name}  ({law.place})"
    yield f"      {law.text}"
    if law.definition:
        yield f"    {law.clause}  ({law.definition.place})"
        yield from (f"      {line}".rstrip() for line in law.definition.lines)
    else:
        yield f"    {law.clause}"


def main(words):
    parser = argparse.ArgumentParser(prog="make laws", description="Prints the laws of crates.")
    parser.add_argument("--word", default="")
    parser.add_argument("crates", nargs="*")
    given = parser.parse_args(words)
    if set(given.crates) - set(CRATES):
        sys.exit(f"CRATES are some of: {', '.join(CRATES)}")
    found = {crate: [law for law in laws(crate) if law.has(given.word)] for crate in given.crates or CRATES}
    if not any(found.values()):
        sys.exit(f"no law has the word {given.word}" if given.word else "there is no law")
    for crate, of_crate in found.items():
        if of_crate:
            print(crate)
        for law in of_crate:
            print("\n".join(lines_of(law)), end="\n\n")


if __name__ == "__main__":
    # (who reads may stop before the end)
    signal.signal(signal.SIGPIPE, signal.SIG_DFL)
    main(sys.argv[1:])
