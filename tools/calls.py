"""What the public calls of crates promise: python3 -m tools.calls CRATE.. prints each call that a user of the crate can name, with its text, and its
clauses as they stand in the source. `make calls CRATES='fr_base ..'` runs it.

A call is one that lib.rt has or exports, or a public module that it names; a method of a type, or of a trait, that is exported so. Its clauses are
those that a caller may cite: `requires`, under which it may be called, and `ensures`, each with its name. A method of a trait has those of the trait."""
import re
import signal
import sys
from typing import NamedTuple

from tests import TOP

from .heads import CRATES

ITEM = re.compile(r"^(?P<indent> *)(?P<public>pub )?(?:const )?fn (?P<name>\w+)", re.M)
BLOCK = re.compile(r"^(?:pub )?(?P<kind>impl|trait)\b(?P<rest>[^{]*)\{", re.M)
USE = re.compile(r"^pub use ([\w:]+?)::(?:(\w+)|\{([^}]*)\});", re.M)
END = re.compile(r"\s*(?:(?=requires |ensures )|\{|;)")
OWN = re.compile(r"^pub (?:const )?(?:fn|struct|enum|trait) (\w+)", re.M)
MODULE = re.compile(r"^pub mod (\w+);", re.M)
CLAUSE = re.compile(r"\s*(requires|ensures)(?: (\w+))? \{")
QUOTED = re.compile(r"//[^\n]*|\"(?:\\.|[^\"\\])*\"|'(?:\\[^\n]+?|[^\\\n])'")
BRACKETS = {"{": 1, "}": -1, "(": 1, ")": -1, "[": 1, "]": -1}


class Call(NamedTuple):
    """Its name, where it stands, its text, its signature, and its clauses: a word, a name or none, and a text."""

    name: str
    place: str
    text: str
    signature: str
    clauses: list


def exported(source):
    """What lib.rt has or exports by name, and its public modules, by the files that have them."""
    lib = source / "lib.rt"
    text = lib.read_text() if lib.exists() else ""
    names = {name.strip() for _, one, many in USE.findall(text) for name in (one or many).split(",") if name.strip()}
    return names | set(OWN.findall(text)), set(MODULE.findall(text))


def masked(text):
    """The text with letters in the place of what stands in quotes, and spaces in that of comments, so that its brackets are those of the code."""
    return QUOTED.sub(lambda found: re.sub(r"[^\n]", " " if found[0].startswith("//") else "x", found[0]), text)


def closed(text, at):
    """Where the bracket that is open before this place is closed."""
    depth = 1
    while depth:
        depth += BRACKETS.get(text[at], 0)
        at += 1
    return at


def one_line(text):
    return " ".join(text.split())


def without_generics(text):
    """The text without what stands between < and >."""
    while (less := re.sub(r"<[^<>]*>", "", text.replace("->", "  "))) != text:
        text = less
    return text


def owner(text, at):
    """The type or trait in whose block this place lies, and whether that is a trait, or an impl of a trait."""
    for block in BLOCK.finditer(text):
        if block.start() < at < closed(text, block.end()):
            rest = without_generics(block["rest"]).strip()
            return re.match(r"\w+", rest)[0], block["kind"] == "trait", " for " in rest
    return None, False, False


def text_before(text, at):
    """The comment of a call, which stands before it and its attributes."""
    said = []
    for line in reversed(text[:at].splitlines()):
        line = line.strip()
        if line.startswith("///"):
            said.append(line.removeprefix("///").strip())
        elif not line.startswith("#["):
            break
    return one_line(" ".join(reversed(said)))


def clauses_behind(text, code, at):
    """The signature, and the clauses behind it."""
    here = at
    while not END.match(code, here):
        here = closed(code, here + 1) if BRACKETS.get(code[here]) == 1 else here + 1
    signature, found = one_line(text[at:here]).replace("( ", "(").replace(", )", ")"), []
    while clause := CLAUSE.match(code, here):
        here = closed(code, clause.end())
        found.append((clause[1], clause[2] or "", one_line(text[clause.end() : here - 1])))
    return signature, found


def calls(crate):
    """The public calls of a crate, file by file."""
    source = TOP / "crates" / crate / "src"
    names, open_modules = exported(source)
    for path in sorted(source.rglob("*.rt")):
        text, place = path.read_text(), path.relative_to(source)
        code, is_open = masked(text), place.parts[0].removesuffix(".rt") in open_modules
        for item in ITEM.finditer(code):
            whose, of_trait, by_trait = owner(code, item.start())
            if by_trait or not (item["public"] or of_trait):
                continue
            if not (is_open or (whose or item["name"]) in names):
                continue
            at = item.start("name") - len("fn ")
            name = f"{whose}::{item['name']}" if whose else item["name"]
            where = f"crates/{crate}/src/{place}:{text.count(chr(10), 0, at) + 1}"
            yield Call(name, where, text_before(text, item.start()), *clauses_behind(text, code, at))


def main(crates):
    if not crates or set(crates) - set(CRATES):
        sys.exit(f"CRATES are some of: {', '.join(CRATES)}")
    for crate in crates:
        for call in calls(crate):
            print(f"{call.name}  ({call.place})\n    {call.signature}\n    {call.text}")
            for word, name, text in call.clauses:
                print(f"    {f'{word} {name}'.rstrip()}: {text}")
            print()


if __name__ == "__main__":
    # (who reads may stop before the end)
    signal.signal(signal.SIGPIPE, signal.SIG_DFL)
    main(sys.argv[1:])
