"""Makes the page's three parts of the sources beside it: python3 page/build.py writes crates/fr_page/src/page.rt, and out/page to look at.

index.html and style.css are taken as they are. The script's modules are joined into one module, each behind those that it imports; their imports and the
word `export` go, and nothing else is changed. So a name that a module declares may be declared in no other, one in each declaration. All is ASCII. What
cannot be joined so ends the build."""
import re
import sys
from pathlib import Path
from typing import NamedTuple

HERE = Path(__file__).resolve().parent
CONSTANTS = HERE.parent / "crates/fr_page/src/page.rt"
SHOWN = HERE.parent / "out/page"

IMPORT = re.compile(r'^import \{([\w,\s]+)\} from "\./(\w+\.js)";\n', re.M)
# What a browser reads first of the program, and of each module in it.
HEAD = "// The program of the planner's page: the modules of page/script, one behind another.\n"
MODULE = "\n// ---- {}\n\n"
TOLD = "//! The planner's page. `make page` makes this file of the sources in page/.\n"
# The program is cut between modules into so many constants. The prover takes none that is longer.
PIECES = 4
MOST_BYTES = 120_000
# `rt fmt` breaks a line that is longer.
WIDEST = 100


class Fault(Exception):
    """What in the sources cannot be joined."""


class Part(NamedTuple):
    """A part of the page: its path, its type, and its text, in constants one behind another."""

    path: str
    type: str
    constants: dict

    @property
    def text(self):
        return "".join(self.constants.values())


def modules(folder, name="main.js", found=None):
    """The texts of a module and of all that it imports, by their names, each behind those that it imports."""
    found = {} if found is None else found
    if name not in found:
        found[name] = None
        text = (folder / name).read_text()
        for _, other in IMPORT.findall(text):
            if other in found and found[other] is None:
                raise Fault(f"{name} and {other} import each other")
            modules(folder, other, found)
        del found[name]
        found[name] = text
    return found


def names(text):
    """The names that a module declares, and those of them that it exports."""
    declared = re.findall(r"^(?:export )?(?:async function|function|class|const|let) (\w+)", text, re.M)
    return declared, re.findall(r"^export (?:async function|function|class|const|let) (\w+)", text, re.M)


def look(found):
    """Ends the build where a name is declared twice, or imported and not exported."""
    owners = {}
    for module, text in found.items():
        for name in names(text)[0]:
            if name in owners:
                raise Fault(f"{name} is declared in {owners[name]} and in {module}")
            owners[name] = module
        for wanted, other in IMPORT.findall(text):
            for name in filter(None, map(str.strip, wanted.split(","))):
                if name not in names(found[other])[1]:
                    raise Fault(f"{module} imports {name}, which {other} does not export")
                if not re.search(rf"\b{name}\b", IMPORT.sub("", text)):
                    raise Fault(f"{module} imports {name}, which it does not use")
        if re.search(r"^import ", IMPORT.sub("", text), re.M):
            raise Fault(f"{module} has an import of another form")


def script(folder=HERE / "script"):
    """The modules as one, each a piece of it."""
    found = modules(folder)
    look(found)
    unused = sorted({path.name for path in folder.glob("*.js")} - set(found))
    if unused:
        raise Fault(f"no module imports {', '.join(unused)}")
    return [HEAD, *(MODULE.format(name) + re.sub(r"^export ", "", IMPORT.sub("", text), flags=re.M).lstrip("\n") for name, text in found.items())]


def cut(texts):
    """The texts in pieces of about the same length, none of them cut."""
    pieces, so_far, whole = [""] * PIECES, 0, sum(map(len, texts))
    for text in texts:
        pieces[min(PIECES - 1, (so_far + len(text) // 2) * PIECES // whole)] += text
        so_far += len(text)
    return pieces


def parts():
    """The parts of the page."""
    made = [
        Part("/", "text/html", {"DOCUMENT": (HERE / "index.html").read_text()}),
        Part("/slotplan.css", "text/css", {"STYLE": (HERE / "style.css").read_text()}),
        Part("/slotplan.js", "text/javascript", {f"PROGRAM_{at + 1}": piece for at, piece in enumerate(cut(script()))}),
    ]
    for part in made:
        if not part.text.isascii():
            raise Fault(f"{part.path} is not ASCII")
        for name, piece in part.constants.items():
            if not 0 < len(piece) <= MOST_BYTES:
                raise Fault(f"{name} has {len(piece):,} bytes, where 1 to {MOST_BYTES:,} are taken: PIECES is to be another")
    return made


def literal(text):
    """A text as Rattle has it between quotes."""
    return '"' + text.replace("\\", "\\\\").replace('"', '\\"') + '"'


def constant(name, text):
    """A constant, as `rt fmt` lays it out."""
    told, made = f"pub const {name}: &str =", literal(text)
    return f"{told} {made};\n" if len(f"{told} {made}".split("\n", 1)[0]) <= WIDEST else f"{told}\n    {made};\n"


def constants():
    """The file of the page's constants."""
    return "\n".join([TOLD, *(constant(name, piece) for part in parts() for name, piece in part.constants.items())])


def main():
    try:
        made = constants()
    except Fault as fault:
        sys.exit(f"page/build.py: {fault}")
    CONSTANTS.parent.mkdir(parents=True, exist_ok=True)
    CONSTANTS.write_text(made)
    SHOWN.mkdir(parents=True, exist_ok=True)
    for part in parts():
        (SHOWN / (part.path[1:] or "index.html")).write_text(part.text)
        print(f"{part.path} has {len(part.text):,} bytes")


if __name__ == "__main__":
    main()
