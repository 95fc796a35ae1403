"""What each file is for: python3 -m tools.heads [WHERE..] prints the first sentence of the comment with which it begins; WHERE is a crate, tests,
tools, bench or clients, and without it all are printed. `make map` runs it.

A head is the comment at a file's beginning, up to its first empty line. That of a file of specs/ begins with the words that the file gives a meaning,
and a colon. Files of src/ stand by name, and those of specs/ behind the ones that they need. Of a test's module each class stands below it. lib.rt and
Lib.antt are lists of modules: the first tells what the crate is for, the second nothing. tests/test_pages.py looks whether each file has a head."""
import ast
import re
import signal
import sys
from typing import NamedTuple

from tests import TOP

# The lowest first.
CRATES = [line.partition(":")[0].split()[0] for line in (TOP / "crates.txt").read_text().splitlines() if line and not line.startswith("#")]
FOLDERS = "tests", "tools", "bench", "clients"
END = re.compile(r"[.!?](?= [A-Z`\d])|[.!?]$")


class Kind(NamedTuple):
    """A crate's folder, how its files end, and how the lines of their heads begin."""

    folder: str
    pattern: str
    comment: str


KINDS = Kind("src", "**/*.rt", "//!"), Kind("specs", "**/*.antt", "--"), Kind("proofs", "*.antt", "--")


def files(crate, kind):
    """The files of a crate's folder, but the list of its modules."""
    top = TOP / "crates" / crate / kind.folder
    found = [path for path in sorted(top.glob(kind.pattern)) if path.stem.lower() != "lib"]
    return by_need(crate, found) if kind.folder == "specs" else found


def by_need(crate, found):
    """Files of specs/, each behind those that it imports."""
    placed, named = [], {path.stem: path for path in found}

    def place(path):
        if path in placed:
            return
        for name in re.findall(rf"\bRattle\.{crate}\.specs\.(\w+)\.", path.read_text()):
            if name in named and named[name] != path:
                place(named[name])
        placed.append(path)

    for path in found:
        place(path)
    return placed


def head(path, comment):
    """The comment with which a file begins, as one line."""
    said = []
    for line in path.read_text().splitlines():
        if not line.startswith(comment) or line == comment:
            break
        said.append(line.removeprefix(comment).strip())
    return " ".join(said)


def said_by(node):
    """What a module or a class of Python says of itself, as one line, up to its first empty line."""
    return " ".join((ast.get_docstring(node) or "").partition("\n\n")[0].split())


def sentences(text):
    """How many sentences a text has."""
    return len(END.findall(text))


def first(text):
    """The first sentence of a text."""
    found = END.search(text)
    return text[: found.end()] if found else text


def is_class_of_tests(node):
    """Whether it is a class that has tests, or is given some by what stands above it."""
    return isinstance(node, ast.ClassDef) and bool(
        node.decorator_list or any(isinstance(it, ast.FunctionDef) and it.name.startswith("test_") for it in node.body)
    )


def modules(folder):
    """Each file of Python below a folder, with what it has."""
    for path in sorted((TOP / folder).rglob("*.py"), key=lambda it: (len(it.parts), it)):
        if path.name != "__init__.py":
            yield path, ast.parse(path.read_text())


def rows_of_crate(crate):
    """A row for each file: how deep it stands, its name, and what it is for."""
    lib = TOP / "crates" / crate / "src/lib.rt"
    yield 0, f"crates/{crate}", first(head(lib, "//!")) if lib.exists() else ""
    for kind in KINDS:
        for path in files(crate, kind):
            yield 1, str(path.relative_to(TOP / "crates" / crate)), first(head(path, kind.comment))


def rows_of_folder(folder):
    yield 0, folder, ""
    for path, module in modules(folder):
        yield 1, str(path.relative_to(TOP / folder)), first(said_by(module))
        for node in module.body:
            if is_class_of_tests(node):
                yield 2, node.name, first(said_by(node))


def main(where):
    for name in where or [*CRATES, *FOLDERS]:
        if name not in (*CRATES, *FOLDERS):
            sys.exit(f"{name} is none of {', '.join((*CRATES, *FOLDERS))}")
        rows = list(rows_of_folder(name) if name in FOLDERS else rows_of_crate(name))
        width = max(len(it) + 2 * depth for depth, it, _ in rows) + 2
        for depth, it, text in rows:
            print(f"{'  ' * depth + it:{width}}{text}".rstrip())
        print()


if __name__ == "__main__":
    # (who reads may stop before the end)
    signal.signal(signal.SIGPIPE, signal.SIG_DFL)
    main(sys.argv[1:])
