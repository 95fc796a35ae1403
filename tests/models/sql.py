"""The SQL that stands in the sources of `fr_tables` and `fr_store`."""
import re

from tests import TOP

SOURCES = [TOP / "crates" / crate / "src" for crate in ("fr_tables", "fr_store")]
TEXT = re.compile(r'"((?:CREATE|INSERT|SELECT|UPDATE|DELETE|WITH) [^"]*)"')
FOR_TESTS = re.compile(r"#\[cfg\(test\)\]\s+(?:pub(?:\(crate\))? )?mod (\w+);")


def sources():
    """Each file that is not for tests alone, by its name, with its content."""
    texts = {(src, file): file.read_text() for src in SOURCES for file in sorted(src.rglob("*.rt"))}
    for_tests = {name for text in texts.values() for name in FOR_TESTS.findall(text)}
    return [(str(file.relative_to(src)), text) for (src, file), text in texts.items() if file.stem not in for_tests]


def in_table(table, begin):
    """The one statement that begins so in the file of this table."""
    text, = {text for text in TEXT.findall((SOURCES[0] / f"tables/{table}.rt").read_text()) if text.startswith(begin)}
    return text
