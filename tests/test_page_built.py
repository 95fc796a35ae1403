"""The planner's page as it is built: what is committed is what its sources give, and it fetches nothing from elsewhere. It needs nothing built."""
import re
import sys
import tempfile
from pathlib import Path

from tests import TOP
from tests.runner.case import Case

sys.path.insert(0, str(TOP / "page"))
import build  # noqa: E402

COMMITTED = TOP / "crates/fr_page/src/page.rt"
CONSTANT = re.compile(r'^pub const (\w+): &str =\s+"((?:[^"\\]|\\.)*)";$', re.M | re.DOTALL)
ESCAPED = {"n": "\n", '"': '"', "\\": "\\"}
# What the prover takes: a constant of more bytes cannot be named in a contract.
MOST_BYTES = 149_500


def constants():
    """The constants of the committed file, as Rattle reads them."""
    return {name: re.sub(r"\\(.)", lambda found: ESCAPED[found[1]], text, flags=re.DOTALL) for name, text in CONSTANT.findall(COMMITTED.read_text())}


def program():
    return "".join(text for name, text in constants().items() if name.startswith("PROGRAM_"))


class Committed(Case):
    """The file of the constants."""

    def test_it_is_what_the_sources_give(self):
        self.see("make page changes nothing", True, build.constants() == COMMITTED.read_text())
        made = {name: text for part in build.parts() for name, text in part.constants.items()}
        self.see("the constants", True, made == constants())
        self.see("their lengths", True, all(0 < len(text) < MOST_BYTES for text in constants().values()))

    def test_names_and_comments_are_as_they_are_written(self):
        made, left_out = program(), re.compile(r'^import \{[\w,\s]+\} from "\./\w+\.js";\n|^export (?=async function |function |class |const |let )', re.M)
        for path in sorted((TOP / "page/script").glob("*.js")):
            self.see(path.name, 1, made.count(left_out.sub("", path.read_text()).lstrip("\n")))
        self.see("the style", (TOP / "page/style.css").read_text(), constants()["STYLE"])
        self.see("the document", (TOP / "page/index.html").read_text(), constants()["DOCUMENT"])

    def test_its_parts_name_each_other_by_relative_addresses(self):
        named = re.findall(r'<(\w+)[^>]*? (?:src|href)="([^"]*)"', constants()["DOCUMENT"])
        self.see("what the document names", [("link", "data:,"), ("link", "slotplan.css"), ("script", "slotplan.js")], named)
        self.see("styles and scripts in it", [], re.findall(r"<style|<script[^>]*>[^<]", constants()["DOCUMENT"]))

    def test_it_fetches_nothing_and_writes_no_markup(self):
        page = "".join(constants().values())
        self.see("it is ASCII", True, page.isascii())
        self.see("addresses of elsewhere", [], re.findall(r"https?:|//\w+\.\w+|\burl\(|@import|\bimport\(|^import ", page, re.M))
        past = r'innerHTML|outerHTML|insertAdjacent|document\.write|DOMParser|\beval\b|new Function|\son\w+="|style="|\bconfirm\(|\balert\('
        self.see("ways past text nodes", [], re.findall(past, page))
        self.see("storages", ["sessionStorage"], sorted(set(re.findall(r"\w+Storage\b|\bcookie\b|indexedDB", page))))

    def test_it_is_marked_as_made(self):
        self.see("git's attributes", True, "crates/fr_page/src/page.rt linguist-generated" in (TOP / ".gitattributes").read_text())


class Joining(Case):
    """What the build refuses to join, and what it leaves as it is."""

    def built(self, **texts):
        with tempfile.TemporaryDirectory() as folder:
            for name, text in texts.items():
                (Path(folder) / f"{name}.js").write_text(text)
            try:
                return "".join(build.script(Path(folder)))
            except build.Fault as fault:
                return str(fault)

    def test_faults(self):
        other = "export const one = 1;\n"
        for words, main, second in [
            ("one is declared in other.js and in main.js", 'import {two} from "./other.js";\nconst one = 2;\nuse(two);\n', other + "export const two = 2;\n"),
            ("main.js imports two, which other.js does not export", 'import {two} from "./other.js";\nuse(two);\n', other),
            ("main.js imports one, which it does not use", 'import {one} from "./other.js";\n', other),
            ("main.js has an import of another form", 'import * as all from "./other.js";\n', other),
            ("other.js and main.js import each other", 'import {one} from "./other.js";\nexport const two = one;\n', 'import {two} from "./main.js";\n' + other + "use(two);\n"),
            ("no module imports other.js", "use(1);\n", other),
        ]:
            with self.subTest(words):
                self.see("the fault", words, self.built(main=main, other=second))

    def test_order(self):
        made = self.built(main='// Uses both.\nimport {one} from "./one.js";\nimport {two} from "./two.js";\n\nuse(one,  two);\n',
                          one='import {two} from "./two.js";\n\nexport const one = two + 1; // one more\n', two="export const two = 2;\n")
        self.see("the script", build.HEAD + "\n// ---- two.js\n\nconst two = 2;\n\n// ---- one.js\n\nconst one = two + 1; // one more\n"
                 "\n// ---- main.js\n\n// Uses both.\n\nuse(one,  two);\n", made)

    def test_pieces(self):
        texts = [letter * length for letter, length in zip("abcdefgh", (9, 1, 5, 5, 20, 1, 1, 8))]
        pieces = build.cut(texts)
        self.see("they are the text", "".join(texts), "".join(pieces))
        self.see("there are as many", build.PIECES, len(pieces))
        self.see("none is cut", True, all(any(text in piece for piece in pieces) for text in texts))
