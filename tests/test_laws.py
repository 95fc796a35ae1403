"""The laws that `make laws` prints, and what pages say of proofs: the promises stand in README and in docs/PROVED.md with the same words,
docs/DEFINITIONS.md names the files whose constants the definitions take, and tests/README.md tests that are there. It needs nothing built."""
import re
import subprocess
import sys
from importlib import import_module

from tests import TOP
from tests.runner.case import Case
from tools.heads import CRATES
from tools.laws import laws, lines_of

LAWS = """//! Laws of numbers.
ghost use Rattle.numbers.specs.Rows.{RowsAreApart};
ghost use Rattle.numbers.specs.Sums.{SumsAreLess, SumsTurn};

mod more;

/// A sum is less than twice the greater
/// of its numbers.
pub fn sums_are_less()
    ensures { SumsAreLess }
{}

// It is no law: nobody may name it.
fn own()
    ensures { SumsTurn }
{}

/// Rows lie apart.
pub fn rows_are_apart<D: Disk>()
    ensures { RowsAreApart D.Disk
        (rows_of D.Rows) }
{}
"""
MORE = """//! More of them.
ghost use Rattle.numbers.specs.Sums.{SumsTurn};

/// A sum turns round.
pub fn sums_turn()
    ensures { SumsTurn }
{}

/// It is not said where this stands.
pub fn elsewhere()
    ensures { Elsewhere }
{}
"""
SUMS = """-- Sums of numbers.
use Rattle.std.specs.Prelude.{N}

-- A sum is less.
abbrev pub SumsAreLess : Type 0
SumsAreLess = (a b : N) →
    a + b < 2 * max a b

-- Of the released numbers.
unfoldable pub SumsTurn : Type 0
SumsTurn = (a b : N) → a + b ≡ b + a
"""
ROWS = """-- Rows.
module _ {D : Type 0} where
  -- They lie apart.
  pub record RowsAreApart (rows : List N) : Type 0 where
    pub apart : rows"""
FIRST = """  sums_are_less  (crates/numbers/src/laws.rt:9)
      A sum is less than twice the greater of its numbers.
    SumsAreLess  (crates/numbers/specs/Sums.antt:4)
      -- A sum is less.
      abbrev pub SumsAreLess : Type 0
      SumsAreLess = (a b : N) →
          a + b < 2 * max a b"""
SECOND = """  rows_are_apart  (crates/numbers/src/laws.rt:19)
      Rows lie apart.
    RowsAreApart D.Disk (rows_of D.Rows)  (crates/numbers/specs/Rows.antt:1)
      -- Rows.
      module _ {D : Type 0} where
        -- They lie apart.
        pub record RowsAreApart (rows : List N) : Type 0 where
          pub apart : rows"""
THIRD = """  sums_turn  (crates/numbers/src/laws/more.rt:5)
      A sum turns round.
    SumsTurn  (crates/numbers/specs/Sums.antt:9)
      -- Of the released numbers.
      unfoldable pub SumsTurn : Type 0
      SumsTurn = (a b : N) → a + b ≡ b + a"""
FOURTH = """  elsewhere  (crates/numbers/src/laws/more.rt:10)
      It is not said where this stands.
    Elsewhere"""


def printed(*words):
    """The status of the command, and what it prints."""
    ran = subprocess.run([sys.executable, "-m", "tools.laws", *words], cwd=TOP, capture_output=True, text=True)
    return ran.returncode, ran.stdout, ran.stderr


class Laws(Case):
    """Each law is printed with its definition, as both stand in the sources."""

    def test_by_hand(self):
        crate = self.folder / "crates/numbers"
        (crate / "src/laws").mkdir(parents=True)
        (crate / "specs").mkdir()
        for name, text in [("src/laws.rt", LAWS), ("src/laws/more.rt", MORE), ("specs/Sums.antt", SUMS), ("specs/Rows.antt", ROWS)]:
            (crate / name).write_text(text)
        found = list(laws("numbers", self.folder))
        self.see("what is printed", [FIRST, SECOND, THIRD, FOURTH], ["\n".join(lines_of(law)) for law in found])
        for word, wanted in [
            ("", "sums_are_less rows_are_apart sums_turn elsewhere"),
            ("sum", "sums_are_less sums_turn"),
            ("released", "sums_turn"),
            ("MAX", "sums_are_less"),
            ("D.Rows", "rows_are_apart"),
            ("own", ""),
        ]:
            self.see(f"the laws with {word!r}", wanted.split(), [law.name for law in found if law.has(word)])

    def test_sources(self):
        """No public function of the laws' files lacks, and each says what it means."""
        for crate in CRATES:
            files = [path for path in (TOP / "crates" / crate / "src").rglob("*.rt") if path.stem == "laws" or path.parent.name == "laws"]
            there = {name for path in files for name in re.findall(r"^pub fn (\w+)", path.read_text(), re.M)}
            found = list(laws(crate))
            self.see(f"{crate}: its laws", sorted(there), sorted(law.name for law in found))
            dark = [law.name for law in found if not law.text or not law.definition or not any("--" in it for it in law.definition.lines)]
            self.see(f"{crate}: laws that do not say what they mean", [], dark)

    def test_command(self):
        status, said, _ = printed("--word", "released")
        there = set(re.findall(r"^  (\w+)  \(crates/", said, re.M))
        wanted = {"release_freezes", "released_answers_stay", "released_differences_stay", "released_plan_stays", "no_room_where_released"}
        self.see("laws on what is released", (0, set()), (status, wanted - there))
        self.see("a law that says nothing of it", False, "opening_is_sound" in there)
        self.see("of one crate", (0, ["fr_layout"]), (lambda got: (got[0], re.findall(r"^\w+$", got[1], re.M)))(printed("fr_layout")))
        self.see("a word of no law", (1, "", "no law has the word zebra\n"), printed("--word", "zebra"))
        self.see("no crate", 1, printed("nothing")[0])


class Promises(Case):
    """README and docs/PROVED.md have the promises with the same words."""

    def test_words(self):
        readme = (TOP / "README.md").read_text().partition("## What is promised")[2].partition("\n## ")[0]
        promised = [" ".join(it.split()) for it in re.findall(r"^\d\. ((?:.+\n)+?)(?=\d\. |\n)", readme, re.M)]
        quoted = re.findall(r"^((?:> .+\n)+)", (TOP / "docs/PROVED.md").read_text(), re.M)
        self.see("how many there are", 7, len(promised))
        self.see("the promises", promised, [" ".join(it.replace("\n> ", " ").removeprefix("> ").split()) for it in quoted])


class Constants(Case):
    """docs/DEFINITIONS.md names each file whose constants a definition takes."""

    def test_files(self):
        taken = set()
        for path in TOP.glob("crates/*/specs/*.antt"):
            for crate, module in re.findall(r"\bRattle\.(\w+)\.specs\.declared\.([\w.]+)\.TheConstants\b", path.read_text()):
                taken.add(f"{crate}/src/{module.replace('.', '/')}.rt")
        named = set(re.findall(r"`(\w+/src/[\w/]+\.rt)`", (TOP / "docs/DEFINITIONS.md").read_text()))
        self.see("there are some", True, "fr_base/src/limits.rt" in taken)
        self.see("files whose constants definitions take", sorted(taken), sorted(named))


class WrongBodies(Case):
    """The tests that tests/README.md says refuse a wrong body are there."""

    def test_names(self):
        rows = (TOP / "tests/README.md").read_text().partition("\n## Bodies that a reader would let pass\n")[2].splitlines()
        parts = [re.findall(r"`([\w.]+)`", part) for row in rows if row.startswith("|") for part in row.split(" | ")[-1].split(";")]
        tests = [names for names in parts if names and (TOP / f"tests/{names[0]}.py").is_file()]
        self.see("there are many", True, len(tests) > 20)
        for module, *names in tests:
            for name in names:
                owner, _, method = name.partition(".")
                # (by a word that is no class it is said how the test compares)
                found = getattr(import_module(f"tests.{module}"), owner, None) if owner[0].isupper() else Case
                self.see(f"{module}, {name}", True, any(f"{it}_".startswith(f"{method}_") for it in dir(found)) if found else False)
