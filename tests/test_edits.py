"""Wrong bodies, as the prover is asked of them: each text that an edit replaces stands once in its file. It needs nothing built."""
import re

from tests import TOP
from tests.runner.case import Case
from tools.wrong_bodies import NotJudged, Told, groups, read_edit, texts_with, told_alone, told_of

FUNCTION = re.compile(r"\bfn (\w+)")


class Edits(Case):
    """Each edit can be applied, and changes something."""

    def test_each(self):
        for edit in sorted(TOP.glob("crates/*/*/*.edit")):
            self.see(f"what is wrong with {edit.relative_to(TOP)}", [], list(self.faults(edit)))

    def faults(self, edit):
        """The texts of an edit that do not stand once in their file, each behind the changes before it; and functions that it adds where one of that
        name stands."""
        texts, file, old = {}, None, None
        for line in edit.read_text().splitlines():
            word, _, said = line.partition(": ")
            if word == "file":
                file = edit.parent.parent / said
                texts.setdefault(file, file.read_text() if file.is_file() else "")
            elif word == "old":
                old = said
                if texts[file].count(old) != 1:
                    yield f"{texts[file].count(old)} times in {file.name}: {old}"
            elif word in ("new", "new:"):
                if said == old:
                    yield f"no change: {old}"
                texts[file] = texts[file].replace(old, said)
                for name in {*FUNCTION.findall(said)} - {*FUNCTION.findall(old)}:
                    if FUNCTION.findall(texts[file]).count(name) != 1:
                        yield f"not one function in {file.name}: {name}"
            else:
                yield f"a line that is not read: {line}"


SOURCE = """//! A crate.
const MOST: u32 = 8;

/// Whether it is below the most.
pub fn is_below(value: u32) -> bool
    requires { value < 16 }
    ensures { result ≡ nat_lt value 8 }
{
    value < MOST
}

fn shown(value: u32) -> u32 {
    value + 1
}

impl<'a, T: Fn(u32) -> u32> fmt::Display for Pair<'a, T> {
    fn show(&self) -> u32 {
        let doubled = |one| one + one;
        self.first(
            doubled,
        )
    }
}

impl Pair {
    #[inline(always)]
    pub(crate) fn first(
        self,
        other: u32,
    ) -> u32
        ensures { result ≡ other }
    {
        let same = other;
        same
    }
}
"""
# Names of goals and of functions as `rt check` has them.
SAID = """./proofs/odd/is_below/Answers.antt:7:30: error: `returns`: the two types differ
./proofs/odd/is_below/Answers.antt:9:5: error: 1 declaration that depends on `returns`, which was rejected, was not checked: returns-below
./proofs/odd/Pair/first/Answers.antt:2:9: error: `returns-in-Big`: the record has no field `both`
./proofs/odd/Pair/first/Answers.antt:5:9: error: `returns`: record `names.proofs.odd.Pair.first.Lts.After-same` (nearest: .both)
  has no field `both`
fn names::odd::is_below: not proved
note: src/odd.rt:17:5: it is not proved that what the function ensures holds when it returns (`returns`); `search` gave up at one of its limits
./proofs/base/PairDisplay/show/Answers.antt:2:9: error: `returns-in-Big`: module `Goals` has no `returns-in-Big`
fn names::base::PairDisplay::show: no proof: it calls `names::odd::is_below`, which is not proved
fn names::odd::Pair::first: not proved; it calls `names::odd::is_below`, which is not proved
fn names::odd::shown: no proof: it calls `names::odd::is_below`, which is not proved
logic=not-proved
"""


class AtOnce(Case):
    """Which wrong bodies are tried at once, and what one check says of each."""

    def setUp(self):
        super().setUp()
        self.crate = self.folder / "names"
        (self.crate / "src").mkdir(parents=True)
        (self.crate / "src/odd.rt").write_text(SOURCE)

    def edit(self, name, *pairs):
        path = self.folder / f"{name}.edit"
        path.write_text("".join(f"file: src/odd.rt\nold: {old}\nnew: {new}\n" for old, new in pairs))
        return read_edit(path, self.crate)

    def test_bodies(self):
        below, first, display = ("value < MOST", "value <= MOST"), ("= other;", "= 0;"), ("one + one", "one")
        for name, pairs, wanted in [
            ("a function", [below], ["names::odd::is_below"]),
            ("a method", [first], ["names::odd::Pair::first", ("src/odd.rt", 26), ("src/odd.rt", 35)]),
            ("a method of an impl in another module than its type", [first], ["names::base::Pair::first"]),
            ("a closure of an impl's method", [display], ["names::odd::PairDisplayStr::show", "names::odd::fn::PairDisplay::show::doubled"]),
            ("two functions", [below, first], ["names::odd::is_below", "names::odd::Pair::first"]),
            ("a constant", [("MOST: u32 = 8", "MOST: u32 = 9")], None),
            ("a clause", [("nat_lt value 8", "nat_lt value 9")], None),
            ("a signature", [("    other: u32,", "    _other: u32,")], None),
            ("a function with no clause", [("value + 1", "value + 2")], None),
            ("a function and a constant", [below, ("MOST: u32 = 8", "MOST: u32 = 9")], None),
            ("a closure's clause", [("|one| one + one", "|one| ensures { result ≡ 0 } { 0 }")], None),
            ("a text that stands twice", [("u32", "u64")], None),
        ]:
            bodies = self.edit("one", *pairs).bodies
            self.see(f"whether {name} is tried with others", wanted is not None, bool(bodies))
            others = "names::odd::shown", "names::odd::is_below2", "names::odd::Other::first", "names::odd::fn::first::any", ("src/odd.rt", 12)
            for place, is_changed in [*((it, True) for it in wanted or []), *((it, False) for it in others)]:
                self.see(f"whether {place} is changed by {name}", is_changed, any(body.holds(place) for body in bodies))

    def test_groups(self):
        below, above = self.edit("below", ("value < MOST", "value <= MOST")), self.edit("above", ("value < MOST", "value > MOST"))
        first = self.edit("first", ("let same = other;", "let same = 0;"))
        self.see("what goes together", [[below, first], [above]], groups([below, above, first]))
        changed = SOURCE.replace("value < MOST", "value > MOST").replace("= other;", "= 0;")
        self.see("the text with both", {"src/odd.rt": changed}, texts_with(self.crate, [above, first]))

    def test_said(self):
        below, first = self.edit("below", ("value < MOST", "value <= MOST")), self.edit("first", ("let same = other;", "let same = 0;"))
        shown = self.edit("shown", ("one + one", "one"))
        told = {
            "below.edit": Told("names::odd::is_below: returns", False),
            "first.edit": Told("names::odd::Pair::first: returns-in-Big, returns", True),
            "shown.edit": Told("names::base::PairDisplay::show: returns (a proof also names what is gone)", False),
        }
        self.see("what a check says of three", told, told_of(SAID, "names", [below, first, shown]))
        waits = f"note: `search` has not tried the goals of `names::odd::Pair::first`, which wait for a callee's proof\n{SAID}"
        self.see("what it says where goals wait", {it: told[it] for it in told if it != "first.edit"}, told_of(waits, "names", [below, first, shown]))
        for name, said, group in [
            ("a function that no edit changed", SAID, [below, first]),
            ("no verdict", SAID.replace("logic=not-proved", "logic"), [below, shown]),
            ("a text that is not read", f"src/odd.rt:3:1: error[syntax]: what is this\n{SAID}", [below, shown]),
            ("a lemma that fails", f"./proofs/Lemmas.antt:3:1: error: `lemma`: no\n{SAID}", [below, shown]),
            ("a limit of the prover", SAID.replace("the two types differ", "antt ran out of stack"), [below, shown]),
        ]:
            with self.subTest(f"a check that tells of {name} judges nothing"), self.assertRaises(NotJudged):
                told_of(said, "names", group)
        two = f"fn names::other::PairDisplay::show: proved\n{SAID}"
        del told["shown.edit"]
        self.see("what it says where two functions share a name", told, told_of(two, "names", [below, first, shown]))

    def test_alone(self):
        show, of_first = "names::base::PairDisplay::show, returns-in-Big", "names::odd::Pair::first, returns-in-Big; names::odd::Pair::first, returns"
        self.see("what a check says of one", Told("names::odd::is_below, returns; src/odd.rt:17, returns", False), told_alone(SAID, "names"))
        gone = "".join(line for line in SAID.splitlines(True) if "is_below/" not in line and not line.startswith("note"))
        self.see("what it says where all that fails names what is gone", Told(f"{of_first}; {show}", True), told_alone(gone, "names"))
        for name, said in [
            ("no verdict", SAID.replace("logic=not-proved", "logic=proved")),
            ("no goal", "logic=not-proved"),
            ("a text that is not read", f"src/odd.rt:3:1: error[syntax]: what is this\n{SAID}"),
            ("a limit of the prover", SAID.replace("the two types differ", "antt ran out of stack")),
        ]:
            with self.subTest(f"a check that tells of {name} judges nothing"), self.assertRaises(NotJudged):
                told_alone(said, "names")
