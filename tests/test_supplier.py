"""docs/SUPPLIER.md tells a supplier each refusal that it can meet, by the number and name that docs/FORMATS.md has, and no other; the planners' page
has words for all refusals. It needs nothing built."""
import re

from tests import TOP
from tests.runner.case import Case

ROW = re.compile(r"^\| (\d+) \| `(\w+)` \|", re.M)
ANSWER = re.compile(r'"no":(\d+),"refused":"(\w+)"')
ASKED = re.compile(r"^\| ((?:`\w+`(?:, )?)+) \| ([\d ]+|none) \|$", re.M)
BY_WHOM = re.compile(r"^\| `(\w+)` \| [^|]* \| (integrator|supplier|both) \|", re.M)
# A refusal in the page's program: its number, its name, and what it means.
ON_PAGE = re.compile(r'^  (\d+): \["(\w+)", "([^"]+)"', re.M)
# Of all requests: a request's own text, its key, and a fault of the register.
ALWAYS = {1, 2, 28}


def section(page, heading):
    """What stands below a heading, up to the next of its depth."""
    text = (TOP / f"docs/{page}.md").read_text()
    begin = text.index(f"\n## {heading}\n")
    return text[begin : text.find("\n## ", begin + 1)]


def named():
    """The names of all refusals, by their numbers."""
    text = section("FORMATS", "Refusals") + section("FORMATS", "Imports")
    return {int(number): name for number, name in ROW.findall(text) + ANSWER.findall(section("FORMATS", "Answers"))}


class RefusalsOfSuppliers(Case):
    """A supplier meets the refusals of its requests, and of the rows of its files."""

    def test_the_page_has_words_for_all(self):
        told = ON_PAGE.findall((TOP / "page/script/refusals.js").read_text())
        self.see("the numbers are 1 to 32", list(range(1, 33)), [int(number) for number, _, _ in told])
        self.see("their names", named(), {int(number): name for number, name, _ in told})
        self.see("meanings that are those of another one", len(told), len({meaning for _, _, meaning in told}))

    def test_all_are_told(self):
        names = named()
        who = dict(BY_WHOM.findall(section("FORMATS", "Requests")))
        met = set(ALWAYS)
        for requests, numbers in ASKED.findall(section("FORMATS", "Refusals")):
            if any(who[request] != "integrator" for request in re.findall(r"\w+", requests)):
                met.update(map(int, re.findall(r"\d+", numbers)))
        for line in section("FORMATS", "Imports").splitlines():
            # (a row's own refusals stand in the last column, among words)
            if line.startswith("| `frame,"):
                met.update(map(int, re.findall(r"\d+", line.rsplit("|", 2)[1])))
        met.update(int(number) for number, _ in ROW.findall(section("FORMATS", "Imports")))
        told = {int(number): name for number, name in ROW.findall(section("SUPPLIER", "What is refused, and what to do"))}
        self.see("there are refusals", True, len(met) > 20)
        self.see("the refusals that are told", {number: names[number] for number in sorted(met)}, told)
