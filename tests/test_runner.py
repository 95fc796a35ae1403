"""The runner of the tests: what it counts, and what it says of tests that were left out. It needs nothing built."""
import os
import subprocess
import sys

from tests import TOP
from tests.runner.case import Case

LIMITS = "tests.test_browser_limits"
NO_CHROMIUM, NO_NODE = "no chromium: apt-get install chromium chromium-driver", "no node: apt-get install nodejs"
# Its first test passes and its second one fails, and the third checks nothing.
TRIED = """
from tests.runner.case import Case

class Tried(Case):
    def test_1(self):
        self.see("one", 1, 1)

    def test_2(self):
        self.see("two", 2, 3)

    def test_3(self):
        pass

class LeftOut(Case):
    may_be_skipped = {may}

    def test_4(self):
        self.skipTest("there is none")

    def test_5(self):
        self.skipTest("there is none")
"""


class Counting(Case):
    """The last lines of the runner."""

    def ran(self, *words, **env):
        how = {"cwd": TOP, "capture_output": True, "text": True, "env": {**os.environ, "PYTHONPATH": str(self.folder), **env}}
        done = subprocess.run([sys.executable, "-m", "tests.runner.run", *words], **how)
        return done.returncode, done.stdout.splitlines()

    def test_without_a_browser_and_node(self):
        """On a machine that has neither, their tests are left out and counted."""
        lacking = {"PATH": str(self.folder), "CHROMIUM": "", "CHROMEDRIVER": "", "NODE": ""}
        status, said = self.ran(LIMITS, "tests.test_browser_plan.PlacingByTouch", "tests.test_page_modules.Lanes", **lacking)
        self.see("the last lines", [f"2 left out: {NO_CHROMIUM}", f"3 left out: {NO_NODE}", "0 passed, 0 failed"], said[-3:])
        self.see("the status", 0, status)
        self.see("so says a class alone", [f"1 left out: {NO_CHROMIUM}", "0 passed, 0 failed"], self.ran("--alone", LIMITS, **lacking)[1][-2:])

    def test_what_fails(self):
        for may, count in ("True", ["2 left out: there is none", "1 passed, 2 failed"]), ("False", ["1 passed, 4 failed"]):
            (self.folder / f"tried_{may}.py").write_text(TRIED.format(may=may))
            status, said = self.ran(f"tried_{may}")
            self.see(f"may be skipped: {may}", count, said[-len(count):])
            self.see(f"may be skipped: {may}: the status", 1, status)
            self.see(f"may be skipped: {may}: nothing is said of what was left out", may == "True", any("left out:" in line for line in said))
