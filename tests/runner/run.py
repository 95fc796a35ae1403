"""Runs classes of tests, several at once: python3 -m tests.runner.run [-f] [-k WORD] [--alone] [--program] [NAME..]

A NAME is a module, a class or a test, as `python3 -m unittest` takes it; without one all are run. The program is the one that SLOTPLAN names. The
last line counts the checks: 'N passed, M failed'. A test that was left out has failed, and so has one that checked nothing; only one that may be
skipped has not: lines before the last one say how many of these were left out, and why."""
import argparse
import os
import sys
import unittest
from collections import Counter

from tests import TOP

from .case import Case
from .steps import SideBySide, Step, left_out_lines

# What is tried of the clients, which are python3, and of packages and the planners' page by itself or in a browser, which are the same whoever made the program.
AROUND = "test_autosar", "test_browser", "test_clients", "test_demo", "test_fibex", "test_package", "test_page_built", "test_page_modules", "test_wireshark"


class Result(unittest.TestResult):
    """Counts checks, and tells of each that failed."""

    def __init__(self, failfast):
        super().__init__()
        self.failfast, self.failed, self.before, self.left_out = failfast, 0, 0, Counter()

    def startTest(self, test):
        super().startTest(test)
        self.before, self.failed_before = Case.checks, self.failed

    def tell(self, test, text):
        self.failed += 1
        print(f"FAILED {test.id()}: {text}", flush=True)

    def told(self, test, error):
        """What a check says is one line; of another fault it is told whole where it came."""
        kind, fault, _ = error
        self.tell(test, fault if issubclass(kind, test.failureException) else self._exc_info_to_string(error, test))

    def addFailure(self, test, error):
        super().addFailure(test, error)
        self.told(test, error)

    def addError(self, test, error):
        super().addError(test, error)
        self.told(test, error)

    def addSubTest(self, test, subtest, error):
        super().addSubTest(test, subtest, error)
        if error:
            self.told(subtest, error)

    def addSkip(self, test, reason):
        super().addSkip(test, reason)
        if getattr(test, "may_be_skipped", False):
            self.left_out[reason] += 1
            print(f"skipped: {test.id()}", flush=True)
        else:
            self.tell(test, f"left out, since {reason}")

    def stopTest(self, test):
        was_skipped = bool(self.skipped) and self.skipped[-1][0] is test
        if Case.checks == self.before and self.failed == self.failed_before and not was_skipped:
            self.tell(test, "it checked nothing")
        super().stopTest(test)


def tests_in(suite):
    for it in suite:
        yield from tests_in(it) if isinstance(it, unittest.TestSuite) else [it]


def found(names, word="", around=True):
    """The tests of these names, that have the word in theirs; without a name all, or all but what is around the program."""
    loader = unittest.TestLoader()
    files = [file.stem for file in sorted((TOP / "tests").glob("test_*.py")) if around or not file.stem.startswith(AROUND)]
    suite = loader.loadTestsFromNames(names or [f"tests.{name}" for name in files])
    if loader.errors:
        sys.exit("\n".join(loader.errors))
    return [test for test in tests_in(suite) if word in test.id()]


def alone(tests, failfast):
    """Runs them in this process."""
    result = Result(failfast)
    unittest.TestSuite(tests).run(result)
    passed = Case.checks - sum(map(is_check, result.failures))
    for line in left_out_lines(result.left_out):
        print(line)
    print(f"{passed} passed, {result.failed} failed")
    return 1 if result.failed else 0


def is_check(failure):
    """Whether this is a check that failed, and no fault of another kind."""
    return isinstance(failure[0], unittest.case._SubTest)


def steps_of(tests, more=(), env=None):
    """A step for each class, or for each test of a class whose tests are apart; those that take longest come first."""
    steps = {}
    for test in tests:
        kind = type(test)
        name = test.id() if getattr(kind, "is_apart", False) else f"{kind.__module__}.{kind.__qualname__}"
        steps[name] = kind
    longest = sorted(steps.items(), key=lambda it: -getattr(it[1], "seconds", 0))
    words = [sys.executable, "-m", "tests.runner.run", "--alone", *more]
    return [Step(name.removeprefix("tests."), [*words, name], env or {}, waits=getattr(kind, "waits", False)) for name, kind in longest]


def main():
    words = argparse.ArgumentParser(description=__doc__, formatter_class=argparse.RawDescriptionHelpFormatter)
    words.add_argument("-f", "--failfast", action="store_true", help="stop at the first failure")
    words.add_argument("-k", dest="word", default="", help="only tests with this in their names")
    words.add_argument("--alone", action="store_true", help="in this process")
    words.add_argument("--program", action="store_true", help="none of the clients, and none of the page in a browser")
    words.add_argument("--jobs", type=int, default=len(os.sched_getaffinity(0)))
    words.add_argument("names", nargs="*")
    given = words.parse_args()
    tests = found(given.names, given.word, around=not given.program)
    if not tests:
        sys.exit("no test has such a name")
    if given.alone:
        return alone(tests, given.failfast)
    steps = steps_of(tests, [*(["-k", given.word] if given.word else []), *(["-f"] if given.failfast else [])])
    return SideBySide(len(steps), given.failfast, given.jobs).run(steps)


if __name__ == "__main__":
    sys.exit(main())
