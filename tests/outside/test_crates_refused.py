"""The tests of the crates, of which each allocation is refused in turn, by a small library that cc makes, loaded before the C library.

`rt test` has to have built them, crates/NAME/out/NAME_tests."""
import subprocess
from itertools import count

from tests import TOP
from tests.drivers.preload import Refuser, can_compile
from tests.drivers.program import NoProgram, with_more
from tests.runner.case import Case
from tests.runner.parameters import for_values

CRATES = "fr_tests", "fr_tests_registers", "fr_tests_program"
WORDS = (b"AllocError", b"NoMemory", b"Unavailable", b'error: "memory"', b'error: "no memory"', b"AllocFailed")
# Each of them makes too many allocations.
LEFT_OUT = ("migrating::", "stops::")


def listed(tests):
    lines = subprocess.run([tests, "--list"], check=True, capture_output=True, text=True).stdout.splitlines()
    return [line.removesuffix(": test") for line in lines if line.endswith(": test")]


def is_right(name, ended):
    """Whether a test that was refused memory passed, or failed by a word for want of it. One that calls again where it was refused is to pass."""
    return not ended.returncode or "again" not in name and any(word in ended.stdout + ended.stderr for word in WORDS)


class CratesRefused(Case):
    """A test of a crate that is refused memory passes, or fails by a word for want of it; one that calls again passes."""

    is_apart = True

    @for_values(*CRATES)
    def test_crate(self, crate):
        if not can_compile():
            self.skipTest("there is no C compiler cc")
        tests, refuser = TOP / f"crates/{crate}/out/{crate}_tests", Refuser(self.folder)
        if not tests.exists():
            raise NoProgram(f"{tests.relative_to(TOP)} is not there: rt test in its crate builds it")
        names = [name for name in listed(tests) if not name.startswith(LEFT_OUT)]
        self.see("there are tests", True, bool(names))
        for name in names:
            for call in count(1):
                ended = subprocess.run([tests, name], env=with_more(refuser.refusing(call)), capture_output=True)
                if not refuser.has_acted():
                    break
                self.see(f"{name}, allocation {call} refused: status {ended.returncode}, {ended.stdout + ended.stderr!r:.200}", True, is_right(name, ended))
            self.see(f"{name} where none is refused", 0, ended.returncode)
