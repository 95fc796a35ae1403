"""What each test is: it has a folder of its own, and its checks are counted."""
import os
import tempfile
import unittest
from pathlib import Path
from threading import RLock
from zlib import crc32

# Whether each case is tried of those of which `make test` tries every so many, as `make hostile` and `make refuse` want it.
WHOLE = os.environ.get("WHOLE") == "yes"
# Which program of several this one is: each tries others of every so many cases.
TURN = int(os.environ.get("TURN", "0"))

one_at_a_time = RLock()


def folder_in_memory():
    """A folder that is gone afterwards, in memory where there is such a place: thousands of files are made and synced."""
    memory = "/dev/shm"
    return tempfile.TemporaryDirectory(dir=memory if os.access(memory, os.W_OK | os.X_OK) else None)


class Case(unittest.TestCase):
    """A test with a folder of its own. `see` counts a check; where one fails, the test goes on."""

    # How many checks the process has made.
    checks = 0
    # Whether each test of the class is run in a process of its own, and not the class as a whole.
    is_apart = False
    # Whether it may be skipped, since a program is missing that no gate needs. It says so, and that is no failure.
    may_be_skipped = False
    # Whether it mostly waits, so that it takes no processor's place.
    waits = False
    # The folders lie in memory.
    in_memory = False
    # Every so many of its cases are tried.
    step = 1

    def setUp(self):
        folder = folder_in_memory() if self.in_memory else tempfile.TemporaryDirectory()
        self.folder = Path(self.enterContext(folder))

    @property
    def each(self):
        """Every so many cases are tried: all where WHOLE is `yes`."""
        return 1 if WHOLE else self.step

    @property
    def turn(self):
        """At which of them it begins: each test and each program at others."""
        return TURN + crc32(self.id().encode())

    def see(self, what, wanted, got):
        """Counts whether what was got is what is wanted, and says where not. Threads may call it."""
        with one_at_a_time:
            Case.checks += 1
            if wanted != got:
                with self.subTest(what):
                    self.fail(f"wanted {wanted!r:.300}, got {got!r:.300}")
