"""How often a report reads a supplier's rows from the file, with as many suppliers and frames as there may be. It is seen by how often the program
asks for memory: it does so many times for each row that it reads, and seldom for a row that it shows.

How often each may read them is typed by hand; what one reading takes is measured."""
import sqlite3
import subprocess
from contextlib import closing
from itertools import pairwise, product

from tests.drivers.preload import Library
from tests.drivers.program import SECONDS, program, with_more
from tests.drivers.registers import RegisterCase
from tests.models import scripts

SUPPLIERS = [f"s{number}" for number in range(1, scripts.SUPPLIERS + 1)]
# Each supplier has so many slots, in which each of its frames has a cell.
SLOTS = scripts.SLOTS // scripts.SUPPLIERS
# The report that measures what one reading takes, and how often each may read the rows of its variants, with its fields but for these.
MEASURE = "gaps"
REPORTS = [
    ("frames", 1, {}),
    ("grants", 1, {}),
    ("schedule", 1, {}),
    ("load", 1, {}),
    ("layout", 1, {"frame": "f000"}),
    ("export_placements", 1, {"part": 0}),
]
# What a report may take beside its readings, in readings.
BESIDE = 0.5


class Counter(Library):
    """Counts allocations, up to each read of standard input and to the end."""

    def __init__(self, room):
        super().__init__(room, "counter")

    def counting(self):
        """What a program's environment has more, so that its allocations are counted."""
        return {"LD_PRELOAD": str(self.path), "COUNTER_MARK": str(self.mark)}

    def counts(self):
        """What was counted since the last call."""
        counts = [int(line) for line in self.mark.read_text().splitlines()]
        self.mark.unlink()
        return counts


def cell(supplier, frame):
    """A slot of the supplier, and a base cycle."""
    return supplier * SLOTS + frame % SLOTS + 1, frame // SLOTS


class Loads(RegisterCase):
    """A report of all suppliers reads each one's rows once for each of its variants."""

    cluster = scripts.cluster_file({**scripts.LARGE, "suppliers": scripts.suppliers(scripts.SUPPLIERS)}).encode()

    def setUp(self):
        """v1 has as many frames as there may be, each with a placement. The other variants, one for each reading, have its frames and grants."""
        super().setUp()
        self.create()
        self.counter = Counter(self.folder)
        self.variants = [f"v{number}" for number in range(2, len(REPORTS) + 5)]
        cells = [(name, f"f{frame:03}", *cell(at, frame)) for (at, name), frame in product(enumerate(SUPPLIERS), range(scripts.FRAMES))]
        grants = sorted({(slot, name) for name, _, slot, _ in cells})
        with closing(sqlite3.connect(self.folder / "car.db")) as file, file:
            file.execute("INSERT INTO variants VALUES ('v1', NULL, 1, 1, 0)")
            file.executemany("INSERT INTO variants VALUES (?, 'v1', 2, 0, 1)", [(name,) for name in self.variants])
            file.executemany("INSERT INTO nodes VALUES (?, 'n1')", [(name,) for name in SUPPLIERS])
            granted = [(variant, *grant) for variant, grant in product(("v1", *self.variants), grants)]
            file.executemany("INSERT INTO grants VALUES (?, ?, 'A', ?, 'n1')", granted)
            file.executemany("INSERT INTO frames VALUES ('v1', ?, ?, 'n1')", [(name, frame) for name, frame, _, _ in cells])
            file.executemany("INSERT INTO placements VALUES ('v1', ?, ?, ?, 'A', ?, 64)", cells)

    def test_once(self):
        measured, new, old, *others = self.variants
        asked = [(do, readings, {"variant": variant, **fields}) for variant, (do, readings, fields) in zip(others, REPORTS, strict=True)]
        asked.append(("diff", 2, {"variant": new, "from": old}))
        requests = [scripts.request("integrator1", do, **fields) for do, _, fields in [(MEASURE, 1, {"variant": measured}), *asked]]
        one, *taken = self.allocated(requests)
        for (do, readings, _), count in zip(asked, taken, strict=True):
            self.see(f"the readings of {do}", True, readings - BESIDE < count / one < readings + BESIDE or count / one)

    def allocated(self, asked):
        """How many allocations each of these requests takes of one program, which is asked one after another."""
        words, more = [program(), "ask", "car.db"], with_more(self.counter.counting())
        with subprocess.Popen(words, cwd=self.folder, env=more, stdin=subprocess.PIPE, stdout=subprocess.PIPE) as running:
            for request in asked:
                running.stdin.write(f"{request}\n".encode())
                running.stdin.flush()
                self.see(f"to {request}", b'{"lines":[', running.stdout.readline()[:10])
            running.stdin.close()
            self.see("how it ends", 0, running.wait(SECONDS))
        return [after - before for before, after in pairwise(self.counter.counts())][: len(asked)]
