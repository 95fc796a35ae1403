"""Tests of connections to a server: over the register after the first script, and over one whose schedule is longer than a connection holds."""
import re
import sqlite3
import time
from contextlib import closing
from itertools import product

from tests.models import scripts
from tests.models.messages import command, engine, head, json, refused, text

from .registers import RegisterCase
from .server import sent

FRAMES = head("GET", "/v1/variants/v1/frames", "supplier01"), text(b"FRAME f1 n1\nAT 0001 A 00 64\n")
SCHEDULE = head("GET", "/v1/variants/v1/schedule", "integrator1")
NOTHING = head("GET", "/v1/nothing"), engine("404 Not Found")
EXISTS = json(refused(19, "Exists"), "409 Conflict")
READ_FAILED, TRUNCATED = b"slotplan: ReadFailed\n", b"slotplan: Truncated\n"
# So many honest clients come one after another, and within so many seconds they are served if nobody holds them up, on a slow machine too.
HONEST, SOON = 10, 4

# A supplier with a frame in each static slot, in all cycles on both channels; names are as long as may be.
SLOTS, IN_A_FRAME = 64, 8
LONG = {**scripts.CLUSTER, "static_slots": str(SLOTS), "macroticks_per_cycle": str(10 * SLOTS + 60), "suppliers": '{%s = "supplier01"}' % ("s" * 32)}
LONG_CLUSTER = scripts.cluster_file(LONG).encode()
SUPPLIER, NODE = "s" * 32, "n" * 32


def add_frame(name):
    """The text of a command that adds this frame."""
    return b'{"do":"add_frame","variant":"v1","frame":"%s","node":"n1"}' % name.encode()


def adds(name, *fields):
    """The request that adds this frame."""
    return command("supplier01", add_frame(name), *fields)


# A request that changes the register.
WHOLE = adds("f7")


def frame_in(slot):
    return f"f{(slot - 1) // IN_A_FRAME:031}"


def long_schedule():
    """What the integrator reads of it, some 900,000 bytes: more than a connection holds whose client reads nothing."""
    cells = product(range(64), range(1, SLOTS + 1), "AB")
    return "".join(f"{cycle:02} {slot:04} {channel} {frame_in(slot)} {NODE} {SUPPLIER}\n" for cycle, slot, channel in cells).encode()


def fill_long(file):
    """Gives a register of that cluster the supplier's rows."""
    slots = range(1, SLOTS + 1)
    with closing(sqlite3.connect(file)) as rows, rows:
        rows.execute("INSERT INTO nodes VALUES (?, ?)", (SUPPLIER, NODE))
        rows.execute("INSERT INTO variants VALUES ('v1', NULL, 1, 0, 0)")
        rows.executemany("INSERT INTO grants VALUES ('v1', ?, ?, ?, ?)", [(slot, channel, SUPPLIER, NODE) for slot in slots for channel in "AB"])
        rows.executemany("INSERT INTO frames VALUES ('v1', ?, ?, ?)", sorted({(SUPPLIER, frame_in(slot), NODE) for slot in slots}))
        rows.executemany("INSERT INTO placements VALUES ('v1', ?, ?, ?, 'AB', 0, 1)", [(SUPPLIER, frame_in(slot), slot) for slot in slots])


# A word that a server told, or how often it came again soon after.
TOLD = re.compile(rb"(slotplan: \w+)(?: \((\d+) more\))?\n")


def each_line(said):
    """What a server told, with each word as often as it came."""
    return TOLD.sub(lambda found: (found[1] + b"\n") * int(found[2] or 1), said)


class ConnectionCase(RegisterCase):
    """A test of connections to a server, each test in a process of its own: it mostly waits."""

    is_apart = waits = True

    def ends(self, server, said=b""):
        super().ends(server)
        self.see("what it said", sorted(said.splitlines()), sorted(each_line(server.stderr.read()).splitlines()))


class PlannedCase(ConnectionCase):
    """Over the register after the first script."""

    def setUp(self):
        super().setUp()
        self.plan()

    def served_at_once(self, port, times=1):
        """Others are served meanwhile."""
        for _ in range(times):
            self.see("the next one is served", FRAMES[1], sent(port, FRAMES[0]))


def soon(begun, seconds=SOON):
    """Whether no more time has passed."""
    passed = time.monotonic() - begun
    return passed <= seconds or passed


class HeldCase(PlannedCase):
    """Over the same register: honest clients come while others are there."""

    def honest(self, port, seconds=SOON):
        """They are served one after another, and nobody holds them up."""
        begun = time.monotonic()
        self.served_at_once(port, HONEST)
        self.see("nobody holds them up", True, soon(begun, seconds))


class LongCase(ConnectionCase):
    """Over that supplier's register."""

    cluster = LONG_CLUSTER

    def setUp(self):
        super().setUp()
        self.create()
        fill_long(self.folder / "car.db")
