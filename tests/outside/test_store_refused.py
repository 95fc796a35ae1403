"""The calls of a register in a file, by a program over `fr_store`, of which each allocation is refused in turn.

The program makes a register in a file, decides commands and applies what they are decided to, closes the file and opens it again. One allocation of the
run is refused, by a small library that cc makes, loaded before the C library."""
import subprocess
import tempfile
from pathlib import Path

from tests.drivers.preload import Refuser, calls_from, can_compile
from tests.drivers.program import with_more
from tests.drivers.stores import SECONDS, StoreCase
from tests.runner.parameters import for_values

PARTS = 4

FIRST_FRAME = ["frame f1 n1", "place f1 1 0"]
BOTH_FRAMES = [*FIRST_FRAME, "place f1 1 1", "frame f2 n1", "place f2 1 2", "signal f2 x 4 8"]


def register(variants, nodes, pages, holder, imports):
    return [*variants, *nodes, *pages, holder, imports]


def page(variant, state, nodes, rows):
    return [f"page {variant} {state} {nodes}", *rows]


def states():
    """What the register tells when it is new, and after each of the steps."""
    v1, node, grant = "variant v1 false 1 false", "node n1", "grant 1 A n1"
    none, none_2, held, kept = "no page of v1", ["no page of v2"], "holder s1 n1", "1 kept: v1 3 4"
    yield [none, *none_2, "no holder", "0 kept"]
    yield [v1, *page("v1", "false", 0, []), *none_2, "no holder", "0 kept"]
    yield [v1, node, *page("v1", "false", 1, []), *none_2, "no holder", "0 kept"]
    for rows in [], FIRST_FRAME[:1], FIRST_FRAME:
        yield [v1, node, *page("v1", "false", 1, [grant, *rows]), *none_2, held, "0 kept"]
    both = [grant, *BOTH_FRAMES]
    yield [v1, node, *page("v1", "false", 1, both), *none_2, held, kept]
    v1 = "variant v1 false 1 true"
    yield [v1, node, *page("v1", "true", 1, both), *none_2, held, kept]
    yield [v1, "variant v2 true 2 false", node, *page("v1", "true", 1, both), *page("v2", "false", 1, both), held, kept]


STATES = list(states())


def looked(lines):
    """The calls, and what was told whole after each of them, if anything was."""
    calls, told = [], None
    for line in lines:
        if line == "look:":
            told = []
        elif line == "told":
            calls.append((calls.pop()[0] if calls else "", told))
            told = None
        elif told is not None and ": " not in line or line.startswith("1 kept"):
            told.append(line)
        else:
            calls.append((line, None))
            told = None
    return calls


def fault_of(calls):
    """The first call after which the register was neither the one before nor the one after, and how many steps were done."""
    done = 0
    for call, told in calls:
        if call == f"apply {done}: done":
            done += 1
        if told is not None and told != STATES[done]:
            return f"{call}: {told} in place of {STATES[done]}", done
    return None, done


class StoreRefused(StoreCase):
    """A register whose call is refused memory is the one before the call; called again, it is the one after it.

    Where the program itself ends for want of memory, the file is opened in a run of its own, and has one of the two. With WHOLE=yes each of some 22,700
    allocations is refused: ten minutes of a processor for each part."""

    name = "refuse_store"
    in_memory = True
    is_apart = True
    step = 200

    def setUp(self):
        super().setUp()
        if not can_compile():
            self.skipTest("there is no C compiler cc")
        self.refuser = Refuser(self.folder)

    def told(self, what, path, more=None):
        """The lines that it prints, and its status."""
        ended = subprocess.run([self.program, what, path], env=with_more(more), capture_output=True, text=True, timeout=SECONDS)
        return ended.stdout.splitlines(), ended.returncode

    def left_wrong(self, path, done, is_made):
        """What is wrong with the file that a run left which ended so far, if anything is."""
        lines, status = self.told("look", path)
        if status:
            return f"it left a file that does not open: {lines}" if is_made else None
        told = looked(lines)[-1][1]
        return None if told in STATES[done : done + 2] else f"it left {told} after {done} steps"

    def wrong(self, path, more):
        """What is wrong with a run that is met so, if anything is."""
        lines, status = self.told("plan", path, more)
        calls = looked(lines)
        wrong, done = fault_of(calls)
        if wrong or status == 0 and (calls[-1][1] != STATES[-1] or done + 1 != len(STATES)):
            return wrong or "it did not come to its end"
        return self.left_wrong(path, done, any(call == "create: done" for call, _ in calls)) if status else None

    @for_values(*range(PARTS))
    def test_part(self, part):
        """Every fourth allocation, from another one on in each part, until a run comes to none."""
        for call in calls_from(part, PARTS * self.each):
            with tempfile.TemporaryDirectory(dir=self.folder) as room:
                wrong = self.wrong(Path(room) / "register.db", self.refuser.refusing(call))
            if not self.refuser.has_acted():
                break
            self.see(f"allocation {call} refused", None, wrong)
        self.see("a run in which none is refused", None, wrong)
        self.see("allocations of the run, more than a thousand", True, call > 1_000)
