"""Steps that go side by side, each a command whose last lines tell how many checks it passed and failed. out/tests keeps what each said."""
import os
import re
import signal
import subprocess
import time
from collections import Counter
from typing import Callable, Mapping, NamedTuple, Sequence

from tests import TOP

SAID = TOP / "out/tests"
PROCESSORS = len(os.sched_getaffinity(0))
# A compilation takes up to 4 GB of memory.
COMPILATIONS = max(1, os.sysconf("SC_PAGE_SIZE") * os.sysconf("SC_PHYS_PAGES") // 4_000_000_000)
# So many steps that mostly wait are under way at once, beside those that take a processor.
WAITING = 8
# The longest time without a line, in seconds.
QUIET = 30

COUNT = re.compile(r"(\d+) passed, (\d+) failed")
# What `rt try --test` counts.
TESTED = re.compile(r"^test result: \w+\. (\d+) passed; (\d+) failed", re.M)
# Lines that tell of a failure are shown once more at the end, so many of each step.
FAILURE = re.compile(r"wanted|in place of|[Ff]ail|FAIL|[Ee]rror|not proved|left out|Traceback|^crates/slotplan/out/slotplan")
SHOWN = 10
# Why tests were left out that may be, and how many.
LEFT_OUT = re.compile(r"^(\d+) left out: (.+)$", re.M)


def left_out_lines(count):
    """What is said of tests that were left out: how many for each cause."""
    return [f"{number} left out: {why}" for why, number in sorted(count.items())]


def by_last_line(said, status):
    """What a script counts in its last line."""
    count = COUNT.fullmatch((said.splitlines() or [""])[-1])
    return tuple(map(int, count.groups())) if count else None


def by_tests(said, status):
    """What the tests of a crate count."""
    count = TESTED.search(said)
    return tuple(map(int, count.groups())) if count else None


def by_status(said, status):
    """A command that counts nothing is one check."""
    return int(not status), int(bool(status))


class Step(NamedTuple):
    name: str
    words: Sequence
    env: Mapping = {}
    compiles: bool = False
    waits: bool = False
    count: Callable = by_last_line

    def log(self):
        return SAID / (re.sub(r"[^-\w.]", "_", self.name) + ".log")

    def begin(self):
        with open(self.log(), "w") as log:
            how = {"stdin": subprocess.DEVNULL, "stdout": log, "stderr": subprocess.STDOUT, "start_new_session": True}
            return subprocess.Popen(self.words, cwd=TOP, env={**os.environ, **self.env}, **how)

    def counted(self, status):
        """What it passed and failed, with lines that tell of a failure, and what it left out by the causes. One that counts nothing, or whose status is
        another than its count, has failed once more."""
        said = self.log().read_text(errors="replace")
        count = self.count(said, status)
        passed, failed = count or (0, 0)
        failed += not count or (status != 0) != (failed != 0)
        left_out = Counter({why: int(number) for number, why in LEFT_OUT.findall(said)})
        lines = [line for line in said.splitlines() if not LEFT_OUT.fullmatch(line)]
        told = [line for line in lines if FAILURE.search(line) and not COUNT.fullmatch(line)] or lines
        return passed, failed, told[-SHOWN:] if failed else [], left_out


class SideBySide:
    """Steps under way, as many as there are processors; a line tells that one begins or ends, or that the work goes on."""

    def __init__(self, total, stops_at_failure=False, jobs=PROCESSORS):
        self.total, self.stops_at_failure, self.jobs = total, stops_at_failure, jobs
        self.begun = self.spoken = time.monotonic()
        self.passed = self.failed = self.ended = 0
        self.told, self.under_way, self.left_out = [], {}, Counter()

    def say(self, text):
        self.spoken = time.monotonic()
        print("{:2}:{:02}  {}".format(*divmod(int(self.spoken - self.begun), 60), text), flush=True)

    def has_room(self, step):
        steps = list(self.under_way.values())
        if step.waits:
            return sum(it.waits for it in steps) < WAITING
        return sum(not it.waits for it in steps) < self.jobs and (not step.compiles or sum(it.compiles for it in steps) < COMPILATIONS)

    def end(self, command):
        step = self.under_way.pop(command)
        passed, failed, lines, left_out = step.counted(command.returncode)
        self.passed, self.failed, self.ended = self.passed + passed, self.failed + failed, self.ended + 1
        self.left_out += left_out
        self.told += [f"{step.name}: {line}" for line in lines]
        self.say(f"ends    {step.name}: {passed} passed, {failed} failed; {self.ended} of {self.total}")
        return step, failed

    def run(self, steps, behind=()):
        """Runs these steps; where the first of them passes, also those that stand behind it. Gives the status with which to end."""
        SAID.mkdir(parents=True, exist_ok=True)
        waiting, first = list(steps), steps[0]
        try:
            while waiting or self.under_way:
                for step in list(waiting):
                    if self.has_room(step):
                        waiting.remove(step)
                        self.say(f"begins  {step.name}")
                        self.under_way[step.begin()] = step
                time.sleep(0.05)
                for command in [it for it in self.under_way if it.poll() is not None]:
                    step, failed = self.end(command)
                    if failed and self.stops_at_failure:
                        return self.close()
                    waiting += behind if step is first and not failed else []
                if time.monotonic() - self.spoken > QUIET:
                    self.say(f"at work: {', '.join(it.name for it in self.under_way.values())}")
        finally:
            for command in self.under_way:
                os.killpg(command.pid, signal.SIGKILL)
                command.wait()
        return self.close()

    def close(self):
        left_out = self.total - self.ended
        for line in self.told:
            print(f"{line:.400}")
        if left_out:
            print(f"{left_out} of {self.total} steps were left out")
        for line in left_out_lines(self.left_out):
            print(line)
        failed = self.failed + left_out
        print(f"{self.passed} passed, {failed} failed")
        return 1 if failed else 0
