"""The gate: `rt ci`, and then the program that was built, tried as each compiler made it, also where its files, connections and memory fail. What is
around the program, the clients and the page in a browser, `make test` tries. The last line counts all. `make prove` runs it."""
import os
import resource
import subprocess
import sys
import time
from typing import NamedTuple

from tests import TOP
from tests.runner.steps import COUNT, FAILURE, SHOWN

PROGRAM = "crates/slotplan/out/slotplan"
PROGRAMS = PROGRAM, f"{PROGRAM}.by-rattle"


class Count(NamedTuple):
    passed: int
    failed: int
    told: list


def processor_minutes():
    """Those of all commands that have ended."""
    used = resource.getrusage(resource.RUSAGE_CHILDREN)
    return (used.ru_utime + used.ru_stime) / 60


def counted(name, words, **env):
    """Runs a command and shows what it says, as it says it, and how long it took. Gives what it counts at its end as passed
    and as failed, and its lines that tell of a failure; a command that counts nothing, or ends with another status than its
    count, has failed once more."""
    passed, failed = 0, 0
    begun, used = time.monotonic(), processor_minutes()
    told = []
    how = {"stdin": subprocess.DEVNULL, "stdout": subprocess.PIPE, "text": True, "errors": "replace"}
    with subprocess.Popen(words, cwd=TOP, env={**os.environ, **env}, **how) as command:
        count = None
        for line in command.stdout:
            count = COUNT.fullmatch(line.rstrip("\n"))
            print(f"{name}: {line}" if count else line, end="", flush=True)
            if FAILURE.search(line) and not count:
                told.append(f"{name}: {line.rstrip()}")
    print(f"{name}: {(time.monotonic() - begun) / 60:.1f} minutes, {processor_minutes() - used:.1f} of processor time", flush=True)
    if count:
        passed, failed = int(count[1]), int(count[2])
    if not count or (command.returncode != 0) != (failed != 0):
        print(f"{name}: ended with status {command.returncode}, and counted {count[0] if count else 'nothing'}")
        failed += 1
    return Count(passed, failed, told[-SHOWN:] if failed else [])


def main():
    # A check on each of up to four processors, 10 GB in all: `rt ci` would reckon with twice the memory, and wait for it.
    os.environ.setdefault("RT_JOBS", str(min(4, len(os.sched_getaffinity(0)))))
    counts = [counted("rt ci", ["rt", "ci"])]
    for turn, program in enumerate(PROGRAMS):
        counts.append(counted(f"the classes of tests, {program}", [sys.executable, "-m", "tests.runner.run", "--program"], SLOTPLAN=program, TURN=str(turn)))
    for line in (line for count in counts for line in count.told):
        print(f"{line:.400}")
    passed, failed = sum(count.passed for count in counts), sum(count.failed for count in counts)
    print(f"{passed} passed, {failed} failed")
    return 1 if failed else 0


if __name__ == "__main__":
    sys.exit(main())
