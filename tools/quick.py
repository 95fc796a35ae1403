"""The tests, with no proof: the program is compiled without proof, and tried as the gate tries the proved one; the tests of the crates run without
proof. Steps go side by side, as many as there are processors, or as JOBS says; out/tests keeps what each said. The last line counts all. `make test`
runs it."""
import os
import sys

from tests.runner.run import found, steps_of
from tests.runner.steps import PROCESSORS, SideBySide, Step, by_status, by_tests

PROGRAM = "out/unproved/slotplan"
CRATES = "fr_tests_registers", "fr_tests_program", "fr_tests"
# What needs no program. The program comes first; the rest of the tests stands behind it.
COMPILED = [
    Step("the program, compiled", ["make", "--no-print-directory", "-s", PROGRAM], compiles=True, count=by_status),
    *(Step(f"the tests of {crate}", [sys.executable, "tools/unproved.py", "--test", crate], compiles=True, count=by_tests) for crate in CRATES),
]


def main():
    tried = steps_of(found([]), env={"SLOTPLAN": PROGRAM})
    steps = SideBySide(len(COMPILED) + len(tried), jobs=int(os.environ.get("JOBS") or PROCESSORS))
    steps.say(f"{steps.total} steps; the program and three crates of tests are compiled without proof, some minutes each")
    status = steps.run(COMPILED, tried)
    print("Nothing was proved: make prove does that, and tries the proved program as two compilers make it.", file=sys.stderr)
    return status


if __name__ == "__main__":
    sys.exit(main())
