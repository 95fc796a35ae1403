"""The command line `slotplan-plans`. Each subject adds its commands."""
import argparse
import os
import sys

from . import arranging, dumping, needs, rows, tables
from .autosar import commands as autosar
from .autosar import adopting, updating
from .faults import Fault

PROGRAM = "slotplan-plans"
# Modules with a call `add_commands`, whose commands have a call `work`. It gives the status, or nothing for 0.
SUBJECTS = (tables, rows, needs, arranging, dumping, autosar, updating, adopting)


class Words(argparse.ArgumentParser):
    """A command line whose faults are one line."""

    def error(self, message):
        self.exit(2, f"{PROGRAM}: {message}; {self.prog} --help tells more\n")


def words():
    parser = Words(prog=PROGRAM, description="Plans of slotplan in the files of other tools, and registers that move.")
    commands = parser.add_subparsers(required=True, metavar="COMMAND", parser_class=Words)
    for subject in SUBJECTS:
        subject.add_commands(commands)
    return parser


def main(given=None):
    told = words().parse_args(given)
    try:
        status = told.work(told) or 0
        sys.stdout.flush()
    except Fault as fault:
        print(f"{PROGRAM}: {fault}", file=sys.stderr)
        status = 2
    except BrokenPipeError:
        # (who reads may stop before the end)
        os.dup2(os.open(os.devnull, os.O_WRONLY), sys.stdout.fileno())
        status = 2
    except KeyboardInterrupt:
        status = 130
    sys.exit(status)


if __name__ == "__main__":
    main()
