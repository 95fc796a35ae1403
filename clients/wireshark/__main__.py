"""Makes Wireshark's tables of a plan, or a capture of its bus: python3 -m clients.wireshark --help"""
import argparse
import sys
from pathlib import Path

from ..slotplan_plans.faults import Fault
from ..slotplan_plans.files import replaceable
from ..slotplan_plans.words import add_source, source_of
from . import capture, tables
from .plan import read


def words():
    """The command line."""
    parser = argparse.ArgumentParser(prog="python3 -m clients.wireshark", description="Wireshark's tables of a plan, or a capture of its bus.")
    commands = parser.add_subparsers(required=True, metavar="COMMAND")
    command(commands, "tables", make_tables, "FOLDER")
    captured = command(commands, "capture", make_capture, "FILE")
    captured.add_argument("--cycles", type=int, metavar="N", help="how many cycles, from cycle 0 on; each of the cluster's once where none is given")
    captured.add_argument("--seed", type=int, metavar="N", default=1, help="which values the signals have")
    return parser


def command(commands, name, work, target):
    """A command that reads a plan and writes this."""
    added = commands.add_parser(name, help=work.__doc__, description=work.__doc__)
    added.set_defaults(work=work)
    add_source(added)
    added.add_argument("target", metavar=target, type=Path)
    return added


def make_tables(plan, given):
    """Writes Wireshark's three tables of the variant into FOLDER."""
    tables.write(given.target, plan)
    print(f"frames: {len(plan.signals)}, signals: {sum(map(len, plan.signals.values()))}, cells: {len(plan.cells)}")


def make_capture(plan, given):
    """Writes a capture of the variant's bus to FILE, with values by chance."""
    packets = capture.write(replaceable(given.target), plan, given.cycles or plan.cycles, given.seed)
    print(f"packets: {len(packets)}")


def main():
    parser = words()
    given = parser.parse_args()
    try:
        given.work(read(source_of(given), given.variant), given)
    except (Fault, OSError) as fault:
        sys.exit(f"{parser.prog}: {fault}")


if __name__ == "__main__":
    main()
