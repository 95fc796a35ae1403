"""Makes one file of the package slotplan_plans, which python3 runs: python3 -m clients.archive FILE. `make out/slotplan-plans` runs it."""
import sys
import zipapp
from pathlib import Path

PACKAGE = "slotplan_plans"


def make(file):
    """Writes the file, which may be run as it is."""
    mine = lambda path: path.parts[0] == PACKAGE and path.suffix == ".py"
    Path(file).parent.mkdir(parents=True, exist_ok=True)
    zipapp.create_archive(Path(__file__).parent, file, "/usr/bin/env python3", f"{PACKAGE}.__main__:main", filter=mine, compressed=True)


if __name__ == "__main__":
    if len(sys.argv) != 2:
        sys.exit(__doc__)
    make(sys.argv[1])
