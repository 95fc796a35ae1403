"""canmatrix, an outside reader of AUTOSAR: which python3 has it, what it reads, and which descriptions by other tools it brings.

The variable CANMATRIX names a python3; else this one is asked, and then the system's."""
import json
import os
import subprocess
import sys
from functools import cache
from pathlib import Path

READS, WRITES = (Path(__file__).with_name(f"canmatrix_{name}.py") for name in ("reads", "writes"))
SECONDS = 300


@cache
def python(form="arxml"):
    """A python3 that has it with this form of files, or none."""
    for path in filter(None, (os.environ.get("CANMATRIX"), sys.executable, "/usr/bin/python3")):
        try:
            if subprocess.run([path, "-c", f"import canmatrix.formats.{form}"], capture_output=True, timeout=SECONDS).returncode == 0:
                return path
        except OSError:
            continue
    return None


def files():
    """The descriptions by other tools that come with it."""
    said = "import canmatrix, os; print(os.path.dirname(canmatrix.__file__))"
    place = subprocess.run([python(), "-c", said], capture_output=True, text=True, timeout=SECONDS).stdout.splitlines()[-1]
    return sorted(Path(place).glob("tests/*.arxml"))


def reads(file, given=()):
    """What it reads, as canmatrix_reads.py says."""
    ended = subprocess.run([python(), READS, file], input=json.dumps(dict(given)), capture_output=True, text=True, timeout=SECONDS)
    if ended.returncode != 0:
        raise OSError(f"canmatrix: {ended.stderr.strip()[-300:]!r}")
    return json.loads(ended.stdout.splitlines()[-1])


def writes(file, frames):
    """Writes a FIBEX file of CAN, as canmatrix_writes.py says."""
    ended = subprocess.run([python("fibex"), WRITES, file], input=json.dumps(frames), capture_output=True, text=True, timeout=SECONDS)
    if ended.returncode != 0:
        raise OSError(f"canmatrix: {ended.stderr.strip()[-300:]!r}")
