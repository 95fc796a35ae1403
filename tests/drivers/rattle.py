"""Programs in Rattle that try or measure the crates, tests/programs/NAME.rt.txt: python3 -m tests.drivers.rattle NAME proves and builds one, out/programs/NAME

That is done in a folder that is gone afterwards, since the gate wants no crate that `crates.txt` does not name, and `rt` stops at a file that ends
in .rt and is none of a crate's src/. It takes minutes where the crates below are still to be proved."""
import os
import shutil
import subprocess
import sys
import tempfile
from pathlib import Path
from typing import NamedTuple

from tests import TOP

from .program import NoProgram

KEPT = TOP / "out/programs"


class Needs(NamedTuple):
    """The crates that a program is over, ours and the kit's, and words by which it does nothing."""

    ours: tuple
    kit: tuple
    words: tuple = ("nothing",)


PROGRAMS = {
    "store_files": Needs(("fr_base", "fr_store", "fr_text"), ("sqlite", "anyhow"), ("open", "none.db", "close")),
    "store_pages": Needs(("fr_base", "fr_layout", "fr_store", "fr_text", "fr_world"), ("sqlite", "anyhow")),
    "refuse_store": Needs(("fr_base", "fr_store", "fr_text", "fr_world"), ("sqlite", "anyhow")),
    "measure_store": Needs(("fr_base", "fr_store", "fr_world"), ("sqlite", "anyhow")),
    "measure_decisions": Needs(("fr_base", "fr_layout", "fr_world", "fr_text"), ("anyhow",), ("read", "0")),
    "measure_imports": Needs(("fr_base", "fr_text"), ("csv", "anyhow"), ("rows", "0")),
}

BUILD = """load("@rattle//bazel/rattle:crate.bzl", "rattle_crate")

rattle_crate(
    name = "{name}",
    deps = [{deps}],
)
"""


def made(name, crate):
    """The crate of the program in this folder."""
    deps = [f'"//crates/{it}"' for it in PROGRAMS[name].ours] + [f'"@rattle//{it}"' for it in PROGRAMS[name].kit]
    (crate / "src").mkdir(parents=True)
    (crate / "BUILD.bazel").write_text(BUILD.format(name=name, deps=", ".join(deps)))
    shutil.copy(TOP / f"tests/programs/{name}.rt.txt", crate / "src/main.rt")


def build(name):
    """Proves and builds the program, and keeps it."""
    KEPT.mkdir(parents=True, exist_ok=True)
    with tempfile.TemporaryDirectory(dir=TOP / "out") as room:
        crate = Path(room) / name
        made(name, crate)
        said = subprocess.run(["rt", "run", "--", *PROGRAMS[name].words], cwd=crate, stdin=subprocess.DEVNULL, capture_output=True, text=True)
        if said.returncode:
            sys.exit(f"{said.stdout}{said.stderr}{name}: the program was not built")
        # (whole or not at all)
        shutil.copy(crate / f"out/{name}", KEPT / f"{name}.new")
        os.replace(KEPT / f"{name}.new", KEPT / name)


def built(name):
    """The path of the program, which is there."""
    if not (KEPT / name).exists():
        raise NoProgram(f"out/programs/{name} is not there: make out/programs/{name} proves and builds it")
    return str(KEPT / name)


if __name__ == "__main__":
    if sys.argv[1:] not in [[name] for name in PROGRAMS]:
        sys.exit(__doc__)
    build(sys.argv[1])
