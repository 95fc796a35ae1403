"""The program that is tried: the one that SLOTPLAN names; else the proved one where no source is newer, else the one that is compiled without proof."""
import os
import subprocess
from functools import cache

from tests import TOP

PROVED, BY_RATTLE, UNPROVED = (TOP / path for path in ("crates/slotplan/out/slotplan", "crates/slotplan/out/slotplan.by-rattle", "out/unproved/slotplan"))
# How many seconds a program may take.
SECONDS = 60


class NoProgram(Exception):
    """There is nothing to try."""


def sources():
    yield TOP / "crates.txt"
    for crate in (TOP / "crates").iterdir():
        yield from (file for folder in ("src", "specs", "proofs") for file in (crate / folder).rglob("*") if file.suffix in (".rt", ".antt"))


def is_current(program, endings=(".rt", ".antt", ".txt")):
    """Whether it is there, and no source with one of these endings is newer."""
    return program.exists() and all(it.stat().st_mtime <= program.stat().st_mtime for it in sources() if it.suffix in endings)


@cache
def program():
    """The path of the program."""
    if given := os.environ.get("SLOTPLAN"):
        path = (TOP / given).resolve()
        if not os.access(path, os.X_OK):
            raise NoProgram(f"{given} is no program")
        return str(path)
    if is_current(PROVED):
        return str(PROVED)
    if is_current(UNPROVED, (".rt", ".txt")):
        return str(UNPROVED)
    raise NoProgram("no program is as new as the sources: make out/unproved/slotplan compiles one without proof, in some minutes")


def with_more(more):
    """The environment, with this more in it."""
    return {**os.environ, **(more or {})}


def ran(words, folder, given=None, more=None, seconds=SECONDS):
    """How the program ends that is started with these words in the folder, and with this more in its environment: status, what it writes, what it says."""
    how = {"stdin": subprocess.DEVNULL} if given is None else {"input": given}
    got = subprocess.run([program(), *words], cwd=folder, env=with_more(more), capture_output=True, timeout=seconds, **how)
    return got.returncode, got.stdout, got.stderr


def ran_line(line, folder, given=b""):
    """How a line of the shell ends, in which "$1" is the program: status, what it writes, what it says."""
    got = subprocess.run(["sh", "-c", line, "sh", program()], cwd=folder, input=given, capture_output=True, timeout=SECONDS)
    return got.returncode, got.stdout, got.stderr
