#!/usr/bin/env python3
"""Compiles without proof, for `make run` and `make test`: unproved.py PROGRAM writes the program there; unproved.py --test CRATE runs the tests of a crate.

The program says of its version that nothing was proved: that text alone is another one in the copy of the sources that is compiled.
`rt try` compiles without proof, but it neither optimises nor keeps what it compiled. So it is run from a folder that is the kit's by links, in which
scripts stand for three commands: `clang` cuts the program and optimises its parts side by side, in place of looking at each address (modules.py);
`ld.lld` keeps what it linked; `rattle`, which rt try asks for a hint alone, says nothing. The kit stays as it is. As under `rt try`, what runs stops at a
wrong index, a sum that wraps, a failed `unwrap` or `prove!`.
"""
import os
import re
import shlex
import shutil
import subprocess
import sys
import tempfile
import time
from pathlib import Path

TOP = Path(__file__).resolve().parent.parent
MODULES = Path(__file__).resolve().with_name("modules.py")
# So many parts of the program are compiled at once.
JOBS = int(os.environ.get("JOBS") or len(os.sched_getaffinity(0)))
# What the program says of its version: the logic by which it is proved.
VERSIONED = "crates/fr_cli/src/words/commands.rt"
VERSION = re.compile(r'^(const VERSION: &str = "[\d.]+\\n)logic \w+(";)$', re.M)
UNPROVED = r"\1unproved\2"
# `rt` finds the kit by the folder in which these two truly lie.
COPIED = "bin/rt", "bin/rtlib.py"
# Those that are no links.
FOLDERS = "", "bin", "toolchain", "toolchain/bin"
# What rt starts has no environment, so each path is whole. What is used is to be fast.
FAST = """#!/bin/sh
exec {python} {modules} {commands}/clang {jobs} -O2 "$@"
"""
# What is tried once is to be there soon. Where clang inlines little, it is done in half the time.
SOON = """#!/bin/sh
for word do
  shift
  case $word in
  -fsanitize=address) ;;
  -O0) set -- "$@" -O1 -mllvm -inline-threshold=0 ;;
  *) set -- "$@" "$word" ;;
  esac
done
exec {commands}/clang "$@"
"""
# Between the two flags stands the library that looks at addresses.
LLD = """#!/bin/sh
left_out=
for word do
  shift
  case $word in
  --whole-archive) left_out=yes ;;
  --no-whole-archive) left_out= ;;
  *) test "$left_out" || set -- "$@" "$word" ;;
  esac
done
{commands}/ld.lld "$@" && /bin/cp program {room}/program
"""
RATTLE = """#!/bin/sh
"""
# Whoever waits for the program is told so often, in seconds, that the work goes on.
TOLD_EACH = 30


def kit_by_links(room, clang):
    """A folder that is the kit's by links, but for the three scripts, of which this is clang's."""
    kit = Path(shutil.which("rt") or sys.exit("there is no command rt on PATH")).resolve().parent.parent
    fill = {"room": room, "commands": kit / "toolchain/bin", "python": sys.executable, "modules": MODULES, "jobs": JOBS}
    fill = {name: shlex.quote(str(value)) for name, value in fill.items()}
    scripts = {"toolchain/bin/clang": clang.format(**fill), "toolchain/bin/ld.lld": LLD.format(**fill), "bin/rattle": RATTLE}
    for folder in FOLDERS:
        (room / "kit" / folder).mkdir()
        for file in (kit / folder).iterdir():
            path = f"{folder}/{file.name}".lstrip("/")
            if path in scripts:
                (room / "kit" / path).write_text(scripts[path])
                (room / "kit" / path).chmod(0o755)
            elif path in COPIED:
                shutil.copy(file, room / "kit" / path)
            elif path not in FOLDERS:
                (room / "kit" / path).symlink_to(file)


def copied_sources(room):
    """A copy of the sources, in which the program's version says that nothing was proved."""
    top = room / "sources"
    shutil.copytree(TOP / "crates", top / "crates", ignore=shutil.ignore_patterns("out"))
    for file in "crates.txt", "HANDLES":
        shutil.copy(TOP / file, top)
    text, count = VERSION.subn(UNPROVED, (top / VERSIONED).read_text())
    if count != 1:
        sys.exit(f"{VERSIONED} has {count} lines with the program's version, and one is wanted")
    (top / VERSIONED).write_text(text)
    return top / "crates"


def tested(room, crate):
    """Runs the tests of a crate, each for at most ten minutes."""
    return subprocess.run([room / "kit/bin/rt", "try", "--test", "--seconds", "600"], cwd=TOP / "crates" / crate).returncode


def kept(room, to):
    """Runs the program on its stored script, and keeps it where it answers as it should."""
    crate, begun = copied_sources(room) / "slotplan", time.monotonic()
    with open(crate / "stdin", "rb") as script, open(room / "said", "wb") as said, open(room / "wrote", "wb") as wrote:
        with subprocess.Popen([room / "kit/bin/rt", "try", "--", "run"], cwd=crate, stdin=script, stdout=wrote, stderr=said) as trying:
            while trying.poll() is None:
                try:
                    trying.wait(TOLD_EACH)
                except subprocess.TimeoutExpired:
                    print(f"compiling without proof: {time.monotonic() - begun:.0f} seconds so far", file=sys.stderr, flush=True)
    if trying.returncode or (room / "wrote").read_bytes() != (crate / "stdout").read_bytes() or not (room / "program").exists():
        print((room / "said").read_text(errors="replace")[-4000:], file=sys.stderr)
        print(f"the program was not compiled, or did not answer its script as it should: status {trying.returncode}", file=sys.stderr)
        return 1
    to.parent.mkdir(parents=True, exist_ok=True)
    # (whole or not at all)
    shutil.copy(room / "program", f"{to}.new")
    os.replace(f"{to}.new", to)
    return 0


def main(words):
    if len(words) != 1 + (words[:1] == ["--test"]):
        sys.exit(__doc__)
    with tempfile.TemporaryDirectory(prefix="unproved-") as folder:
        room, tests = Path(folder), words[0] == "--test"
        kit_by_links(room, SOON if tests else FAST)
        return tested(room, words[1]) if tests else kept(room, Path(words[0]).absolute())


if __name__ == "__main__":
    sys.exit(main(sys.argv[1:]))
