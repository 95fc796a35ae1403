"""The programs in other languages that the tests use: a compiler and a formatter read them."""
import shutil
import subprocess
from pathlib import Path

from tests import TOP
from tests.runner.case import Case

PROGRAMS = TOP / "tests/programs"


class Programs(Case):
    """Each program in tests/programs is laid out as its formatter has it, and compiles without a warning."""

    def said(self, *words):
        ran = subprocess.run(words, capture_output=True, text=True)
        return ran.returncode, (ran.stdout + ran.stderr)[:300]

    def test_c(self):
        if not shutil.which("cc"):
            self.skipTest("there is no C compiler cc")
        for file in sorted(PROGRAMS.glob("*.c")):
            self.see(f"{file.name} compiles", (0, ""), self.said("cc", "-fsyntax-only", "-O1", "-Wall", "-Wextra", "-Werror", file))
            if shutil.which("clang-format"):
                self.see(f"the layout of {file.name}", (0, ""), self.said("clang-format", "--dry-run", "--Werror", file))

    def test_rattle(self):
        """`rt` reads no file that ends in .rt but those of a crate's src/, so these end in .rt.txt."""
        kit = shutil.which("rt")
        if not kit:
            self.skipTest("there is no command rt on PATH")
        self.see("files that rt would stop at", [], sorted(PROGRAMS.rglob("*.rt")))
        for file in sorted(PROGRAMS.glob("*.rt.txt")):
            copy = self.folder / file.stem
            shutil.copy(file, copy)
            self.see(f"the layout of {file.name}", (0, ""), self.said(Path(kit).resolve().with_name("rattle"), "fmt", "--check", copy))
