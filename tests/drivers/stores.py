"""Tests of a program in Rattle over registers in files, out/programs/NAME, beside the SQLite of python3."""
import subprocess

from tests.models.scripts import CLUSTER, cluster_file
from tests.runner.case import Case

from .rattle import built

SECONDS = 120


class StoreCase(Case):
    """A test of such a program."""

    name = ""

    def setUp(self):
        super().setUp()
        self.program = built(self.name)

    def ran(self, words, given=""):
        """What it prints, what it says, and its status."""
        got = subprocess.run([self.program, *words], input=given, capture_output=True, text=True, timeout=SECONDS)
        return got.stdout, got.stderr, got.returncode


class PageCase(StoreCase):
    """A test of the program that tells pages, and carries out edits before."""

    name = "store_pages"

    def asked(self, path, question, edits=""):
        """What the register tells."""
        return self.ran(["open", path], f"{cluster_file(CLUSTER)}---\n{edits}---\n{question}\n")

    def refuses(self, name, path, question, edits="", fault="Unavailable"):
        _, said, status = self.asked(path, question, edits)
        self.see(f"{name}: {question}{edits}", ([fault], 1), (said.split()[-1:], status))
