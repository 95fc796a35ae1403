"""docs/TUTORIAL.md, docs/HTTP.md and README.md, followed with the built program as a reader does."""
import shutil

from tests import TOP
from tests.drivers.followed_pages import THERE, follow
from tests.models.pages import blocks_left_out
from tests.runner.case import Case


class Following(Case):
    """Each command of TUTORIAL and HTTP, and of the README's plan in a file, prints what stands behind it there."""

    def setUp(self):
        super().setUp()
        if not shutil.which("curl"):
            self.skipTest("there is no curl: apt-get install curl")

    def follows(self, path):
        page = (TOP / path).read_text()
        _, steps = follow(page, THERE.get(path, ()))
        self.see("it has commands", True, bool(steps))
        self.see("blocks of the console with no line of text before them", 0, blocks_left_out(page))
        for step in steps:
            self.see(f"$ {step.command}", step.wanted, step.printed)

    def test_tutorial(self):
        self.follows("docs/TUTORIAL.md")

    def test_http(self):
        self.follows("docs/HTTP.md")

    def test_readme(self):
        self.follows("README.md")
