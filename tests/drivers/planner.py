"""Tests of the planners' page: in a browser, before a register of the test's own. The page is that of the program, or with PAGE=sources what page/
gives, so that a change of it is tried before anything is compiled."""
import http.client
import json
import os
import re
import sys

from tests import TOP
from tests.runner.case import Case

from .browser import LACKS, Browser
from .planned_registers import Register
from .program import SECONDS
from .server import HERE, started
from .stub_server import serving
from .user import User

sys.path.insert(0, str(TOP / "page"))
import serve  # noqa: E402

# What is told of a cell: `Cycle 15, slot 18 A: ...`.
CELL = re.compile(r"Cycle (\d+), slot (\d+) ([AB]): (.*)", re.DOTALL)
SENT = re.compile(r"(\w+), sent by ")

MESSAGE = """const it = document.getElementById('message');
    return it.checkVisibility() && it.textContent.includes(arguments[0]) && it.textContent;"""

# The view of files was made anew, with this file.
TAKEN = """const it = document.getElementById('view-files');
    return !it.firstElementChild.dataset.old && it.textContent.includes(arguments[0]);"""


class Api:
    """A register that is asked beside the page."""

    def __init__(self, port):
        self.port = port

    def ask(self, who, method, path, body=None):
        link = http.client.HTTPConnection(HERE, self.port, timeout=SECONDS)
        try:
            link.request(method, f"/v1/{path}", body, {"X-Office-Key": who})
            return link.getresponse().read().decode()
        finally:
            link.close()

    def get(self, who, path):
        return self.ask(who, "GET", path)

    def command(self, who, **request):
        return json.loads(self.ask(who, "POST", "commands", json.dumps(request)))


class PlannerCase(User, Case):
    """A test of the page. Its class has one browser."""

    may_be_skipped = True
    seconds = 60
    window = {"width": 1280, "height": 800}
    browser = url = None

    def __init__(self, *words):
        Case.__init__(self, *words)

    def setUp(self):
        super().setUp()
        if LACKS:
            self.skipTest(LACKS)
        if self.browser is None:
            type(self).browser = self.enterClassContext(Browser(**self.window))

    def plan(self, cluster, requests):
        """A register that was asked this is served, with the page."""
        register = Register(self.folder, cluster, requests)
        _, line, port = self.enterContext(started(self.folder))
        self.see("the server listens", f"listening on {HERE}:{port}\n".encode(), line)
        self.api = Api(port)
        if os.environ.get("PAGE") == "sources":
            port = self.enterContext(serving(type("Sources", (serve.Handler,), {"register": port})))
        self.url = f"http://{HERE}:{port}/"
        return register

    def says(self, words):
        """What the page tells of what was done, once it has these words."""
        try:
            told = self.browser.wait(words, MESSAGE, words)
        except AssertionError:
            told = self.browser.run("return document.getElementById('message').textContent")
        self.see(f"the page says {words!r}", True, words in told or told)
        self.rests()
        return told

    def sent(self, told):
        """The cells in which something is sent, by what was told of them: cycle, slot, channel and frame."""
        cells = (CELL.fullmatch(it) for it in told)
        return {(int(it[1]), int(it[2]), it[3], SENT.match(it[4])[1]) for it in cells if it and SENT.match(it[4])}

    def scheduled(self, key, variant):
        """The same, of the report."""
        lines = (line.split() for line in self.api.get(key, f"variants/{variant}/schedule").splitlines())
        return {(int(cycle), int(slot), channel, frame) for cycle, slot, channel, frame, *_ in lines}

    def file(self, name, content):
        """A file of the disk, chosen under Files."""
        path = self.folder / name
        path.write_bytes(content if isinstance(content, bytes) else content.encode())
        self.browser.run("document.getElementById('view-files').firstElementChild.dataset.old = 'yes'")
        self.browser.upload("#pick", path)
        self.browser.wait(f"the file {name}", TAKEN, name)
        self.rests()
