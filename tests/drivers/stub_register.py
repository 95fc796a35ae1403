"""The planners' page before a server that is no register: it has the page, as the program has it, and answers of its own."""
import urllib.request

from tests.models.messages import CLUSTER as SMALL

from .planner import PlannerCase
from .stub_server import Answering, serving

CLUSTER = """\
channels AB
static_slots 4
slot_macroticks 10
dynamic_macroticks 40
symbol_macroticks 10
idle_macroticks 10
macroticks_per_cycle 100
payload_words 1
cycles 64
supplier s1
"""
NOT_YOURS = 403, "application/json", '{"no":3,"refused":"NotYours"}'
NO_VARIANT = 404, "application/json", '{"no":10,"refused":"NoVariant"}'
# What a register tells the supplier s1: its frame f1 is sent in slot 1 on A, in the even cycles.
GOOD = {
    "cluster": CLUSTER,
    "nodes": "n1\n",
    "variants": "v0 - 1 released\nv1 v0 2 open\n",
    "rows": "GRANT 0001 A n1\nFRAME f1 n1\nAT f1 0001 A 00 02\nSIGNAL f1 0000 08 little x\nGAP     200 f1\n",
    "room": "0001 A 02 01\n",
    "since": "+ FRAME f1 n1\n",
}
LISTED = "return document.querySelectorAll('#frames li').length"
TOLD = "return document.getElementById('login-fault').textContent + document.getElementById('message').textContent"
# Shows the page of this address a key, also where another one was shown; says whether it is that page.
SHOWN = """
    if (!location.href.startsWith(arguments[0])) return false;
    if (document.getElementById('app').checkVisibility()) document.getElementById('leave').click();
    document.getElementById('login-fault').textContent = '';
    document.getElementById('key').value = arguments[1];
    document.getElementById('login-form').requestSubmit();
    return true;"""
# What a page has that was let in, or was not.
END = """return !document.body.hasAttribute('aria-busy') && Boolean(document.querySelector('#frames li')
    || document.getElementById('login-fault').textContent || document.getElementById('message').textContent);"""


class StubRegister(Answering):
    """A server that has the page, and answers of its own, by the last word of a path; one that is None ends the connection."""

    def answer(self):
        self.body()
        if self.path in self.server.parts:
            return self.reply(200, *self.server.parts[self.path])
        words = self.path.split("/")
        word = next((it for it in ("room", "since", "exports", "imports") if it in words), words[-1])
        answer = self.server.answers.get(word, NO_VARIANT)
        if answer is None:
            return None
        status, kind, body = (200, "text/plain", answer) if isinstance(answer, str) else answer
        return self.reply(status, [("content-type", kind)], body.encode())


class StubCase(PlannerCase):
    """The page before such a server, as the program has it."""

    parts = None

    def setUp(self):
        super().setUp()
        if self.parts is None:
            self.plan(SMALL.decode(), "")
            type(self).parts = {path: self.part(path) for path in ("/", "/slotplan.css", "/slotplan.js")}
        self.answers = {}
        self.url = f"http://127.0.0.1:{self.enterContext(serving(StubRegister, answers=self.answers, parts=self.parts))}/"

    def part(self, path):
        """A part of the page: its fields and its body."""
        with urllib.request.urlopen(self.url + path[1:]) as reply:
            return [(name, value) for name, value in reply.getheaders() if name not in ("content-length", "connection")], reply.read()

    def answer(self, **changed):
        """A key is shown to a server that answers so."""
        self.answers.clear()
        self.answers.update({**GOOD, **changed})
        if not self.browser.run(SHOWN, self.url, "supplier01"):
            self.open()
            self.browser.run(SHOWN, self.url, "supplier01")
        self.browser.wait("an end", END)
