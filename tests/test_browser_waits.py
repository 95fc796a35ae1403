"""The planners' page while it waits for the register, in a browser: what is under way is shown at once, reads go side by side, and a click that comes
meanwhile waits. A proxy holds the requests for as long as the test wants."""
import threading
import time

from tests.drivers.browser import CONTROL
from tests.drivers.planner import PlannerCase
from tests.drivers.program import SECONDS
from tests.drivers.stub_server import Answering, serving
from tests.models.demo_plan import BOSS, CAMERA, CLUSTER, REQUESTS

SHOWN = "const it = document.querySelector(arguments[0]); return it.checkVisibility() && it.textContent.includes(arguments[1]) && it.textContent"
PLACED = "night_view placed in slot 12 A"


class Held(Answering):
    """A proxy that keeps what it is asked, and hands nothing on while it is closed."""

    def answer(self):
        if self.path.startswith("/v1/"):
            self.server.arrived.append(f"{self.command} {self.path.removeprefix('/v1/')}")
            self.server.gate.wait(SECONDS)
        self.hand_on(self.server.register, self.path)


class Waiting(PlannerCase):
    """What the page does with clicks, and shows, before it is answered."""

    def setUp(self):
        super().setUp()
        self.plan(CLUSTER, REQUESTS)
        self.arrived, self.gate, register = [], threading.Event(), int(self.url.rsplit(":", 1)[1].strip("/"))
        self.gate.set()
        self.addCleanup(self.gate.set)
        self.url = f"http://127.0.0.1:{self.enterContext(serving(Held, register=register, arrived=self.arrived, gate=self.gate))}/"

    def hold(self):
        self.rests()
        self.arrived.clear()
        self.gate.clear()

    def arrive(self, *wanted):
        """These requests, and no other, are there before any of them is answered."""
        end = time.monotonic() + SECONDS
        while len(self.arrived) < len(wanted) and time.monotonic() < end:
            time.sleep(0.02)
        self.see("requests at once", sorted(wanted), sorted(self.arrived))

    def shows(self, selector, words):
        self.see(f"{selector} shows {words!r}", True, words in self.browser.wait(words, SHOWN, selector, words))

    def placements(self):
        rows = self.api.get(CAMERA, "variants/my29/rows").splitlines()
        return [line.removeprefix("AT night_view ") for line in rows if line.startswith("AT night_view")]

    def test_the_key(self):
        self.open()
        self.hold()
        self.show_key(CAMERA)
        self.shows("#login-busy", "Asking the register")
        self.arrive("GET cluster", "GET nodes", "GET variants", "GET variants/x/frames/x/room/1")
        self.see("no second key is taken", True, self.browser.run("return document.getElementById('open-plan').disabled"))
        self.gate.set()
        self.is_in()
        self.see("then the plan is read, and no more", ["GET variants/my29/rows"], self.arrived[4:])

    def test_placing(self):
        """A second click waits for the first; each is a change and a reading."""
        self.enter(CAMERA)
        self.frame("night_view")
        self.hold()
        self.see("where it fits is known without asking", True, "fits in 11 places" in self.room_of(8, "A"))
        self.see("nothing is asked", [], self.arrived)
        places = [self.place_of(base, 12, "A", "place night_view") for base in (1, 2, 3)]
        self.browser.click_at(places[0])
        self.shows("#message", f"Sending: {PLACED} 1/8 ...")
        for place, words in zip(places[1:], ["1 step waits", "2 steps wait"]):
            self.browser.click_at(place)
            self.shows("#waits", words)
        self.arrive("POST commands")
        self.gate.set()
        self.says("night_view is placed in slot 12 A 3/8")
        self.see("the register has all", [f"0012 A {base:02} 08" for base in (1, 2, 3)], self.placements())
        self.see("what was asked", ["POST commands", "GET variants/my29/rows"] * 3, self.arrived)
        self.see("nothing waits", False, self.browser.run("return document.getElementById('waits').checkVisibility()"))
        self.browser.run("document.getElementById('grid').focus()")
        self.hold()
        self.browser.keys("z", "z", holding=CONTROL)
        self.shows("#message", f"Taking back: {PLACED} 3/8 ...")
        self.shows("#waits", "1 step waits")
        self.gate.set()
        self.says(f"Taken back: {PLACED} 2/8")
        self.see("two are taken back", ["0012 A 01 08"], self.placements())

    def room_of(self, repetition, channels):
        """As `room`, while nothing is answered."""
        self.browser.choose("#repetition", f"{repetition}:")
        self.browser.choose("#place-channels", channels)
        self.browser.click("#show-room")
        return self.browser.wait("where it fits", "const it = document.getElementById('mode'); return it.checkVisibility() && it.textContent")

    def test_what_waits_is_told_where_one_is_refused(self):
        self.enter(CAMERA)
        self.frame("night_view")
        self.room_of(8, "A")
        places = [self.place_of(base, 12, "A", "place night_view") for base in (1, 2)]
        self.hold()
        taken = {"variant": "my29", "frame": "signs", "slot": 12, "channels": "A", "base": 1, "repetition": 16}
        self.see("a colleague takes the cell", {"ok": "done"}, self.api.command(CAMERA, do="place", **taken))
        for place in places:
            self.browser.click_at(place)
        self.shows("#waits", "1 step waits")
        self.gate.set()
        said = self.says("CellTaken (25)")
        self.see("it is told", True, "1 step that waited was not carried out." in said)
        self.see("nothing was placed", [], self.placements())

    def test_reload(self):
        self.enter(BOSS)
        self.view("diff")
        self.browser.choose("#from", "my28")
        self.browser.click("#compare")
        self.rests()
        self.hold()
        self.browser.click("#reload")
        self.shows("#message", "Reading the plan again ...")
        self.arrive("GET cluster", "GET nodes", "GET variants", "GET variants/my29/rows", "GET variants/my29/since/my28")
        self.gate.set()
        self.says("The plan is read again.")
        self.see("no more is asked", 5, len(self.arrived))

    def test_another_variant(self):
        self.enter(CAMERA)
        self.hold()
        self.browser.choose("#variant", "my28")
        self.shows("#message", "Reading my28 ...")
        self.arrive("GET variants/my28/rows")
        self.gate.set()
        self.browser.wait("the variant", "return document.title.startsWith('my28')")
        self.rests()
        self.see("what was under way is no longer said", False, self.browser.run("return document.getElementById('message').checkVisibility()"))


class Dead(Answering):
    """A server whose connections end without a reply, once it is told to."""

    def answer(self):
        if self.path.startswith("/v1/") and self.server.dead:
            self.body()
            return
        self.hand_on(self.server.register, self.path)


class Cut(PlannerCase):
    """A server that is gone for a while as a key is shown: it is told, and the key need not be typed again."""

    def test_the_key_is_kept(self):
        self.plan(CLUSTER, REQUESTS)
        dead = [True]
        port = self.enterContext(serving(Dead, register=int(self.url.rsplit(":", 1)[1].strip("/")), dead=dead))
        self.url = f"http://127.0.0.1:{port}/"
        self.open()
        self.show_key(CAMERA)
        told = self.browser.wait("why", SHOWN, "#login-fault", "does not answer")
        self.see("that the key is kept is told", True, "The key is kept" in told)
        self.see("it stands in no field", "", self.browser.run("return document.getElementById('key').value"))
        dead.clear()
        self.browser.press("Open the plan")
        self.is_in()
        self.see("who is in", "camtech", self.seen("#who"))
