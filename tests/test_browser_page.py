"""The planners' page as such, in a browser: where the key is, what the browser refuses the page, who is asked, names for those who hear it, sizes."""
import time

from tests.drivers.browser import ESCAPE
from tests.drivers.planner import PlannerCase
from tests.drivers.stub_server import Answering, serving
from tests.models.demo_plan import BOSS, CAMERA, CLUSTER, COLOURS, REQUESTS, SUPPLIERS
from tests.models.workbook import workbook

# So many seconds a connection may take.
CONNECTION = 10
VIEWS = "plan", "frames", "lanes", "files", "diff", "manage"
# What a user acts on, by the words of the accessibility tree.
CONTROLS = set("button textbox searchbox combobox checkbox radio spinbutton tab application link slider listbox switch".split())
PLACES = """
    const of = store => Object.entries(store).flat().join(' ');
    return {
        address: location.href + document.referrer + history.length + JSON.stringify(history.state),
        storage: of(sessionStorage) + of(localStorage) + document.cookie,
        fields: [...document.querySelectorAll('input, textarea, select')].map(it => it.value).join(' '),
        text: document.documentElement.outerHTML,
        title: document.title,
        requests: performance.getEntriesByType('resource').map(it => it.name).join(' '),
    };"""

# The colours of the points of drawings.
COLOURED = """
    const found = new Set();
    for (const canvas of document.querySelectorAll(arguments[0])) {
        const {data} = canvas.getContext('2d').getImageData(0, 0, canvas.width, canvas.height);
        for (let at = 0; at < data.length; at += 4) found.add(data[at] << 16 | data[at + 1] << 8 | data[at + 2]);
    }
    return [...found].map(colour => '#' + colour.toString(16).padStart(6, '0').toUpperCase());"""


class Key(PlannerCase):
    """The key is asked once, and stands in no address, storage, field or text; a tick keeps it for the tab alone."""

    def setUp(self):
        super().setUp()
        self.plan(CLUSTER, REQUESTS)

    def places(self, key):
        """Where the key is found in the page."""
        return sorted(place for place, text in self.browser.run(PLACES).items() if key in text)

    def test_nowhere(self):
        browser = self.open()
        browser.requests()
        self.show_key(CAMERA)
        self.is_in()
        for view in VIEWS:
            self.view(view)
            self.rests()
            self.see(f"places with the key in {view}", [], self.places(CAMERA))
        self.frame("signs")
        self.see("places with the key beside a frame", [], self.places(CAMERA))
        sent = browser.requests()
        self.see("it was sent", True, bool(sent))
        self.see("in one field alone", {"X-Office-Key"}, {name for it in sent for name, value in it["headers"].items() if CAMERA in value})
        self.see("and else nowhere", [], [it["url"] for it in sent if CAMERA in it["url"] + it.get("postData", "")])
        self.see("databases", 0, browser.run("return indexedDB.databases().then(found => found.length)"))
        self.see("caches", 0, browser.run("return caches.keys().then(found => found.length)"))

    def test_the_tick(self):
        browser = self.open()
        browser.click("#keep")
        self.show_key(CAMERA)
        self.is_in()
        self.see("places with the key", ["storage"], self.places(CAMERA))
        self.see("in the tab's storage alone", 0, browser.run("return localStorage.length + document.cookie.length"))
        self.open()
        self.is_in()
        self.see("places with the key, loaded again", ["storage"], self.places(CAMERA))
        browser.click("#leave")
        self.see("what is kept", 0, browser.run("return sessionStorage.length"))
        self.see("what is shown", 0, browser.run("return document.querySelectorAll('#frames li, #detail *, #view-files *').length"))
        self.open()
        self.see("the key is asked for", True, browser.run("return document.getElementById('key').checkVisibility()"))

    def test_without_the_tick(self):
        """A page that is loaded again knows no key."""
        browser = self.enter(CAMERA)
        self.open()
        self.see("the key is asked for", True, browser.run("return document.getElementById('key').checkVisibility()"))
        self.see("nothing of the plan is there", 0, browser.run("return document.querySelectorAll('#frames li').length"))

    def test_keys_of_nobody(self):
        browser = self.open()
        self.show_key("nobody12345")
        browser.wait("a refusal", "return document.getElementById('login-fault').textContent.includes('UnknownKey (2)')")
        self.see("no plan is shown", False, browser.run("return document.getElementById('app').checkVisibility()"))
        browser.requests()
        self.show_key("a b")
        self.see("a key's form", True, "8 to 64" in browser.text("#login-fault"))
        self.see("what was sent for it", [], browser.requests())

    def test_spaces(self):
        """Those that a paste brings round a key are none of it."""
        self.open()
        self.show_key(f" {CAMERA} ")
        self.is_in()

    def test_a_new_key(self):
        """A key that the integrator changed under an open page shows nothing any more."""
        browser = self.enter(CAMERA)
        self.see("the key is changed", {"ok": "done"}, self.api.command(BOSS, do="set_key", supplier="camtech", key="camtech002"))
        browser.click("#reload")
        browser.wait("the login", "return document.getElementById('login-fault').textContent.includes('nobody')")
        self.see("no plan is shown", False, browser.run("return document.getElementById('app').checkVisibility()"))
        self.see("what is left of the plan", 0, browser.run("return document.querySelectorAll('#frames li, #detail *').length"))


class Elsewhere(Answering):
    """Another server, which keeps what it is asked."""

    def answer(self):
        self.body()
        self.server.asked.append(self.path)
        self.reply(200, [("access-control-allow-origin", "*")], b"")


class Below(Answering):
    """A proxy that puts a register below a path."""

    def answer(self):
        if not self.path.startswith("/car/"):
            self.body()
            self.reply(404, [], b"")
        else:
            self.hand_on(self.server.register, self.path.removeprefix("/car"))


class BelowAPath(PlannerCase):
    """The page asks by addresses relative to its own path, so that a proxy may put a register below one."""

    def test_a_path(self):
        self.plan(CLUSTER, REQUESTS)
        port = int(self.url.rsplit(":", 1)[1].strip("/"))
        self.url = f"http://127.0.0.1:{self.enterContext(serving(Below, register=port))}/car/"
        browser = self.enter(CAMERA)
        self.frame("night_view")
        browser.type("#signal-name", "contrast")
        browser.type("#signal-start", "20")
        browser.press("Add it", "#detail")
        self.says("contrast is added to night_view")
        self.see("the address", f"{self.url}#my29/plan/night_view", browser.run("return location.href"))
        browser.click("#leave")
        self.see("the address of who has left", self.url, browser.run("return location.href"))


class Policy(PlannerCase):
    """The browser lets the page run nothing but its own program, and ask nobody but its own server."""

    def setUp(self):
        super().setUp()
        self.plan(CLUSTER, REQUESTS)

    def test_nobody_else_is_asked(self):
        browser = self.open()
        browser.said()
        browser.requests()
        self.enter(BOSS)
        for view in VIEWS:
            self.view(view)
            self.rests()
        asked = {it["url"] for it in browser.requests()}
        own = {self.url, f"{self.url}slotplan.css", f"{self.url}slotplan.js", "about:blank", "data:,"}
        self.see("requests", True, len(asked) > 5)
        self.see("requests of others", [], sorted(url for url in asked if url not in own and not url.startswith(f"{self.url}v1/")))
        self.see("what the console says of the policy", [], [it for it in browser.said() if "Content Security Policy" in it or "TrustedHTML" in it])

    def test_what_is_refused(self):
        asked = []
        other = f"http://127.0.0.1:{self.enterContext(serving(Elsewhere, asked=asked))}/"
        browser = self.enter(CAMERA)
        html = "try { document.body.insertAdjacentHTML('beforeend', '<b>x</b>'); return 'in'; } catch (fault) { return fault.name; }"
        self.see("HTML that a script puts in", "TypeError", browser.run(html))
        policy = "try { trustedTypes.createPolicy('x', {createHTML: it => it}); return 'made'; } catch (fault) { return fault.name; }"
        self.see("a policy of its own", "TypeError", browser.run(policy))
        style = """const it = document.createElement('p'); it.setAttribute('style', 'color:red'); document.body.append(it);
            const found = getComputedStyle(it).color; it.remove(); return found === 'rgb(255, 0, 0)'"""
        self.see("a style in an attribute", False, browser.run(style))
        script = """const it = document.createElement('script');
            try { it.text = 'window.ran = 1'; document.head.append(it); } catch {} return window.ran ?? null"""
        self.see("a script that is put in", None, browser.run(script))
        fetched = "return fetch(arguments[0]).then(() => 'asked', fault => fault.name)"
        self.see("another server, by fetch", "TypeError", browser.run(fetched, other))
        shown = """const it = new Image(), where = arguments[0];
            return new Promise(done => { it.onload = () => done('shown'); it.onerror = () => done('refused'); it.src = where; })"""
        self.see("another server, by an image", "refused", browser.run(shown, other))
        form = "const it = document.createElement('form'); it.action = arguments[0]; document.body.append(it); it.submit(); it.remove();"
        browser.run(form, other)
        time.sleep(0.3)
        self.see("what the other server was asked", [], asked)

    def test_no_frame(self):
        """No other page shows it in a frame."""
        browser, field = self.browser, "return document.getElementById('key') !== null"
        browser.open(f"data:text/html,<p id=key><iframe src='{self.url}'></iframe>")
        self.see("the outer page has such an element", True, browser.run(field))
        browser.call("POST", "/frame", {"id": 0})
        self.see("its field of the key is in the frame", False, browser.run(field))
        browser.call("POST", "/frame", {"id": None})


class Counting(Answering):
    """A proxy that keeps what it is asked, and with which status it is answered."""

    def answer(self):
        self.hand_on(self.server.register, self.path)

    def reply(self, status, fields, body):
        self.server.replied.append((self.path, status, len(body)))
        super().reply(status, fields, body)


class Visits(PlannerCase):
    """Another visit fetches nothing of the page anew."""

    def test_a_second_visit(self):
        self.plan(CLUSTER, REQUESTS)
        replied, port = [], int(self.url.rsplit(":", 1)[1].strip("/"))
        self.url = f"http://127.0.0.1:{self.enterContext(serving(Counting, register=port, replied=replied))}/"
        for visit, status in enumerate([200, 304, 304]):
            replied.clear()
            self.enter(CAMERA)
            of_the_page = sorted((path, got, size > 0) for path, got, size in replied if not path.startswith("/v1/"))
            self.see(f"visit {visit}", [(path, status, status == 200) for path in ("/", "/slotplan.css", "/slotplan.js")], of_the_page)


class Names(PlannerCase):
    """Each control has a name for those who hear the page, in each view, and in what opens within one."""

    def setUp(self):
        super().setUp()
        self.plan(CLUSTER, REQUESTS)

    def named(self, what, least):
        """There are so many controls at least, and none without a name."""
        self.rests()
        nodes = self.browser.devtools("Accessibility.getFullAXTree")["nodes"]
        controls = [it for it in nodes if not it.get("ignored") and it["role"]["value"] in CONTROLS]
        self.see(f"controls of {what}: {len(controls)}", True, len(controls) >= least)
        self.see(f"nameless in {what}", [], [it["role"]["value"] for it in controls if not it.get("name", {}).get("value", "").strip()])

    def dialog(self, button, least, within="body"):
        """What opens by a button has names too."""
        self.browser.press(button, within)
        self.browser.wait("the dialog", "return document.getElementById('dialog').open")
        self.named(f"the dialog {button}", least)
        self.browser.keys(ESCAPE)
        self.browser.wait("its end", "return !document.getElementById('dialog').open")

    def test_views(self):
        self.open()
        self.named("the page before the key is shown", 3)
        for key in CAMERA, BOSS:
            self.enter(key)
            self.frame("signs")
            for view in VIEWS:
                self.view(view)
                self.named(f"{view} of {key}", 16)

    def test_what_a_supplier_opens(self):
        browser = self.enter(CAMERA)
        self.frame("signs")
        self.dialog("New frame", 4)
        self.dialog("Help", 1)
        self.dialog("Drop the frame", 2)
        self.room(8, "A")
        self.named("placing", 30)
        self.view("files")
        self.file("book.xlsx", workbook([["frame", "node"], ["glare", "front_camera"]]))
        self.see("a sheet can be chosen", True, browser.run("return document.getElementById('sheet').checkVisibility()"))
        self.named("a workbook", 20)
        self.file("walk.csv", "frame,node,slot,channels,base,repetition\nwalkers,front_camera,17,AB,1,2\n")
        browser.click("input[value=replace]")
        self.named("a file", 22)
        self.dialog("Replace by 1 row", 2)
        self.view("diff")
        browser.choose("#from", "my28")
        browser.press("Compare")
        self.named("a difference", 25)

    def test_what_the_integrator_opens(self):
        browser = self.enter(BOSS)
        browser.click("#grant-mode")
        browser.click("#fit")
        browser.drag(self.place_of(20, 18, "A"), self.place_of(20, 20, "B"))
        self.named("lanes that are drawn over", 30)
        self.view("manage")
        self.dialog("Release it", 3)
        browser.run("document.getElementById('grants-text').value = 'slot,channel,supplier,node\\n18,A,camtech,front_camera'")
        browser.click("#grants-look")
        browser.wait("what would change", "return document.getElementById('grants-send')")
        self.named("a table of grants", 30)


class Sizes(PlannerCase):
    """The page fits a phone's width, a tablet's and a desk's, and is printed whole."""

    def fits(self, width, height):
        browser = self.browser
        browser.resize(width, height)
        self.enter(CAMERA)
        for view in VIEWS:
            browser.run("document.getElementById(arguments[0]).click()", f"tab-{view}")
            self.rests()
            wide = browser.run("return document.documentElement.scrollWidth")
            self.see(f"{view} at {width}: it is {wide} wide", True, wide <= width)
        hidden = """return [...document.querySelectorAll('button, input, select')].filter(it => it.checkVisibility()).filter(it => {
            const box = it.getBoundingClientRect();
            return !it.closest('.view, #frames, #tabs') && (box.right > innerWidth + 1 || box.left < -1); }).map(it => it.id || it.textContent)"""
        self.see(f"controls that stick out at {width}", [], browser.run(hidden))
        # Where the tabs have no room beside each other a finger draws the last of them into the window.
        browser.run("document.getElementById('tabs').scrollLeft = 1000")
        inside = "const box = document.getElementById('tab-manage').getBoundingClientRect(); return box.left >= 0 && box.right <= innerWidth"
        self.see(f"the last tab can be drawn into the window at {width}", True, browser.run(inside))

    def test_widths(self):
        self.plan(CLUSTER, REQUESTS)
        for width, height in (390, 844), (768, 1024), (1280, 800), (1920, 1080):
            self.fits(width, height)
        self.browser.resize(1280, 800)

    def test_print(self):
        """All lanes are printed, of which the window shows the first ones alone."""
        self.plan(CLUSTER, REQUESTS)
        browser = self.enter(BOSS)
        for _ in range(8):
            browser.click("#wider")
        self.rests()
        colours = set(COLOURS[: len(SUPPLIERS)])
        self.see("colours in the window", True, len(colours & set(browser.run(COLOURED, "#grid"))) < 3)
        browser.run("window.dispatchEvent(new Event('beforeprint'))")
        self.see("colours on paper", colours, colours & set(browser.run(COLOURED, "#print canvas")))
        browser.run("window.dispatchEvent(new Event('afterprint'))")
        self.see("what was made for print is gone", 0, browser.run("return document.querySelectorAll('#print canvas').length"))
        self.see("the browser prints drawings", True, b"/Subtype /Image" in browser.printed())


class SilentConnections(PlannerCase):
    """A browser opens a connection more than it needs, and leaves it silent: nobody waits for it, as long as a connection may take."""

    def test_visits(self):
        self.plan(CLUSTER, REQUESTS)
        for visit in range(4):
            self.enter(CAMERA)
            begun = time.monotonic()
            told = self.api.get(CAMERA, "variants/my29/grants")
            self.see(f"visit {visit}: another client is answered", True, "0017 B front_camera\n" in told)
            self.see(f"visit {visit}: it does not wait for another connection's end", True, time.monotonic() - begun < CONNECTION)
