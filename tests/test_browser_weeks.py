"""The weeks of docs/TUTORIAL.md in the planners' page, in a browser: a supplier's and an integrator's, each by mouse and by keyboard alone. The
register has afterwards what the tutorial's reader sees."""
from tests.drivers.browser import ENTER, ESCAPE, HOME, LEFT, RIGHT
from tests.drivers.planner import PlannerCase
from tests.models.tutorial import BOSS, BRAKES, LIGHTS, STEERING, printed, requests, saved

SINCE = "variants/sport/since/saloon"
LAMPS = saved("lamps.csv")
# The row of Tuesday that is refused, mended.
MENDED = LAMPS.replace("1,8", "3,8")


class SuppliersWeek(PlannerCase):
    """The tutorial's supplier `lights` plans its frames in the page."""

    def setUp(self):
        super().setUp()
        self.plan(saved("cluster.toml"), requests("9. A supplier's week"))

    def imports(self, name, content, label, rows):
        self.file(name, content)
        self.browser.type("#label", label)
        self.browser.click("#carry-out")
        self.says(f"{rows} rows of {name} imported under the label {label}.")

    def test_by_mouse(self):
        self.enter(LIGHTS, frames=False)
        for day in self.monday, self.tuesday, self.wednesday, self.thursday, self.friday, self.next_monday:
            day(self.browser)
        self.see("what is new in sport", printed(f"call lightsKey1 {SINCE}"), self.api.get(LIGHTS, SINCE))

    def monday(self, browser):
        self.see("the variant", "sport", browser.run("return document.getElementById('variant').value"))
        self.see("the figures", True, "Payload 8 bytes" in self.seen("#figures"))
        self.view("lanes")
        self.see("what is granted", [["4 A", "lamp_unit", "0 of 64"]], [row[:3] for row in self.table("#view-lanes")])

    def tuesday(self, browser):
        self.view("files")
        self.file("lamps.csv", LAMPS)
        *done, refused = (row[-1].strip() for row in self.table("#view-files"))
        self.see("two rows would be done", ["would be carried out"] * 2, done)
        for words in "CellTaken (25)", "In cycle 1 on channel A the frame high_beam is sent already.":
            self.see(f"the third is refused: {words}", True, words in refused)
        self.see("such a file is not sent", True, browser.run("return document.getElementById('carry-out').disabled"))
        self.imports("lamps.csv", MENDED, "lamps", 3)

    def wednesday(self, _):
        self.imports("lamp_signals.csv", saved("lamp_signals.csv"), "lamp_signals", 2)

    def thursday(self, browser):
        self.view("plan")
        self.frame("brake_lamps")
        self.see("where it fits once more", True, "fits in 1 place" in self.room(8, "A"))
        self.place_of(7, 4, "A", "place brake_lamps with base 7 of repetition 8")
        self.view("files")
        browser.press("placements.csv", "#view-files")
        changed = browser.taken("sport_placements.csv").replace("3,8", "3,4")
        self.see("the export, its row changed", printed("cat placements.csv"), changed)
        self.file("placements.csv", changed)
        browser.click("input[value=replace]")
        self.rests()
        browser.press("Replace by 3 rows", "#view-files")
        browser.wait("what would be gone", "return document.getElementById('dialog').textContent.includes('slot 4 A, base 3, repetition 8')")
        browser.press("Replace", "#dialog")
        self.says("3 rows of placements.csv took the place")

    def friday(self, browser):
        self.view("diff")
        browser.press("Compare", "#view-diff")
        self.rests()
        self.see("the rows that differ", printed(f"call lightsKey1 {SINCE}").count("\n"), len(self.table("#view-diff")))
        self.view("files")
        browser.press("picture.html", "#view-files")
        self.see("the picture", self.api.get(LIGHTS, "variants/sport/picture"), browser.taken("sport.html"))

    def next_monday(self, browser):
        """A frame goes with its row, and last week comes back by its three files."""
        files = {}
        for kind in "frames", "placements", "signals":
            browser.press(f"{kind}.csv", "#view-files")
            files[kind] = browser.taken(f"sport_{kind}.csv")
        self.sends_whole("frames", files["frames"].replace("high_beam,lamp_unit\n", ""), 2, "1 frame, 1 placement, 1 signal would be gone")
        self.see("all rows", printed("call lightsKey1 variants/sport/rows"), self.api.get(LIGHTS, "variants/sport/rows"))
        for kind, content in files.items():
            self.sends_whole(kind, content, content.count("\n") - 1)

    def sends_whole(self, kind, content, rows, gone=""):
        """A file is all that there is of its kind; the page asks where something would be gone."""
        self.file(f"{kind}.csv", content)
        self.browser.click("input[value=whole]")
        self.rests()
        self.browser.press(f"Replace all by {rows} rows", "#view-files")
        if gone:
            self.browser.wait(gone, "return document.getElementById('dialog').open && document.getElementById('dialog').textContent.includes(arguments[0])", gone)
            self.browser.press("Replace", "#dialog")
        self.says(f"{rows} rows of {kind}.csv are all {kind} now.")

    def places(self, frame, base, repetition):
        """Adds a frame and places it, by keys."""
        browser = self.browser
        self.enter_on("#add-frame")
        browser.wait("the dialog", "return document.getElementById('dialog').open")
        self.write("#frame-name", frame)
        browser.keys(ENTER)
        self.says(f"{frame} is added")
        self.write("#repetition", str(repetition))
        self.enter_on("#show-room")
        browser.wait("where it fits", "return document.getElementById('mode').checkVisibility()")
        self.rests()
        self.reach("#grid")
        for _ in range(repetition):
            if f"place {frame} with base {base} of repetition {repetition}" in browser.text("#cell"):
                break
            browser.keys("n")
        browser.keys(ENTER)
        self.says(f"{frame} is placed in slot 4 A {base}/{repetition}")

    def signal(self, frame):
        """Gives the chosen frame the signal `level` of bits 0 to 7, by keys."""
        self.write("#signal-name", "level")
        self.write("#signal-start", "0")
        self.browser.keys(ENTER)
        self.says("level is added")

    def test_by_keys(self):
        browser = self.open()
        # The field of the key has the focus from the beginning.
        browser.keys(*LIGHTS, ENTER)
        self.is_in(frames=False)
        self.reach("#tab-plan")
        browser.keys(RIGHT, RIGHT)
        self.see("what is granted", [["4 A", "lamp_unit", "0 of 64"]], [row[:3] for row in self.table("#view-lanes")])
        browser.keys(*[RIGHT] * 4)
        self.see("round to the plan", True, browser.run("return document.getElementById('view-plan').checkVisibility()"))
        self.places("low_beam", 0, 2)
        self.signal("low_beam")
        self.places("high_beam", 1, 4)
        self.signal("high_beam")
        self.places("brake_lamps", 3, 4)
        self.reach("#tab-plan")
        browser.keys(*[RIGHT] * 4)
        self.enter_on("#compare")
        self.rests()
        self.see("the rows that differ", printed(f"call lightsKey1 {SINCE}").count("\n"), len(self.table("#view-diff")))
        self.see("what is new in sport", printed(f"call lightsKey1 {SINCE}"), self.api.get(LIGHTS, SINCE))


class IntegratorsWeek(PlannerCase):
    """The tutorial's integrator opens variants, grants slots, releases a variant and lets a supplier join, in the page."""

    def form(self, title, **fields):
        """Fills a form, and sends it."""
        for name, value in fields.items():
            field = f"#form-{title}-{name}"
            if self.browser.run("return document.querySelector(arguments[0]).tagName", field) == "SELECT":
                self.browser.choose(field, value)
            else:
                self.browser.type(field, value)
        self.browser.click(f"form:has(#form-{title}-{name}) button[type=submit]")

    def grants(self, to, *lanes):
        """Lanes are granted by clicks."""
        self.browser.choose("#grant-to", to)
        if self.browser.run("return document.getElementById('grant-mode').ariaPressed") != "true":
            self.browser.click("#grant-mode")
        for slot, channel in lanes:
            self.browser.click_at(self.place_of(9, slot, channel, "granted to nobody"))
            self.says(f"Slot {slot} {channel} is granted to {to}.")

    def setUp(self):
        super().setUp()
        self.plan(saved("cluster.toml"), "")

    def suppliers_plan(self):
        """The suppliers plan, each with its own key."""
        lines = [line.partition(" ") for line in requests("7. Release the variant, and open the next").splitlines()]
        for key, _, text in lines:
            if key in (BRAKES, STEERING):
                self.api.ask(key, "POST", "commands", text)

    def is_planned(self):
        """The load of saloon is what the tutorial prints."""
        loads = self.api.get(BOSS, "variants/saloon/load").splitlines(True)
        self.see("the load", printed("call integrator1 variants/saloon/load"), "".join(loads[:7]))

    def has_joined(self):
        self.see("the variants", printed("call lightsKey1 variants\n".strip()), self.api.get(LIGHTS, "variants"))
        self.see("what is granted to lights", printed("call lightsKey1 variants/sport/load"), self.api.get(LIGHTS, "variants/sport/load"))

    def test_by_mouse(self):
        browser = self.enter(BOSS, frames=False)
        self.says("There is no variant yet. Open one.")
        usable = "return [...document.querySelectorAll('#tabs button')].filter(it => !it.disabled).map(it => it.textContent)"
        self.see("what can be looked at", ["Cluster"], browser.run(usable))
        self.form("Openavariant", name="saloon")
        self.says("saloon is open.")
        for supplier, node in ("brakes", "brake_unit"), ("steering", "rack_unit"):
            self.view("manage")
            self.form("Addanode", supplier=supplier, node=node)
            self.says(f"{node} is a node of {supplier}")
        self.view("plan")
        self.grants("brake_unit of brakes", (1, "A"), (1, "B"), (2, "A"))
        self.grants("rack_unit of steering", (3, "A"))
        browser.choose("#grant-to", "brake_unit of brakes")
        browser.click_at(self.place_of(9, 3, "A", "granted to rack_unit of steering"))
        self.says("Slot 3 A is held by rack_unit of steering.")
        self.suppliers_plan()
        browser.click("#reload")
        self.says("read again")
        self.is_planned()
        self.releases("saloon")
        self.form("Openavariant", name="sport", **{"from": "with the rows of saloon"})
        self.says("sport is open.")
        self.view("manage")
        self.form("Addasupplier", supplier="lights", key=LIGHTS)
        self.says("lights has joined")
        self.form("Addanode", supplier="lights", node="lamp_unit")
        self.says("lamp_unit is a node of lights")
        self.view("plan")
        self.grants("lamp_unit of lights", (4, "A"))
        self.has_joined()

    def releases(self, variant):
        """A release wants the variant's name typed, letter by letter."""
        browser = self.browser
        self.view("manage")
        browser.click("#release")
        browser.wait("the dialog", "return document.getElementById('dialog').open")
        disabled = "return document.querySelector('#dialog .main').disabled"
        for text in "", variant[:-1], variant.upper():
            browser.type("#dialog input", text)
            self.see(f"with {text!r} nothing can be released", True, browser.run(disabled))
        browser.type("#dialog input", variant)
        browser.press("Release it", "#dialog")
        self.says(f"{variant} is released.")

    def written(self, title, words, **fields):
        """Fills a form by keys, from its first field on; in a list the keys are letters that lead to the option."""
        for name, value in fields.items():
            self.write(f"#form-{title}-{name}", value)
        self.enter_on(f"form:has(#form-{title}-{name}) button[type=submit]")
        self.says(words)

    def to_tab(self, *ways):
        """Goes to the tabs, and from the chosen one to another by arrows."""
        self.reach("#tabs [aria-selected=true]")
        self.browser.keys(*ways)
        self.rests()

    def granted(self, to, *lanes):
        """Grants lanes by keys: those of the grid are walked through from its first one."""
        browser = self.browser
        self.write("#grant-to", to)
        if browser.run("return document.getElementById('grant-mode').ariaPressed") != "true":
            self.enter_on("#grant-mode")
        for slot, channel in lanes:
            self.reach("#grid")
            browser.keys(HOME)
            for _ in range(2 * (slot - 1) + "AB".index(channel)):
                browser.keys(RIGHT)
            self.see("the lane is reached", True, f"slot {slot} {channel}: granted to nobody" in browser.text("#cell"))
            browser.keys(ENTER)
            self.says(f"Slot {slot} {channel} is granted to {to}")

    def test_by_keys(self):
        browser = self.open()
        browser.keys(*BOSS, ENTER)
        self.is_in(frames=False)
        self.written("Openavariant", "saloon is open.", name="saloon")
        for supplier, node in ("brakes", "brake_unit"), ("steering", "rack_unit"):
            self.written("Addanode", f"{node} is a node of {supplier}", supplier=supplier, node=node)
        self.to_tab(RIGHT)
        self.granted("brake_unit", (1, "A"), (1, "B"), (2, "A"))
        self.granted("rack_unit", (3, "A"))
        browser.keys(ESCAPE)
        self.suppliers_plan()
        self.enter_on("#reload")
        self.says("read again")
        self.is_planned()
        self.to_tab(LEFT)
        self.enter_on("#release")
        browser.wait("the dialog", "return document.getElementById('dialog').open")
        self.write("#dialog input", "saloon")
        self.enter_on("#dialog .main")
        self.says("saloon is released.")
        self.written("Openavariant", "sport is open.", name="sport", **{"from": "with"})
        self.written("Addasupplier", "lights has joined", supplier="lights", key=LIGHTS)
        self.written("Addanode", "lamp_unit is a node of lights", supplier="lights", node="lamp_unit")
        self.to_tab(RIGHT)
        self.granted("lamp_unit", (4, "A"))
        self.has_joined()
