"""The integrator in the planners' page, in a browser: lanes that are granted and revoked by clicks, by drawing over many, by keys and by a pasted
table; variants, suppliers and keys."""
from tests.drivers.browser import DOWN, ENTER, RIGHT, SHIFT
from tests.drivers.planner import PlannerCase
from tests.models.demo_plan import BOSS, CAMERA, CLUSTER, REQUESTS

GRANTS = "variants/my29/grants"
CAMERAS = "front_camera of camtech"


class GrantCase(PlannerCase):
    """The integrator before my29, in which the slots 4, 7, 10, 14 and 18 to 28 are granted to nobody, and slots 3, 9 and 16 on A alone."""

    def setUp(self):
        super().setUp()
        self.plan(CLUSTER, REQUESTS)
        self.enter(BOSS)

    def grants(self):
        """Who holds each lane, as the register tells: slot, channel, node and supplier."""
        lines = (line.split() for line in self.api.get(BOSS, GRANTS).splitlines())
        return {(int(slot), channel): f"{node} of {supplier}" for slot, channel, node, supplier in lines}

    def held(self, *lanes):
        """Who holds these lanes."""
        found = self.grants()
        return [found.get(lane) for lane in lanes]

    def granting(self, to):
        self.browser.choose("#grant-to", to)
        self.browser.click("#grant-mode")
        self.browser.click("#fit")

    def lane(self, slot, channel, cycle=20):
        """The place of a cell of the lane."""
        return self.place_of(cycle, slot, channel)

    def taken(self, slot, channel):
        """Somebody else grants the lane to the dampers."""
        request = {"variant": "my29", "slot": slot, "channel": channel, "supplier": "suspenco", "node": "damper_control"}
        self.see("somebody else grants it", {"ok": "done"}, self.api.command(BOSS, do="grant", **request))


class Clicks(GrantCase):
    """Lanes are granted and revoked by clicks, by drawing over them, and by keys; the last step is undone."""

    def test_one(self):
        self.granting(CAMERAS)
        place = self.lane(21, "B")
        self.browser.click_at(place)
        self.says("Slot 21 B is granted to front_camera of camtech.")
        self.see("the register has it", [CAMERAS], self.held((21, "B")))
        self.browser.click_at(place)
        self.says("Slot 21 B is no longer granted")
        self.see("the register has it no more", [None], self.held((21, "B")))
        self.browser.press("Undo", "#message")
        self.says("Taken back: Slot 21 B is no longer granted to front_camera of camtech.")
        self.see("the register has it again", [CAMERAS], self.held((21, "B")))

    def test_of_another(self):
        """A lane of another node is not taken from it by the click alone."""
        before = self.grants()
        self.granting(CAMERAS)
        self.browser.click_at(self.lane(9, "A"))
        self.says("Slot 9 A is held by steering of steertech.")
        self.see("nothing has changed", before, self.grants())
        self.browser.press("Revoke it from steering", "#message")
        self.says("InUse (22). A placement of the supplier uses the lane.")
        self.see("it is used, so nothing has changed", before, self.grants())

    def test_drawn_over(self):
        six = [(slot, channel) for slot in (18, 19, 20) for channel in "AB"]
        before = self.grants()
        self.granting(CAMERAS)
        self.browser.drag(self.lane(18, "A"), self.lane(19, "A"), self.lane(20, "B", 30))
        self.see("what is chosen", True, "6 free, 0 of front_camera, 0 of others" in self.seen("#mode"))
        self.see("nothing is sent before it is asked", before, self.grants())
        self.browser.press("Grant 6 lanes", "#mode")
        self.says("All 6 changes are carried out.")
        self.see("the register has them", [CAMERAS] * 6, self.held(*six))
        self.browser.press("Undo", "#message")
        self.says("Taken back: 6 changes of grants, from 18 A on.")
        self.see("all is as before", before, self.grants())
        self.browser.press("Redo", "#message")
        self.says("Done again: 6 changes of grants")
        self.see("the register has them again", [CAMERAS] * 6, self.held(*six))

    def test_drawn_over_others(self):
        """Lanes that others hold stay with them."""
        before = self.grants()
        self.granting(CAMERAS)
        self.browser.drag(self.lane(12, "A"), self.lane(14, "A"))
        # 12 A is the camera's, 13 A and 14 A are nobody's.
        self.see("what is chosen", True, "2 free, 1 of front_camera, 0 of others" in self.seen("#mode"))
        self.browser.press("Choose others", "#mode")
        self.browser.drag(self.lane(8, "A"), self.lane(9, "B"))
        self.see("what is chosen then", True, "1 free, 0 of front_camera, 3 of others" in self.seen("#mode"))
        self.browser.press("Grant 1 lane", "#mode")
        self.says("Slot 9 B is granted")
        self.see("the one lane is granted, and no other", {**before, (9, "B"): CAMERAS}, self.grants())

    def test_refused_midway(self):
        """Where one of several is refused the page says how far it came."""
        self.granting(CAMERAS)
        self.browser.drag(self.lane(18, "A"), self.lane(20, "A"))
        self.taken(19, "A")
        self.browser.press("Grant 3 lanes", "#mode")
        told = self.says("1 of 3 changes were carried out. To grant 19 A was refused; 1 behind it were not sent.")
        self.see("why not", True, "Taken (24)" in told)
        self.see("the register", [CAMERAS, "damper_control of suspenco", None], self.held((18, "A"), (19, "A"), (20, "A")))

    def test_by_keys(self):
        browser = self.browser
        browser.choose("#grant-to", CAMERAS)
        self.enter_on("#grant-mode")
        browser.press("Fit")
        self.reach("#grid")
        for _ in range(60):
            if "slot 18 A: granted to nobody" in browser.text("#cell"):
                break
            browser.keys(RIGHT)
        browser.keys(DOWN)
        browser.keys(ENTER)
        self.says("Slot 18 A is granted to front_camera of camtech.")
        self.reach("#grid")
        browser.keys(RIGHT)
        browser.keys(RIGHT, RIGHT, holding=SHIFT)
        # From 18 B two lanes to the right: on B, slots 18 and 19.
        self.see("what is chosen", True, "2 free" in self.seen("#mode"))
        self.enter_on("#mode button.main")
        self.says("All 2 changes are carried out.")
        self.see("the register has them", [CAMERAS, CAMERAS, None, CAMERAS], self.held((18, "A"), (18, "B"), (19, "A"), (19, "B")))


class Pasted(GrantCase):
    """A table of grants is pasted from a spreadsheet: what would change is shown first, and then sent one by one."""

    # As a spreadsheet copies, with tabs: 18 to the dampers on both channels; 17 B to nobody, which walkers uses; 16 A as it is; 19 A to the camera.
    TABLE = (
        "slot\tchannel\tsupplier\tnode\r\n18\tAB\tsuspenco\tdamper_control\r\n17\tB\t\t\r\n16\tA\tsuspenco\tdamper_control\r\n"
        "19\tA\tcamtech\tfront_camera\r\n"
    )
    DAMPERS = "damper_control of suspenco"

    def setUp(self):
        super().setUp()
        self.view("manage")

    def look(self, table):
        """The table is pasted in place of what was there."""
        self.browser.click("#grants-text")
        self.browser.run("document.getElementById('grants-text').select()")
        self.browser.devtools("Input.insertText", text=table)
        self.browser.click("#grants-look")
        self.rests()

    def changes(self):
        return [row[:2] for row in self.table("#grants-card")]

    def test_table(self):
        before = self.grants()
        self.look(self.TABLE)
        wanted = [["17 B", "revoke"], ["18 A", "grant"], ["18 B", "grant"], ["19 A", "grant"]]
        self.see("what would change", wanted, self.changes())
        self.see("nothing is sent before it is asked", before, self.grants())
        self.browser.click("#grants-send")
        told = self.says("0 of 4 changes were carried out. To revoke 17 B was refused")
        self.see("why not", True, "InUse (22)" in told)
        self.browser.press("Close", "#message")
        self.browser.press("Leave 17 B out", "#grants-card")
        self.says("All 3 changes are carried out.")
        self.see("the register", {**before, (18, "A"): self.DAMPERS, (18, "B"): self.DAMPERS, (19, "A"): CAMERAS}, self.grants())
        self.look(self.TABLE.replace("17\tB\t\t\r\n", ""))
        self.see("the same again", True, "Nothing would change." in self.seen("#grants-card"))

    def test_whole(self):
        """With a tick the lanes that the table does not name are revoked too."""
        rows = [f"{slot};{channel};{holder.split(' of ')[1]};{holder.split(' of ')[0]}" for (slot, channel), holder in self.grants().items()]
        self.taken(25, "A")
        self.browser.click("#grants-whole")
        self.look("slot;channel;supplier;node\r\n" + "\r\n".join(rows) + "\r\n")
        self.see("what would change", [["25 A", "revoke"]], self.changes())
        self.browser.click("#grants-send")
        self.says("Slot 25 A is no longer granted")
        self.see("the register", [None], self.held((25, "A")))

    def test_faults(self):
        """A table with a fault sends nothing, and each fault is told with its row."""
        before = self.grants()
        rows = "29;A;camtech;front_camera", "18;C;camtech;front_camera", "18;A;camtech;steering", "20;A;camtech;front_camera", "20;AB;;"
        self.look("\r\n".join(["slot;channel;supplier;node", *rows]))
        told = self.seen("#grants-card")
        for words in "2: the cluster has no slot 29.", "3: the cluster has no channel C.", "4: camtech has no node steering.", "6: slot 20 A stands":
            self.see(f"the page says of row {words}", True, f"Row {words}" in told)
        self.see("nothing can be sent", 0, self.browser.run("return document.querySelectorAll('#grants-send').length"))
        self.look("20;A;camtech;front_camera\r\n")
        self.see("a table without its heads", True, "has to name the columns" in self.seen("#grants-card"))
        self.see("nothing has changed", before, self.grants())


class ClusterView(GrantCase):
    """Suppliers join, nodes are added and keys are changed; what is refused is said in words."""

    def form(self, title, **fields):
        for name, value in fields.items():
            self.browser.type(f"#form-{title}-{name}", value)
        self.browser.click(f"form:has(#form-{title}-{name}) button[type=submit]")

    def test_refusals(self):
        self.view("manage")
        self.browser.choose("#form-Addanode-supplier", "camtech")
        for node, words in ("lamp unit", "BadName (4)"), ("front_camera", "Exists (19)"):
            self.form("Addanode", node=node)
            self.says(words)
        for supplier, key, words in ("lights", "short", "BadKey (30)"), ("lights", CAMERA, "KeyTaken (31)"), ("camtech", "lights0001", "Exists (19)"):
            self.form("Addasupplier", supplier=supplier, key=key)
            self.says(words)
        self.form("Openavariant", name="my28")
        self.says("Exists (19)")
        self.browser.choose("#form-Openavariant-from", "with the rows of my28")
        self.browser.click("#flat")
        self.form("Openavariant", name="my29")
        self.says("Exists (19)")
        self.see("no supplier has joined", False, "lights" in self.api.get(BOSS, "cluster"))

    def test_flat(self):
        """A variant is opened flat by a tick, which is there where it begins with the rows of another one."""
        self.view("manage")
        disabled = "return document.getElementById('flat').disabled"
        self.see("a tick for an empty variant", True, self.browser.run(disabled))
        self.browser.choose("#form-Openavariant-from", "with the rows of my28")
        self.see("a tick for one with rows", False, self.browser.run(disabled))
        self.browser.click("#flat")
        self.form("Openavariant", name="flat30")
        self.says("flat30 is open.")
        self.see("the figures", True, self.seen("#figures").endswith("flat30: depth 1, without a parent."))
        self.see("the variants", "flat30 - 1 open\nmy28 - 1 released\nmy29 my28 2 open\n", self.api.get(BOSS, "variants"))
        self.see("what differs", "", self.api.get(BOSS, "variants/flat30/since/my28"))
        self.see("the tick is gone", (True, False), (self.browser.run(disabled), self.browser.run("return document.getElementById('flat').checked")))
        self.browser.choose("#form-Openavariant-from", "with the rows of my28")
        self.form("Openavariant", name="my30")
        self.says("my30 is open.")
        self.see("one that is not flat", True, "my30 my28 2 open\n" in self.api.get(BOSS, "variants"))

    def test_keys(self):
        """A key that is made up has 24 letters and digits, is the supplier's from then on, and the page asks before it changes one."""
        browser = self.browser
        self.view("manage")
        browser.choose("#form-Changeasupplierskey-supplier", "camtech")
        browser.press("Make up a key", "form:has(#form-Changeasupplierskey-key)")
        key = browser.run("return document.getElementById('form-Changeasupplierskey-key').value")
        self.see("its form", (24, True), (len(key), key.isalnum() and key.isascii()))
        browser.click("form:has(#form-Changeasupplierskey-key) button[type=submit]")
        browser.press("Cancel", "#dialog")
        self.see("the old key is good still", True, "supplier camtech" in self.api.get(CAMERA, "cluster"))
        browser.click("form:has(#form-Changeasupplierskey-key) button[type=submit]")
        browser.press("Change it", "#dialog")
        self.says(f"camtech has the key {key}. It is not shown again.")
        # It is not lost where another view is looked at.
        self.view("plan")
        self.says("It is not shown again.")
        self.see("the new key is the supplier's", True, "supplier camtech" in self.api.get(key, "cluster"))
        self.see("the old one is nobody's", '{"no":2,"refused":"UnknownKey"}', self.api.get(CAMERA, "cluster"))
