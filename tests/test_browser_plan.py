"""The plan in the planners' page, in a browser: what is shown is what the reports say, and frames are placed by mouse, finger and keys."""
import re

from tests.drivers.browser import CONTROL, DOWN, ENTER, ESCAPE, HOME, PAGE_UP, RIGHT
from tests.drivers.planner import CELL, PlannerCase
from tests.models.demo_plan import BOSS, CAMERA, CLUSTER, COLOURS, REQUESTS, SUPPLIERS

# Of each place of the window: the colour that most of the points around it have.
PAINTED = """
    const canvas = document.getElementById('grid'), box = canvas.getBoundingClientRect(), scale = canvas.width / box.width;
    const data = canvas.getContext('2d').getImageData(0, 0, canvas.width, canvas.height).data;
    return arguments[0].map(([x, y]) => {
        const count = new Map();
        for (let right = -3; right <= 3; right++) for (let down = -2; down <= 2; down++) {
            const at = (Math.round((y - box.top) * scale + down) * canvas.width + Math.round((x - box.left) * scale + right)) * 4;
            const colour = '#' + [0, 1, 2].map(part => data[at + part].toString(16).padStart(2, '0')).join('').toUpperCase();
            count.set(colour, (count.get(colour) ?? 0) + 1);
        }
        return [...count].sort((one, other) => other[1] - one[1])[0][0];
    });"""
# What the page tells of the cell that is chosen by keys, each time it changes.
TOLD = """
    window.told = [];
    new MutationObserver(() => window.told.push(document.getElementById('cell').textContent))
        .observe(document.getElementById('cell'), {childList: true, characterData: true, subtree: true});"""

# The place of a free bit of the payload that is shown.
BIT = """const bit = [...document.querySelectorAll('.bits td')].find(cell => cell.textContent === arguments[0]);
    bit.scrollIntoView({block: 'center'});
    const box = bit.getBoundingClientRect(); return [box.x + 5, box.y + 5];"""


def is_shade(got, colour):
    """Whether it is the colour, or the colour with up to two fifths of white in it."""
    got, pure = ([int(text[at : at + 2], 16) for at in (1, 3, 5)] for text in (got, colour))
    share = max((one - other) / (255 - other) for one, other in zip(got, pure) if other < 255) if pure != [255] * 3 else 0
    return 0 <= share <= 0.4 and all(abs(one - (other + (255 - other) * share)) <= 3 for one, other in zip(got, pure))


class Shown(PlannerCase):
    """What the page shows of a plan is what the reports tell the same reader: cells, loads, gaps, bits and figures."""

    def setUp(self):
        super().setUp()
        self.plan(CLUSTER, REQUESTS)

    def test_cells_under_the_mouse(self):
        for key in CAMERA, BOSS:
            browser = self.enter(key)
            browser.press("Fit")
            told = self.cells()
            wanted = self.scheduled(key, "my29")
            self.see("there are cells", True, len(wanted) > 200)
            self.see(f"the cells that {key} sees", (set(), set()), (wanted - self.sent(told), self.sent(told) - wanted))

    def test_colours(self):
        """A cell has its supplier's colour, or a lighter shade of it, where something is sent, and is mostly white where nothing is."""
        browser = self.enter(BOSS)
        browser.press("Fit")
        owners = {line[0:7]: line.split()[-1] for line in self.api.get(BOSS, "variants/my29/grants").splitlines()}
        sent = {it[:3] for it in self.scheduled(BOSS, "my29")}
        told = [(CELL.fullmatch(it), place) for it, place in self.cells().items()]
        told = [((int(it[1]), int(it[2]), it[3]), place) for it, place in told if it and "granted to nobody" not in it[4]]
        browser.pointer((5, 5))
        painted = browser.run(PAINTED, [place for _, place in told])
        colour = lambda cell: COLOURS[SUPPLIERS.index(owners[f"{cell[1]:04} {cell[2]} "])] if cell in sent else "#FFFFFF"
        wrong = [(cell, got) for (cell, _), got in zip(told, painted) if not is_shade(got, colour(cell))]
        # 22 lanes are granted, and each is looked at in 64 cycles.
        self.see("cells that were looked at", 22 * 64, len(told))
        self.see("cells of another colour", [], wrong[:5])

    def test_frames_of_a_supplier(self):
        """A supplier's plan is all its own, so each frame has a colour, in the order of the list; in tall rows each has its name."""
        browser = self.enter(CAMERA)
        browser.press("Fit")
        frames = browser.run("return [...document.querySelectorAll('#frames b')].map(it => it.textContent)")
        cells = {"lane_left": (0, 11, "A"), "lane_right": (1, 11, "A"), "object_1": (0, 11, "B"), "object_4": (3, 11, "B")}
        places = [self.place_of(*cell, words=frame) for frame, cell in cells.items()]
        painted = browser.run(PAINTED, places)
        wrong = [(frame, got) for frame, got in zip(cells, painted) if not is_shade(got, COLOURS[frames.index(frame)])]
        self.see("frames of another colour", [], wrong)
        tall = "return document.getElementById('scroller').scrollHeight >= 64 * 16"
        self.see("all cycles are in the window", False, browser.run(tall))
        browser.click("#tall")
        self.see("rows are tall", True, browser.run(tall))

    def test_cells_by_keys(self):
        browser = self.enter(CAMERA)
        browser.click("#fit")
        browser.run(TOLD)
        browser.run("document.getElementById('grid').focus()")
        browser.keys(HOME, *[PAGE_UP] * 8)
        lanes = 0
        while True:
            browser.keys(*[DOWN] * 63)
            lanes += 1
            before = browser.text("#cell")
            browser.keys(*[PAGE_UP] * 8)
            browser.keys(RIGHT)
            if browser.text("#cell").partition(", ")[2] == before.partition(", ")[2] or lanes > 60:
                break
        wanted = self.scheduled(CAMERA, "my29")
        self.see("the cells that the keys reach", wanted, self.sent(browser.run("return window.told")))

    def test_lanes_and_gaps(self):
        for key, supplier in (CAMERA, []), (BOSS, ["supplier"]):
            browser = self.enter(key)
            self.view("lanes")
            loads = [line.split() for line in self.api.get(key, "variants/my29/load").splitlines()]
            loads = [line for line in loads if line[4] != "-"]
            wanted = [[f"{int(slot)} {channel}", *holder, f"{int(used)} of {int(cycles)}"] for slot, channel, used, cycles, *holder in loads]
            self.see(f"the lanes of {key}", wanted, [row[: 3 + len(supplier)] for row in self.table("#view-lanes")])
            self.view("frames")
            gaps = (line.split() for line in self.api.get(key, "variants/my29/gaps").splitlines())
            rows = ([row[0], *row[2 : 2 + len(supplier)], row[3 + len(supplier)].replace(",", "")] for row in self.table("#view-frames"))
            self.see(f"the gaps of {key}", sorted([frame, *owner, gap] for _, gap, frame, *owner in gaps), sorted(rows))

    def test_figures(self):
        self.enter(CAMERA)
        told = self.seen("#figures")
        for words in "Channels AB", "64 cycles", "5,000 macroticks", "28 static slots of 80", "2,600", "Payload 16 bytes", "opened from my28":
            self.see(f"the figures {told} have {words}", True, words in told)

    def test_milliseconds(self):
        """Times are told in macroticks, or in milliseconds where the user says how long a macrotick is."""
        browser = self.enter(CAMERA)
        self.frame("signs")
        # Every fourth cycle on one channel or the other, and a cycle has 5,000 macroticks.
        self.see("in macroticks", True, "20,000 macroticks" in self.seen("#detail"))
        browser.choose("#times", "milliseconds")
        browser.type("#macrotick", "1.5")
        self.see("in milliseconds", True, "greatest gap30 ms" in self.seen("#detail"))
        self.see("the cycle too", True, "64 cycles of 7.5 ms" in self.seen("#figures"))
        browser.type("#macrotick", "1,25")
        self.see("a decimal comma is one", True, "64 cycles of 6.25 ms" in self.seen("#figures"))

    def test_released(self):
        """A variant that is released is shown, and offers nothing that would change it."""
        browser = self.enter(CAMERA)
        browser.choose("#variant", "my28")
        browser.wait("my28", "return document.getElementById('variant-state').textContent === 'released'")
        self.rests()
        self.frame("camera_status")
        words = browser.run("return [...document.querySelectorAll('button')].filter(it => it.checkVisibility()).map(it => it.textContent.trim())")
        changing = [it for it in words if re.match("Unplace|Drop|Add|Show where it fits|New frame|Import|Replace", it)]
        self.see("what is offered and would change it", [], changing)


class Placing(PlannerCase):
    """Frames are placed where they fit, by mouse, finger and keys; the last step is undone; a gap is told before as it is after."""

    def setUp(self):
        super().setUp()
        self.plan(CLUSTER, REQUESTS)

    def placements(self, frame):
        lines = self.api.get(CAMERA, "variants/my29/frames").splitlines()
        at = lines.index(f"FRAME {frame} front_camera")
        found = []
        for line in lines[at + 1 :]:
            if line.startswith("FRAME"):
                break
            found.append(line)
        return found

    def test_by_the_mouse(self):
        browser = self.enter(CAMERA)
        self.frame("night_view")
        # Slot 11 is full; slot 12 A has base 0 of 8; 17 A has base 0 of 2.
        self.see("places of repetition 8 on A", True, "fits in 11 places" in self.room(8, "A"))
        place = self.place_of(6, 12, "A", "place night_view with base 6 of repetition 8")
        browser.hover(place)
        told = browser.wait("what would be", "const it = document.getElementById('tip'); return it.checkVisibility() && it.textContent")
        # Base 6 of 8 on one lane: every 8 cycles of 5,000 macroticks.
        self.see("the gap before", True, "would be 40,000 macroticks; it is never" in told)
        browser.click_at(place)
        said = self.says("night_view is placed in slot 12 A")
        self.see("the gap after", True, "is 40,000 macroticks" in said)
        self.see("the register has it", ["AT 0012 A 06 08"], self.placements("night_view"))
        self.see("the room that is left", True, "fits in 10 places" in self.seen("#mode"))
        browser.press("Undo", "#message")
        self.says("Taken back: night_view placed in slot 12 A 6/8.")
        self.see("the register has it no more", [], self.placements("night_view"))
        browser.press("Redo", "#message")
        self.says("Done again: night_view placed in slot 12 A 6/8.")
        self.see("the register has it again", ["AT 0012 A 06 08"], self.placements("night_view"))

    def test_where_it_does_not_fit(self):
        browser = self.enter(CAMERA)
        self.frame("night_view")
        self.room(8, "A")
        place = self.place_of(5, 12, "B", "granted to front_camera; nothing is sent")
        browser.click_at(place)
        self.says("does not fit there")
        place = self.place_of(3, 11, "A", "lane_right")
        browser.click_at(place)
        self.rests()
        self.see("nothing was placed", [], self.placements("night_view"))

    def test_by_keys(self):
        browser = self.enter(CAMERA)
        self.frame("night_view")
        self.room(16, "AB")
        browser.run("document.getElementById('grid').focus()")
        found = [browser.text("#cell")]
        for _ in range(2):
            browser.keys("n")
            found.append(browser.text("#cell"))
        self.see("places", 3, len(set(found)))
        place = re.compile(r"Cycle \d+, slot (\d+) A: place night_view with base (\d+) of repetition 16, on AB")
        self.see("the keys lead to places", [], [it for it in found if not place.match(it)])
        told = place.match(found[-1])
        browser.keys(ENTER)
        self.says("night_view is placed in slot")
        self.see("the register has it", [f"AT {int(told[1]):04} AB {int(told[2]):02} 16"], self.placements("night_view"))
        browser.keys(ESCAPE)
        self.see("placing has ended", False, browser.run("return document.getElementById('mode').checkVisibility()"))
        browser.keys("z", holding=CONTROL)
        self.says("Taken back: night_view placed in slot")
        self.see("the register has it no more", [], self.placements("night_view"))

    def test_a_new_frame(self):
        """What is no name is asked for again, as it was typed; a frame that was added can be undone."""
        browser = self.enter(CAMERA)
        browser.press("New frame")
        for typed in "", "my frame":
            browser.type("#frame-name", typed)
            browser.press("Add it", "#dialog")
            browser.wait("why not", "return document.querySelector('#dialog .fault')?.textContent.includes(arguments[0])", "is no name")
            self.see("what was typed is there still", typed, browser.run("return document.getElementById('frame-name').value"))
        browser.type("#frame-name", "glare")
        browser.keys(ENTER)
        self.says("glare is added. It is not placed yet.")
        self.see("the register has it", [], self.placements("glare"))
        browser.press("Undo", "#message")
        self.says("Taken back: glare added.")
        self.see("it is gone", False, "glare" in self.api.get(CAMERA, "variants/my29/frames"))

    def test_steps_to_and_fro(self):
        """Three placements are taken back one after another, and done again, by keys and by the list of steps."""
        browser = self.enter(CAMERA)
        self.frame("night_view")
        self.room(8, "A")
        rows = ["AT 0012 A 01 08", "AT 0012 A 02 08", "AT 0012 A 03 08"]
        for base in 1, 2, 3:
            browser.click_at(self.place_of(base, 12, "A", "place night_view"))
            self.says(f"night_view is placed in slot 12 A {base}/8")
        self.see("the register has them", rows, self.placements("night_view"))
        browser.keys(ESCAPE)
        for left in 2, 1, 0:
            browser.keys("z", holding=CONTROL)
            self.says(f"Taken back: night_view placed in slot 12 A {left + 1}/8")
            self.see("the register has one less", rows[:left], self.placements("night_view"))
        self.see("there is no more", True, browser.run("return document.getElementById('undo').disabled"))
        browser.keys("y", holding=CONTROL)
        self.says("Done again: night_view placed in slot 12 A 1/8")
        browser.keys("Z", holding=CONTROL)
        self.says("Done again: night_view placed in slot 12 A 2/8")
        self.see("the register has two again", rows[:2], self.placements("night_view"))
        browser.click("#history")
        self.see("the steps", [["night_view placed in slot 12 A 3/8", "taken back"], ["night_view placed in slot 12 A 2/8", "done"],
                               ["night_view placed in slot 12 A 1/8", "done"]], [row[:2] for row in self.table("#dialog")])
        browser.press("Take back from here on", "#dialog tbody tr:last-child")
        self.says("Taken back: night_view placed in slot 12 A 1/8")
        self.see("all are taken back", [], self.placements("night_view"))
        browser.click("#history")
        browser.press("Do again up to here", "#dialog tbody tr:first-child")
        self.says("Done again: night_view placed in slot 12 A 3/8")
        self.see("all are done again", rows, self.placements("night_view"))

    def test_a_frame_comes_back(self):
        """A frame that was dropped comes back with its placements and signals; one that a colleague changed meanwhile stays."""
        browser = self.enter(CAMERA)
        before = self.api.get(CAMERA, "variants/my29/rows")
        self.frame("signs")
        browser.press("Drop the frame", "#detail")
        browser.press("Drop it", "#dialog")
        self.says("signs is dropped.")
        self.see("it is gone", False, " signs" in self.api.get(CAMERA, "variants/my29/rows"))
        browser.click("#undo")
        self.says("Taken back: signs dropped.")
        self.see("all is as before", before, self.api.get(CAMERA, "variants/my29/rows"))
        where = {"variant": "my29", "frame": "signs", "slot": 12, "channels": "B", "base": 4, "repetition": 8}
        self.see("a colleague takes a placement back", {"ok": "done"}, self.api.command(CAMERA, do="unplace", **where))
        browser.click("#redo")
        self.says("cannot be done again now, and stays in the list. Somebody else changed what it needs: signs.")
        self.see("it is there still", True, "FRAME signs" in self.api.get(CAMERA, "variants/my29/rows"))

    def test_a_placement_is_taken_back(self):
        browser = self.enter(CAMERA)
        place = self.place_of(8, 12, "A", "signs, sent by")
        browser.click_at(place)
        browser.wait("the frame", "return document.querySelector('#detail h2').textContent.includes('signs')")
        # Its two placements are 12 A 0/8 and 12 B 4/8.
        browser.press("Unplace", "#detail tbody tr:first-child")
        self.says("signs is no longer sent in slot 12 A")
        self.see("the other one stays", ["AT 0012 B 04 08"], self.placements("signs"))
        browser.press("Undo", "#message")
        self.says("Taken back: signs taken out of slot 12 A 0/8.")
        self.see("both are there", ["AT 0012 A 00 08", "AT 0012 B 04 08"], self.placements("signs"))

    def test_signals(self):
        browser = self.enter(CAMERA)
        self.frame("night_view")
        # brightness has bits 0 to 7; a click on a free bit is the start of a new signal.
        browser.click_at(browser.run(BIT, "15"))
        self.see("the start", "15", browser.run("return document.getElementById('signal-start').value"))
        browser.type("#signal-name", "contrast")
        browser.type("#signal-length", "12")
        browser.choose("#signal-order", "big")
        # Big, from bit 15: bits 15 to 8 of byte 1, then 23 to 20 of byte 2.
        self.see("its bits are shown", 12, browser.run("return document.querySelectorAll('.bits td.wanted').length"))
        browser.press("Add it", "#detail")
        self.says("contrast is added")
        layout = "0000 08 little brightness\n0015 12 big contrast\n"
        self.see("the register has it", layout, self.api.get(CAMERA, "variants/my29/frames/night_view/layout"))
        browser.type("#signal-name", "more")
        browser.type("#signal-start", "4")
        browser.type("#signal-length", "8")
        self.see("bits that clash", True, browser.run("return document.querySelectorAll('.bits td.clash').length") > 0)
        browser.press("Add it", "#detail")
        self.see("why not", True, "Bit 4 is used by the signal brightness" in self.says("BitTaken (27)"))
        browser.run("document.getElementById('signal-start').value = ''")
        browser.press("Add it", "#detail")
        self.says("Start bit and bits are whole numbers.")
        self.see("the register is as it was", layout, self.api.get(CAMERA, "variants/my29/frames/night_view/layout"))


class PlacingByTouch(PlannerCase):
    """A finger does not hover: its first touch shows where a frame would go, its second places it."""

    window = {"width": 1024, "height": 768, "touch": True}

    def test_touch(self):
        self.plan(CLUSTER, REQUESTS)
        browser = self.enter(CAMERA)
        self.frame("night_view")
        self.room(8, "A")
        frames = self.api.get(CAMERA, "variants/my29/frames")
        place = self.place_of(6, 12, "A", "place night_view with base 6 of repetition 8")
        browser.touch_at(place)
        browser.wait("what would be", "return document.getElementById('cell').textContent.includes('Touch again')")
        self.see("the first touch places nothing", frames, self.api.get(CAMERA, "variants/my29/frames"))
        browser.touch_at(place)
        self.says("night_view is placed in slot 12 A")
        self.see("the second does", True, "FRAME night_view front_camera\nAT 0012 A 06 08\n" in self.api.get(CAMERA, "variants/my29/frames"))


class OthersAtWork(PlannerCase):
    """What somebody else did meanwhile is refused in words, with number and name, and the page shows what is there now."""

    def setUp(self):
        super().setUp()
        self.plan(CLUSTER, REQUESTS)

    def done(self, key, **request):
        self.see(f"{request} of somebody else", {"ok": "done"}, self.api.command(key, variant="my29", **request))

    def listed(self, frame):
        return self.browser.run("return [...document.querySelectorAll('#frames b')].some(it => it.textContent === arguments[0])", frame)

    def test_a_cell_is_taken(self):
        browser = self.enter(CAMERA)
        self.frame("night_view")
        self.room(8, "A")
        place = self.place_of(6, 12, "A", "place night_view")
        self.done(CAMERA, do="add_frame", frame="quicker", node="front_camera")
        self.done(CAMERA, do="place", frame="quicker", slot=12, channels="A", base=14, repetition=16)
        browser.click_at(place)
        self.says("CellTaken (25)")
        told = self.says("Somebody else changed 1 frame (quicker) meanwhile")
        self.see("which cell, and whose", True, "In cycle 14 on channel A the frame quicker is sent already." in told)
        self.see("the page has read again", True, self.listed("quicker"))

    def test_loaded_again(self):
        """Reload tells what somebody else changed, and that nothing was where nothing was."""
        browser = self.enter(CAMERA)
        browser.click("#reload")
        self.says("No frame, no signal, no lane and no variant has changed.")
        self.done(CAMERA, do="drop_frame", frame="signs")
        browser.click("#reload")
        self.says("Somebody else changed 1 frame (signs) meanwhile")
        self.see("the page shows it no more", False, self.listed("signs"))
        self.done(BOSS, do="release")
        browser.click("#reload")
        self.says("Somebody else changed 1 variant (my29 is released) meanwhile")
        self.see("the page shows that it is", "released", self.seen("#variant-state"))

    def test_the_frame_is_gone(self):
        browser = self.enter(CAMERA)
        self.frame("night_view")
        self.done(CAMERA, do="drop_frame", frame="night_view")
        browser.type("#signal-name", "contrast")
        browser.type("#signal-start", "20")
        browser.press("Add it", "#detail")
        self.says("NoFrame (16)")
        self.see("the page has read again", False, self.listed("night_view"))

    def test_a_signal(self):
        """A colleague's signal of the same frame is told beside one's own."""
        browser = self.enter(CAMERA)
        self.frame("night_view")
        self.done(CAMERA, do="add_signal", frame="night_view", signal="quicker", start=64, length=8, order="little")
        browser.type("#signal-name", "contrast")
        browser.type("#signal-start", "20")
        browser.press("Add it", "#detail")
        told = self.says("contrast is added to night_view.")
        self.see(f"{told!r} has the colleague's", True, "Somebody else changed 1 signal (quicker of night_view) meanwhile" in told)
        self.see("the page shows it", True, "quicker" in self.seen("#detail"))
        self.done(CAMERA, do="drop_signal", frame="night_view", signal="quicker")
        browser.click("#reload")
        self.says("Somebody else changed 1 signal (quicker of night_view) meanwhile")
        browser.click("#reload")
        self.says("No frame, no signal, no lane and no variant has changed.")

    def test_the_grant_is_gone(self):
        browser = self.enter(CAMERA)
        self.frame("night_view")
        self.room(2, "B")
        place = self.place_of(1, 17, "B", "place night_view")
        self.done(CAMERA, do="unplace", frame="walkers", slot=17, channels="AB", base=0, repetition=2)
        self.done(BOSS, do="revoke", slot=17, channel="B", supplier="camtech")
        browser.click_at(place)
        self.says("NotGranted (21)")
        self.view("lanes")
        self.see("the page has read again", False, "17 B" in [row[0] for row in self.table("#view-lanes")])

    def test_the_variant_is_released(self):
        browser = self.enter(CAMERA)
        self.frame("night_view")
        self.done(BOSS, do="release")
        browser.type("#signal-name", "contrast")
        browser.type("#signal-start", "20")
        browser.press("Add it", "#detail")
        self.says("Released (11)")
        self.see("the page has read again", "released", self.seen("#variant-state"))
