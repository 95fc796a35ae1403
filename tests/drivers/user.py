"""What a user of the planners' page does in a browser, and what the page shows then. The tests of the page use it, and tools/look.py."""
from .browser import ENTER, TAB

# Points at places of the plan as the mouse does, and gives what the page tells of each.
POINTING = r"""
    const canvas = document.getElementById('grid'), tip = document.getElementById('tip'), box = canvas.getBoundingClientRect();
    const told = (x, y) => {
        canvas.dispatchEvent(new PointerEvent('pointermove', {clientX: x, clientY: y, pointerType: 'mouse', bubbles: true}));
        return tip.hidden ? '' : tip.textContent;
    };
    const left = () => canvas.dispatchEvent(new PointerEvent('pointerleave', {pointerType: 'mouse'}));"""
# The middle of each lane and of each cycle in the window: along one line across, and along one down.
MIDDLES = r"""
    const middles = (begin, end, at, form) => {
        const found = new Map();
        for (let place = begin + 1; place < end; place += 2) {
            const name = form.exec(at(place))?.slice(1).join(' ');
            if (name !== undefined) found.set(name, [found.get(name)?.[0] ?? place, place]);
        }
        return Object.fromEntries([...found].map(([name, [first, last]]) => [name, (first + last) / 2]));
    };
    const bottom = Math.min(box.bottom, innerHeight), y = box.top + (bottom - box.top) * 0.6;
    const lanes = middles(box.left, box.right, x => told(x, y), /slot (\d+) ([AB]):/);
    const [x] = Object.values(lanes), cycles = x === undefined ? {} : middles(box.top, bottom, y => told(x, y), /^Cycle (\d+),/);
    left();
    return [lanes, cycles];"""
TOLD_AT = "const found = arguments[0].map(([x, y]) => told(x, y)); left(); return found;"

ROWS = """return [...document.querySelectorAll(arguments[0] + ' tbody tr')].map(row => [...row.children].map(cell => cell.textContent.trim()));"""


class User:
    """A user before the page at `url`, in a browser."""

    def __init__(self, browser, url):
        self.browser, self.url = browser, url

    def open(self):
        """The page as it is loaded anew."""
        self.browser.open(self.url)
        return self.browser

    def show_key(self, key):
        self.browser.type("#key", key)
        self.browser.press("Open the plan")

    def enter(self, key, frames=True):
        """The plan of whom the key is. Without frames it is shown as soon as the page has let the user in."""
        browser = self.open()
        self.show_key(key)
        self.is_in(frames)
        return browser

    def is_in(self, frames=True):
        shown = "document.getElementById('app').checkVisibility() && !document.body.hasAttribute('aria-busy')"
        last = "document.querySelector('#frames li')" if frames else "document.querySelector('#tabs [aria-selected=true]')"
        self.browser.wait("the plan", f"return {shown} && Boolean({last})")

    def rests(self):
        """All that the page asked for is answered, and shown."""
        self.browser.wait("an answer", "return !document.body.hasAttribute('aria-busy')")

    def view(self, name):
        self.browser.click(f"#tab-{name}")

    def seen(self, selector):
        """The text of an element as the page has it, its spaces made one."""
        return " ".join(self.browser.run("return document.querySelector(arguments[0])?.textContent ?? ''", selector).split())

    def table(self, selector):
        """The cells of a table's rows."""
        return self.browser.run(ROWS, selector)

    def frame(self, name):
        """Looks for a frame in the list, clicks it, and lists all frames again."""
        self.browser.type("#search", name)
        script = "return [...document.querySelectorAll('#frames button')].findIndex(it => it.querySelector('b').textContent === arguments[0]) + 1"
        number = self.browser.wait(f"the frame {name}", script, name)
        self.browser.click(f"#frames li:nth-child({number}) button")
        self.browser.run("const it = document.getElementById('search'); it.value = ''; it.dispatchEvent(new Event('input', {bubbles: true}))")
        self.browser.wait(f"what is known of {name}", "return document.getElementById('detail').textContent.includes(arguments[0])", name)
        self.rests()

    def room(self, repetition, channels):
        """Where the chosen frame fits is marked in the plan."""
        self.browser.choose("#repetition", f"{repetition}:")
        self.browser.choose("#place-channels", {"AB": "A and B"}.get(channels, channels))
        self.browser.click("#show-room")
        self.browser.wait("where it fits", "return document.getElementById('mode').checkVisibility()")
        self.rests()
        return self.seen("#mode")

    def middles(self):
        """Where the lanes and the cycles stand in the window: places across by slot and channel, places down by cycle."""
        # What was changed just now has its place once the window was drawn.
        self.browser.run("return new Promise(done => requestAnimationFrame(() => requestAnimationFrame(() => done())))")
        lanes, cycles = self.browser.run(POINTING + MIDDLES)
        return {(int(name.split()[0]), name.split()[1]): x for name, x in lanes.items()}, {int(name): y for name, y in cycles.items()}

    def cells(self):
        """What the page tells of each cell under the mouse, and where that stands."""
        lanes, cycles = self.middles()
        places = [(x, y) for x in lanes.values() for y in cycles.values()]
        return dict(zip(self.browser.run(POINTING + TOLD_AT, places), places))

    def place_of(self, cycle, slot, channel, words=""):
        """The place of a cell, of which these words are told."""
        lanes, cycles = self.middles()
        if (slot, channel) not in lanes or cycle not in cycles:
            raise AssertionError(f"cycle {cycle}, slot {slot} {channel} is not in the window")
        place = lanes[slot, channel], cycles[cycle]
        (told,) = self.browser.run(POINTING + TOLD_AT, [place])
        if not told.startswith(wanted := f"Cycle {cycle}, slot {slot} {channel}: {words}"):
            raise AssertionError(f"wanted {wanted!r}, the page tells {told!r}")
        return place

    def reach(self, selector):
        """Goes by Tab to what the selector names, as one does without a mouse."""
        for _ in range(400):
            if self.browser.run("return Boolean(document.activeElement?.matches(arguments[0]))", selector):
                return
            self.browser.keys(TAB)
        raise AssertionError(f"no way by Tab leads to {selector}")

    def write(self, selector, text):
        """Goes to a field by Tab, and types in it."""
        self.reach(selector)
        self.browser.keys(*text)

    def enter_on(self, selector):
        """Goes to a button by Tab, and presses Enter."""
        self.reach(selector)
        self.browser.keys(ENTER)
