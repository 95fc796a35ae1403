"""A browser without a window, which a test drives as a user does: Chromium, by chromedriver, over WebDriver as the W3C has it. CHROMIUM and
CHROMEDRIVER name others than those on PATH."""
import base64
import http.client
import json
import os
import re
import shutil
import signal
import subprocess
import tempfile
import time
from contextlib import suppress
from pathlib import Path

CHROMIUM = os.environ.get("CHROMIUM") or shutil.which("chromium") or shutil.which("chromium-browser")
CHROMEDRIVER = os.environ.get("CHROMEDRIVER") or shutil.which("chromedriver")
LACKS = "" if CHROMIUM and CHROMEDRIVER else "no chromium: apt-get install chromium chromium-driver"
# By which an answer of WebDriver names an element.
ELEMENT = "element-6066-11e4-a52e-4f735466cecf"
# The keys that are no letters.
ENTER, TAB, SHIFT, CONTROL, ESCAPE, HOME, PAGE_UP = "\ue007", "\ue004", "\ue008", "\ue009", "\ue00c", "\ue011", "\ue00e"
LEFT, UP, RIGHT, DOWN = "\ue012", "\ue013", "\ue014", "\ue015"
# How long something may take until it is seen, on a machine that is busy with proofs too.
SECONDS = 120
# How long the driver may take for an answer.
ANSWERED = 300
# How often a browser is started at most until it is up.
STARTS = 5
# It asks nobody but this machine, and shows no page of its own.
WORDS = """--headless=new --no-sandbox --disable-gpu --disable-dev-shm-usage --no-first-run --disable-background-networking --disable-component-update
--disable-sync --disable-default-apps --disable-extensions --disable-smooth-scrolling --mute-audio""".split()
# A script that is tried until it returns something true.
WAITING = """
    const words = [...arguments], done = words.pop(), script = function () { %s }, end = performance.now() + %d * 1000;
    const look = () => {
        const value = script(...words);
        if (value || performance.now() > end) done(value); else setTimeout(look, 20);
    };
    look();"""
STARTED = re.compile(rb"started successfully on port (\d+)")


class Fault(Exception):
    """What the driver answers in place of a value."""


class Browser:
    """A browser with a window of this size, which ends with its `with`. What it takes lies in the folder `downloads`."""

    def __init__(self, width=1280, height=800, touch=False):
        self.size, self.touch = (width, height), touch
        self.session, self.process = "", None

    def __enter__(self):
        self.folder = tempfile.TemporaryDirectory(prefix="slotplan-browser-", ignore_cleanup_errors=True)
        self.downloads = Path(self.folder.name) / "downloads"
        self.downloads.mkdir()
        how = {"stdin": subprocess.DEVNULL, "stdout": subprocess.PIPE, "stderr": subprocess.DEVNULL}
        self.driver = subprocess.Popen([CHROMEDRIVER, "--port=0", "--log-level=SEVERE"], **how)
        try:
            port = next(int(found[1]) for line in self.driver.stdout if (found := STARTED.search(line)))
            self.link = http.client.HTTPConnection("127.0.0.1", port, timeout=ANSWERED)
            self.begin()
        except BaseException:
            self.__exit__()
            raise
        return self

    def __exit__(self, *_):
        """Ends the browser and its driver, however they are."""
        with suppress(ProcessLookupError):
            if self.process:
                os.kill(self.process, signal.SIGKILL)
        self.driver.terminate()
        try:
            self.driver.wait(SECONDS)
        except subprocess.TimeoutExpired:
            self.driver.kill()
            self.driver.wait()
        self.driver.stdout.close()
        self.folder.cleanup()

    def begin(self):
        """Starts the browser. On a machine that is very busy it may not be up in the time that its driver gives it: then it is started again."""
        for left in reversed(range(STARTS)):
            try:
                return self.start()
            except Fault as fault:
                if not left or "session not created" not in str(fault):
                    raise
        return None

    def start(self):
        width, height = self.size
        options = {
            "binary": CHROMIUM,
            "args": [*WORDS, f"--window-size={width},{height}", f"--user-data-dir={self.folder.name}/profile"],
            "prefs": {"download.default_directory": str(self.downloads), "download.prompt_for_download": False},
        }
        wanted = {"goog:chromeOptions": options, "goog:loggingPrefs": {"browser": "ALL", "performance": "ALL"}}
        begun = self.call("POST", "/session", {"capabilities": {"alwaysMatch": wanted}})
        self.session, self.process = f"/session/{begun['sessionId']}", begun["capabilities"]["goog:processID"]
        self.call("POST", "/timeouts", {"script": ANSWERED * 1000})
        self.resize(width, height)
        # What it asked for its own first page is of no interest.
        self.requests()

    def resize(self, width, height):
        """The size of the page's window. One with touch is a phone's or a tablet's."""
        self.devtools("Emulation.setDeviceMetricsOverride", width=width, height=height, deviceScaleFactor=1, mobile=self.touch)
        self.devtools("Emulation.setTouchEmulationEnabled", enabled=self.touch)

    def call(self, method, path, body=None):
        """A command of WebDriver, and the value that it gives."""
        sent = json.dumps(body or {}) if method == "POST" else None
        try:
            self.link.request(method, self.session + path, sent, {"content-type": "application/json"})
            value = json.loads(self.link.getresponse().read())["value"]
        except OSError:
            self.link.close()
            raise
        if isinstance(value, dict) and "error" in value:
            raise Fault(f"{value['error']}: {value['message'].splitlines()[0]}")
        return value

    def devtools(self, name, **words):
        """A command of Chromium's own."""
        return self.call("POST", "/goog/cdp/execute", {"cmd": name, "params": words})

    def open(self, url):
        self.call("POST", "/url", {"url": url})

    def run(self, script, *words):
        """What the script returns, in the page. It has the words as `arguments`."""
        return self.call("POST", "/execute/sync", {"script": script, "args": list(words)})

    def wait(self, what, script, *words, seconds=SECONDS):
        """What the script returns, once that is true."""
        value = self.call("POST", "/execute/async", {"script": WAITING % (script, seconds), "args": list(words)})
        if not value:
            raise AssertionError(f"not seen in {seconds} seconds: {what}")
        return value

    def element(self, selector):
        """The path of the first element that the selector names, once there is one."""
        return f"/element/{self.wait(f'an element {selector}', 'return document.querySelector(arguments[0])', selector)[ELEMENT]}"

    def text(self, selector):
        """The text of the element as it is shown."""
        return self.call("GET", f"{self.element(selector)}/text")

    def click(self, selector):
        self.call("POST", f"{self.element(selector)}/click")

    def press(self, words, within="body"):
        """Clicks the button with these words, or that begins so."""
        script = """const shown = [...document.querySelectorAll(arguments[1] + ' button')].filter(it => it.checkVisibility());
            return shown.find(it => it.textContent.trim() === arguments[0]) ?? shown.find(it => it.textContent.trim().startsWith(arguments[0]));"""
        found = self.wait(f"a button {words!r} in {within}", script, words, within)
        self.call("POST", f"/element/{found[ELEMENT]}/click")

    def type(self, selector, text):
        """Writes a field anew."""
        field = self.element(selector)
        self.call("POST", f"{field}/clear")
        self.call("POST", f"{field}/value", {"text": text})

    def upload(self, selector, path):
        """Chooses a file in a field of files, as in the window that the browser opens for it."""
        self.call("POST", f"{self.element(selector)}/value", {"text": str(path)})

    def choose(self, selector, text):
        """Chooses the option with this text, or that begins so, as a user does."""
        script = """const all = [...document.querySelector(arguments[0]).options];
            return all.find(it => it.text.trim() === arguments[1]) ?? all.find(it => it.text.trim().startsWith(arguments[1]));"""
        found = self.wait(f"an option {text!r} of {selector}", script, selector, text)
        self.call("POST", f"/element/{found[ELEMENT]}/click")

    def pointer(self, *steps, kind="mouse"):
        """Goes from place to place of the window; "down" and "up" stand for the button."""
        moves = {"down": {"type": "pointerDown", "button": 0}, "up": {"type": "pointerUp", "button": 0}}
        actions = [moves[it] if isinstance(it, str) else {"type": "pointerMove", "duration": 0, "x": round(it[0]), "y": round(it[1])} for it in steps]
        self.call("POST", "/actions", {"actions": [{"type": "pointer", "id": kind, "parameters": {"pointerType": kind}, "actions": actions}]})

    def hover(self, place):
        self.pointer(place)

    def click_at(self, place):
        self.pointer(place, "down", "up")

    def touch_at(self, place):
        self.pointer(place, "down", "up", kind="touch")

    def drag(self, *places):
        """Goes from place to place with the button held."""
        first, *more = places
        self.pointer(first, "down", *more, "up")

    def keys(self, *keys, holding=None):
        """Presses keys one after another, with another one held."""
        hold = lambda how: [{"type": how, "value": holding}] if holding else []
        each = [{"type": how, "value": key} for key in keys for how in ("keyDown", "keyUp")]
        self.call("POST", "/actions", {"actions": [{"type": "key", "id": "keys", "actions": [*hold("keyDown"), *each, *hold("keyUp")]}]})

    def drop(self, place, *paths):
        """Drops files of the disk at a place, as from a window of files."""
        data = {"items": [], "files": [str(path) for path in paths], "dragOperationsMask": 1}
        for kind in "dragEnter", "dragOver", "drop":
            self.devtools("Input.dispatchDragEvent", type=kind, x=place[0], y=place[1], data=data)

    def taken(self, name):
        """The text of a file that the page has given, once it is whole. It is gone then."""
        path, end = self.downloads / name, time.monotonic() + SECONDS
        while not path.exists():
            if time.monotonic() > end:
                raise AssertionError(f"not taken in {SECONDS} seconds: {name}; there is {os.listdir(self.downloads)}")
            time.sleep(0.03)
        text = path.read_bytes().decode()
        path.unlink()
        return text

    def picture(self):
        """What the window shows, as a PNG."""
        return base64.b64decode(self.call("GET", "/screenshot"))

    def printed(self):
        """The page as a file for a printer, on sheets of A4 that lie."""
        how = {"landscape": True, "printBackground": True, "paperWidth": 8.27, "paperHeight": 11.69}
        return base64.b64decode(self.devtools("Page.printToPDF", **how)["data"])

    def said(self):
        """What stands in the browser's console, each entry once."""
        return [entry["message"] for entry in self.call("POST", "/se/log", {"type": "browser"})]

    def requests(self):
        """What pages have asked for since this was called, as the browser has it in its log: each request's fields there."""
        entries = (json.loads(it["message"])["message"] for it in self.call("POST", "/se/log", {"type": "performance"}))
        return [it["params"]["request"] for it in entries if it["method"] == "Network.requestWillBeSent"]
