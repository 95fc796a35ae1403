#!/usr/bin/env python3
"""Draws the plans of the examples, and one at the limits: python3 -m tools.look [FOLDER]. The program is the one that SLOTPLAN names.

The pages go to FOLDER, out/look where none is named. Where there is chromium, a picture of each page and a file as it is printed stand beside it,
and the cells of the rectangles that the browser has are counted: they are as many as the lines of the schedule. Where there is chromedriver too,
pictures of the planners' page in each of its views stand there; README shows page.png. The last line is 'N passed, M failed'."""
import shutil
import subprocess
import sys
import tempfile
from pathlib import Path

from tests import TOP
from tests.drivers.browser import ESCAPE, LACKS, Browser
from tests.drivers.planned_registers import SECONDS, Register
from tests.drivers.server import HERE, started
from tests.drivers.user import User
from tests.models.demo_plan import BOSS, CAMERA, CLUSTER, REQUESTS
from tests.models.picture import read
from tests.models.plans import examples, limits

from .png import packed

counted = {True: 0, False: 0}


def plans():
    """Cluster files and requests, by name."""
    yield from examples()
    yield ("limits", *limits()[:2])


def browse(browser, page, *words):
    """What the browser says of the page."""
    command = [browser, "--headless", "--no-sandbox", "--disable-gpu", "--hide-scrollbars", *words, page.as_uri()]
    return subprocess.run(command, stdout=subprocess.PIPE, stderr=subprocess.DEVNULL, text=True, timeout=SECONDS).stdout


def look(browser, page, channels, cycles, lines):
    """Pictures of the page, and its cells counted as the browser has them."""
    browse(browser, page, "--window-size=1200,1600", f"--screenshot={page.with_suffix('.png')}")
    browse(browser, page, "--no-pdf-header-footer", f"--print-to-pdf={page.with_suffix('.pdf')}")
    lanes = read(browse(browser, page, "--dump-dom"), channels, cycles)[1]
    cells = sum(high for lane in lanes.values() for kind in lane.kinds for _, high in kind[4])
    counted[cells == lines] += 1
    if cells != lines:
        print(f"{page.name}: the browser has {cells} cells, the schedule {lines} lines")
    return sum(len(kind[4]) for lane in lanes.values() for kind in lane.kinds)


def integrators(user, folder, shown):
    """The integrator's views of a plan, in which a frame was chosen; and what is printed."""
    browser = user.enter(BOSS)
    user.frame("signs")
    (folder / "page.png").write_bytes(packed(browser.picture()))
    for view in "frames", "lanes", "diff", "manage", "plan":
        user.view(view)
        shown(view)
    (folder / "page.pdf").write_bytes(browser.printed())


def suppliers(user, folder, shown):
    """A supplier's plan: a frame is about to be placed, a difference is marked, and a file is to take the place of what is there."""
    browser = user.enter(CAMERA)
    user.frame("night_view")
    user.room(8, "A")
    browser.hover(user.place_of(22, 12, "A"))
    shown("place")
    browser.keys(ESCAPE)
    user.view("diff")
    browser.press("Compare")
    user.rests()
    user.view("plan")
    browser.click("#tall")
    shown("marked")
    file = folder / "week 48.csv"
    file.write_text("frame,node,slot,channels,base,repetition\nwalkers,front_camera,17,AB,1,2\nglare,front_camera,11,A,0,4\n")
    user.view("files")
    browser.upload("#pick", file)
    browser.wait("the file", "return document.querySelector('input[value=replace]')")
    browser.click("input[value=replace]")
    browser.wait("what would be gone", "return document.getElementById('gone')")
    shown("files")


def phones(user, _, shown):
    """What fits a phone's width."""
    browser = user.enter(CAMERA)
    shown("phone")
    browser.click("#side-open")
    user.frame("night_view")
    user.room(8, "A")
    shown("phone-place")


def look_at_page(folder):
    """Pictures of the planners' page of the register of `make demo`, on a desk, on a phone and on paper."""
    with tempfile.TemporaryDirectory() as place:
        Register(Path(place), CLUSTER, REQUESTS)
        with started(place) as (_, _, port):
            for look_as, window in (integrators, {}), (suppliers, {}), (phones, {"width": 390, "height": 844, "touch": True}):
                with Browser(**window) as browser:
                    user = User(browser, f"http://{HERE}:{port}/")

                    def shown(name, user=user, browser=browser):
                        user.rests()
                        (folder / f"page-{name}.png").write_bytes(browser.picture())

                    look_as(user, folder, shown)
    print(f"{folder / 'page.png'}: the planners' page")


def main():
    folder = Path(sys.argv[1] if len(sys.argv) > 1 else TOP / "out/look").resolve()
    folder.mkdir(parents=True, exist_ok=True)
    browser = shutil.which("chromium") or shutil.which("chromium-browser")
    if not browser:
        print("there is no chromium: the pages are drawn, and nothing is counted")
    for name, cluster, requests in plans():
        with tempfile.TemporaryDirectory() as place:
            register = Register(Path(place), cluster, requests)
            for opened in register.done("open_variant"):
                variant = opened["variant"]
                page = folder / f"{name}-{variant}.html"
                page.write_text(register.tell("picture", "car.db", variant))
                lines = len(register.tell("schedule", "car.db", variant).splitlines())
                drawn = look(browser, page, register.cluster["channels"], register.cluster.get("cycles", 64), lines) if browser else "?"
                print(f"{page}: {page.stat().st_size} bytes, {lines} cells in {drawn} rectangles")
    if LACKS:
        print(f"there is {LACKS}: the planners' page is not looked at")
    else:
        look_at_page(folder)
    print(f"{counted[True]} passed, {counted[False]} failed")
    return 1 if counted[False] else 0


if __name__ == "__main__":
    sys.exit(main())
