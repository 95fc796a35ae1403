"""The planners' page with a plan at the limits, in a browser: 1,023 slots on both channels, 64 suppliers with 256 frames each, 130,944 placements.

A register takes minutes to be asked for so many rows, so a server tells the rows of such a plan, which are made here by rule."""
from tests.drivers.stub_register import NOT_YOURS, StubCase

SUPPLIERS, LANES, CYCLES, PLACEMENTS = 64, 2046, 64, 8
FIGURES = {
    "channels": "AB", "static_slots": 1023, "slot_macroticks": 15, "dynamic_macroticks": 0, "symbol_macroticks": 0, "idle_macroticks": 655,
    "macroticks_per_cycle": 16_000, "payload_words": 127, "cycles": CYCLES,
}
NAMES = [f"s{number:02}" for number in range(1, SUPPLIERS + 1)]
# For how many seconds of the processor the page may work, whatever else the machine does. It takes about a third of them.
OPENED, STEP, ACTED = 1, 0.05, 1
# Scrolls the plan by a window's width and draws it, so often.
STEPS = 20
SCROLLING = """
    const box = document.getElementById('scroller'), drawn = () => new Promise(done => requestAnimationFrame(() => requestAnimationFrame(done)));
    return (async count => {
        for (let step = 0; step < count; step++) {
            box.scrollLeft += box.clientWidth;
            await drawn();
        }
    })(arguments[0]);"""


def cells(number):
    """The cells of a supplier's lanes, cycle by cycle: each is one placement of repetition 64, so that no two can be joined."""
    lanes = range(number * 32, min(number * 32 + 32, LANES))
    return [(lane, cycle) for cycle in range(CYCLES) for lane in lanes]


def gap(sent):
    """The longest time from one sending to the next, round the ring of all cycles."""
    ring = CYCLES * FIGURES["macroticks_per_cycle"]
    moments = sorted({cycle * FIGURES["macroticks_per_cycle"] + lane // 2 * FIGURES["slot_macroticks"] for lane, cycle in sent})
    return max(after - before for before, after in zip(moments, [*moments[1:], moments[0] + ring]))


def reports():
    """What a register tells its integrator of such a plan. It has no signals."""
    grants, frames, placements, gaps, count = [], [], [], [], 0
    for number, name in enumerate(NAMES):
        all_cells = cells(number)
        count += len(all_cells)
        grants += [f"GRANT {lane // 2 + 1:04} {'AB'[lane % 2]} node_{name} {name}" for lane in range(number * 32, min(number * 32 + 32, LANES))]
        for first in range(0, len(all_cells), PLACEMENTS):
            frame = f"frame_{name}_{first // PLACEMENTS:03}"
            frames.append(f"FRAME {frame} node_{name} {name}")
            sent = sorted(all_cells[first : first + PLACEMENTS])
            placements += [f"AT {frame} {lane // 2 + 1:04} {'AB'[lane % 2]} {cycle:02} 64 {name}" for lane, cycle in sent]
            gaps.append(f"GAP {gap(all_cells[first : first + PLACEMENTS]):>7} {frame} {name}")
    text = lambda lines: "".join(f"{line}\n" for line in lines)
    cluster = [*(f"{key} {value}" for key, value in FIGURES.items()), *(f"supplier {name}" for name in NAMES)]
    told = {
        "cluster": text(cluster), "nodes": text(f"node_{name} {name}" for name in NAMES), "variants": "full - 1 open\n",
        "rows": text([*grants, *frames, *placements, *gaps]), "room": NOT_YOURS,
    }
    return told, count


class AtTheLimits(StubCase):
    """Such a plan is shown, scrolled and searched without a pause that hinders work. What the page's own work took is printed."""

    seconds = 120

    def worked(self):
        """For how many seconds of the processor the page has worked."""
        metrics = self.browser.devtools("Performance.getMetrics")["metrics"]
        return next(it["value"] for it in metrics if it["name"] == "TaskDuration")

    def takes(self, what, most, act, times=1):
        before = self.worked()
        act()
        took = (self.worked() - before) / times
        print(f"{what}: {took:.3f} s of the processor", flush=True)
        self.see(f"{what} takes {took:.3f} s, less than {most}", True, took < most)

    def test_limits(self):
        told, placements = reports()
        self.see("placements", 130_944, placements)
        browser = self.open()
        browser.devtools("Performance.enable", timeDomain="threadTicks")
        self.takes("from the key to the plan", OPENED, lambda: self.answer(**told))
        self.see("all frames are there", True, self.seen("#frames-note").startswith("16,368 frames"))
        self.takes("a step of scrolling", STEP, lambda: browser.run(SCROLLING, STEPS), STEPS)
        self.takes("all slots in the window", ACTED, lambda: (browser.click("#fit"), browser.run(SCROLLING, 1)))
        self.takes("a letter of a search", ACTED, lambda: browser.type("#search", "frame_s63_24"), len("frame_s63_24"))
        self.see("frames that are found", 10, browser.run("return document.querySelectorAll('#frames li').length"))
        self.takes("the table of frames", ACTED, lambda: self.view("frames"))
        self.takes("the table of lanes", ACTED, lambda: self.view("lanes"))
