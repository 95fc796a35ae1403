"""Proposals in the planners' page, in a browser: wishes are typed, pasted and dropped; what is proposed is shown, outlined and tried, and only then sent."""
from tests.drivers.planner import PlannerCase
from tests.models.demo_plan import CAMERA, CLUSTER, REQUESTS

TYPED = "const it = document.getElementById('wishes-text'); it.value = arguments[0]; it.dispatchEvent(new Event('input', {bubbles: true}))"
PROPOSED = "return document.querySelector('#proposed strong, #proposed .fault')?.textContent"


class Proposals(PlannerCase):
    """Wishes for frames of the cameras' supplier."""

    def setUp(self):
        super().setUp()
        self.plan(CLUSTER, REQUESTS)
        self.enter(CAMERA)
        self.view("files")

    def propose(self, *lines, way="propose"):
        self.browser.run(TYPED, "\n".join(lines))
        self.browser.click(f"input[name=way][value={way}]")
        self.browser.click("#propose")
        said = self.browser.wait("what is proposed", PROPOSED)
        self.rests()
        return self.browser.run(PROPOSED) or said

    def told(self, *wishes, replace=False):
        """What the register proposes."""
        body = "frame,node,channels,repetition\n" + "".join(f"{wish}\n" for wish in wishes)
        return self.api.command(CAMERA, do="propose", variant="my29", body=body, replace=replace)["lines"]

    def rows(self):
        return self.api.get(CAMERA, "variants/my29/rows")

    def test_all_fit(self):
        before, wishes = self.rows(), ["night_view,front_camera,A,8", "glare,front_camera,B,4"]
        self.see("the sentence", "All 2 fit.", self.propose("frame,node,channels,repetition", *wishes))
        lines = self.told(*wishes)
        places = [line.split(" 00 ")[1].split(",") for line in lines]
        shown = [f"slot {slot} {channels}, base {base}, repetition {every} Show" for _, _, slot, channels, base, every in places]
        self.see("where each would go", shown, [row[-1] for row in self.table("#proposed")])
        self.see("nothing is sent", before, self.rows())
        self.browser.click("#take-proposal")
        self.browser.wait("the trial", "return document.querySelector('#carry-out')")
        self.rests()
        self.see("the trial has the rows", [place for place in places], [row[1:7] for row in self.table("#view-files .card:first-child")])
        self.see("nothing is sent yet", before, self.rows())
        self.browser.click("#carry-out")
        self.says("2 rows of proposal.csv imported under the label")
        for _, _, slot, channels, base, every in places:
            self.see("the register has it", True, f"{int(slot):04} {channels} {int(base):02} {int(every):02}" in self.rows())

    def test_times(self):
        """A cycle time in milliseconds is the repetition that keeps it."""
        self.browser.choose("#times", "milliseconds")
        self.see("the sentence", "It fits.", self.propose("frame\tnode\tchannels\tcycle time ms", "night_view\tfront_camera\tA\t40"))
        # A cycle of 5,000 macroticks of 1 microsecond: 40 ms are 8 cycles.
        self.see("the repetition", ["night_view", "front_camera", "A", "40", "8"], self.table("#proposed")[0][:5])
        said = self.propose("frame\tnode\tchannels\tcycle time ms", "night_view\tfront_camera\tA\t2")
        self.see("below a cycle", (True, True), ("No row is a wish" in said, "ask for 3 placements of repetition 1" in self.table("#proposed")[0][5]))

    def test_no_room(self):
        """What is lacking is told, with a text for a mail; of a replacement it is asked again without those that have no room."""
        wishes = [f"big{at},front_camera,AB,1" for at in range(9)] + ["night_view,front_camera,A,64"]
        lines = self.told(*wishes)
        fits, lack = sum(" 00 " in line for line in lines), next(line for line in lines if line.startswith("LACK"))
        number = int(lack.split()[-1])
        said = self.propose("frame,node,channels,repetition", *wishes)
        self.see("the sentence", f"{fits} of 10 fit. Node front_camera needs {number} slot{'s' if number > 1 else ''} more on A and B.", said)
        mail = self.browser.run("return document.getElementById('lack').value")
        self.see("the mail", True, f"- {number} slot{'s' if number > 1 else ''}, empty in all cycles, on A and B, for node front_camera" in mail and "my29" in mail)
        self.propose("frame,node,channels,repetition", *wishes, way="propose-anew")
        self.see("of a part of a replacement no rows are taken", False, self.browser.run("return Boolean(document.getElementById('take-proposal'))"))
        self.browser.press("Propose without the frames that have no room", "#proposed")
        self.browser.wait("those that fit", "return document.getElementById('take-proposal')")
        self.rests()
        self.see("then they fit", True, "fit" in self.seen("#proposed strong") and " of " not in self.seen("#proposed strong"))

    def test_a_file(self):
        """A file of wishes that is dropped is taken so, and what is proposed is outlined in the plan."""
        path = self.folder / "wishes.csv"
        path.write_text("frame;node;channels;repetition\nnight_view;front_camera;A;2\n")
        self.browser.upload("#pick", path)
        self.browser.wait("the wishes", "return document.getElementById('wishes-text')?.value.includes('night_view')")
        self.browser.click("#propose")
        self.browser.wait("what is proposed", PROPOSED)
        self.rests()
        before = self.browser.run("return document.getElementById('grid').toDataURL()")
        self.browser.press("Show", "#proposed")
        self.rests()
        self.middles()
        shown = self.browser.run("return document.getElementById('grid').toDataURL()")
        self.view("files")
        self.browser.press("Forget it", "#proposed")
        self.view("plan")
        self.middles()
        self.see("the outlines are drawn, and go", True, len({before, shown, self.browser.run("return document.getElementById('grid').toDataURL()")}) >= 2)

    def test_hostile(self):
        """What is pasted is shown as text."""
        self.propose("frame,node,channels,repetition", "<img src=x onerror=alert(1)>,front_camera,A,2")
        self.see("it is a text", "<img src=x onerror=alert(1)>", self.table("#proposed")[0][0])
        self.see("no element is made", 0, self.browser.run("return document.querySelectorAll('#proposed img').length"))
