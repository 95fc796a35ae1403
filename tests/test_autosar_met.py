"""What was met in files of other tools: references that begin at a base, frames without a sender, and elements under variation points."""
from clients.slotplan_plans.autosar.described import Described
from clients.slotplan_plans.faults import Fault
from tests.models import arxml
from tests.test_autosar_commands import CommandCase
from tests.test_autosar_files import PORT_REFS, TABLE, TYPED
from tests.test_autosar_update import UpdateCase


def base(label, path, default="false", this="false", more=""):
    """A base as a package names it."""
    return (
        f"<REFERENCE-BASE><SHORT-LABEL>{label}</SHORT-LABEL><IS-DEFAULT>{default}</IS-DEFAULT><IS-GLOBAL>false</IS-GLOBAL>"
        f"<BASE-IS-THIS-PACKAGE>{this}</BASE-IS-THIS-PACKAGE><PACKAGE-REF DEST=\"AR-PACKAGE\"{more}>{path}</PACKAGE-REF></REFERENCE-BASE>"
    )


def with_bases(text, *bases):
    """The text with these bases in its first package."""
    return text.replace("<SHORT-NAME>P</SHORT-NAME>", f"<SHORT-NAME>P</SHORT-NAME><REFERENCE-BASES>{''.join(bases)}</REFERENCE-BASES>", 1)


FRAME_REF = '<FRAME-REF DEST="FLEXRAY-FRAME">/P/f</FRAME-REF>'
RELATIVE = {
    "by label": (FRAME_REF.replace(">/P/", ' BASE="ours">'), [base("other", "/Q"), base("ours", "/P")]),
    "by default": (FRAME_REF.replace("/P/", ""), [base("other", "/Q"), base("ours", "/P", default="true")]),
    "of this package": (FRAME_REF.replace("/P/", ""), [base("ours", "", default="true", this="true")]),
    "of a relative base": (FRAME_REF.replace(">/P/f", ' BASE="ours">f'), [base("top", "/", default="true"), base("ours", "P", more=' BASE="top"')]),
}


class References(UpdateCase):
    """A reference that begins at a base of its package leads where the whole one does."""

    def test_bases(self):
        plan = self.imported(TYPED.encode(), {})
        for name, (leaf, bases) in RELATIVE.items():
            text = with_bases(TYPED.replace(FRAME_REF, leaf), *bases)
            self.see(f"{name}: it is another text", 1, text.count(leaf))
            self.see(name, plan, self.imported(text.encode(), {}))
            updated, written = self.updated(plan)
            self.see(f"{name}: written anew", text, written.decode())

    def test_of_the_file(self):
        """A default of the file's own, or of a package that has the others."""
        plan = self.imported(TYPED.encode(), {})
        bases = f"<REFERENCE-BASES>{base('file', '/P', 'true')}</REFERENCE-BASES>"
        text = TYPED.replace("<AR-PACKAGES>", f"<ADMIN-DATA><SDGS><SDG>{bases}</SDG></SDGS></ADMIN-DATA><AR-PACKAGES>")
        text = text.replace(FRAME_REF, FRAME_REF.replace("/P/", ""))
        self.see("a default in ADMIN-DATA", plan, self.imported(text.encode(), {}))

    def test_without(self):
        """Without a base a relative reference leads nowhere, and that is told."""
        for leaf in FRAME_REF.replace("/P/", ""), FRAME_REF.replace(">/P/", ' BASE="gone">'):
            self.file.write_text(TYPED.replace(FRAME_REF, leaf))
            notes = Described().proposed([self.file]).notes
            self.see("a note", True, ("left out", "/P/C/A/T", "its frame f is not in this file") in notes)

    def test_circle(self):
        """Bases that lead to one another end."""
        bases = [base("a", "x", more=' BASE="b"'), base("b", "y", more=' BASE="a"')]
        self.file.write_text(with_bases(TYPED.replace(FRAME_REF, FRAME_REF.replace(">/P/", ' BASE="a">')), *bases))
        self.see("no frame", (), Described().proposed([self.file]).plan.frames)


class Senders(CommandCase):
    """A table names who sends, where the file does not."""

    def test_table(self):
        self.has("in.arxml", TYPED.replace(PORT_REFS, ""))
        status, written, said = self.client("import", "new", "in.arxml", program=False)
        told = "no frame could be taken: new/notes.csv says why; of 1 frames the file does not tell who sends them, and --senders may\n"
        self.see("without one", (1, told, True), (status, said, "frames: 0" in written))
        for number, (triggering, ecu) in enumerate([("/P/C/A/T", "/P/n1"), ("T", "n1")]):
            self.has("senders.csv", f"triggering,ecu\n{triggering},{ecu}\n")
            status, written, said = self.client("import", f"new{number}", "in.arxml", "--senders", "senders.csv", program=False)
            self.see(f"{triggering}, {ecu}", (0, "", True), (status, said, "frames: 1, placements: 1, signals: 2" in written))
        for file in "placements", "grants":
            path = next(self.folder.glob(f"new1/**/*{file}.csv"))
            self.see(file, {"placements": "f,n1,2,A,1,4", "grants": "2,A,s1,n1"}[file], path.read_text().splitlines()[1])

    def test_refused(self):
        self.has("in.arxml", TYPED.replace(PORT_REFS, ""))
        for rows, said in {
            "T,n9": "the table of senders gives /P/C/A/T the ECU 'n9': the file has none of that name",
            "T,n1\nT,n2": "senders.csv: line 3: 'T' stands above with another ecu",
        }.items():
            self.has("senders.csv", f"triggering,ecu\n{rows}\n")
            self.stops(said, "import", "new", "in.arxml", "--senders", "senders.csv", program=False)
        self.has("senders.csv", "frame,ecu\nT,n1\n")
        said = "senders.csv: the first line does not name the columns triggering, ecu"
        self.stops(said, "import", "new", "in.arxml", "--senders", "senders.csv", program=False)

    def test_of_no_use(self):
        """Where the file tells the sender, it holds; the row is told."""
        self.has("in.arxml", TYPED)
        self.has("senders.csv", "triggering,ecu\nT,n1\nT9,n1\n")
        self.client("import", "new", "in.arxml", "--senders", "senders.csv", program=False)
        notes = self.text("new/notes.csv")
        for key in "T", "T9":
            self.see(key, True, f"not kept,{key} of the table of senders,no such triggering is without a sender in the file\n" in notes)


def pointed(text, tag, label):
    """The text of an element with a variation point."""
    return text.replace(f"</{tag}>", f"<VARIATION-POINT><SHORT-LABEL>{label}</SHORT-LABEL></VARIATION-POINT></{tag}>")


LINES = arxml.timing(2, 0, 4), arxml.timing(2, 0, 2)
LEFT, RIGHT = (arxml.triggering(f"T_{name}", name, ["DSC/ConnA/Out"], timing) for name, timing in zip(("Left", "Right"), LINES))


class Variants(UpdateCase):
    """A file of all forms of a car: two frames in one cell, each in a form of its own."""

    def file_of(self, left=LEFT, right=RIGHT):
        cluster = arxml.cluster("C", [arxml.channel("A", ["DSC"], [left, right])], arxml.FIGURES)
        frames = (arxml.frame(name, 16) for name in ("Left", "Right"))
        return arxml.whole(arxml.package("Cluster", cluster), arxml.package("Ecu", arxml.ecu("DSC")), arxml.package("Frame", *frames))

    def read(self, text, *labels):
        self.file.write_text(text)
        self.words = Described(suppliers=TABLE, labels=labels)
        return self.words.proposed([self.file])

    def test_points(self):
        tag = "FLEXRAY-FRAME-TRIGGERING"
        text = self.file_of(pointed(LEFT, tag, "LHD"), pointed(RIGHT, tag, "RHD"))
        notes = {note.what: note for note in self.read(text).notes}
        for name, label in ("Left", "LHD"), ("Right", "RHD"):
            why = "it holds under a condition, and the register has it always; --variant-of chooses one"
            self.see(f"of {name}", why, notes[f"/Cluster/C/ChA/T_{name}: variation point {label}"].why)
        why = notes["/Frame/Right: slot 2 on A, base 0, repetition 2"].why
        self.see("both are named", "in cycle 0 on A /Frame/Left is sent, and so would be /Frame/Right: a cell has one frame", why)
        for label, name in ("LHD", "Left"), ("RHD", "Right"):
            proposal = self.read(text, label)
            self.see(f"the frames of {label}", [name], [it.name for it in proposal.plan.frames])
            self.see("notes", 1, sum(note.kind == "left out" and "variation point" in note.what for note in proposal.notes))
            updated, written = self.updated(proposal.plan)
            self.see("written anew", (text, []), (written.decode(), updated.left))
        self.see("both chosen", 1, len([note for note in self.read(text, "LHD", "RHD").notes if note.what.startswith("/Frame/Right: slot")]))

    def test_unknown(self):
        with self.assertRaises(Fault) as refused:
            self.read(self.file_of(), "XHD")
        self.see("why", "no variation point has the label 'XHD'", str(refused.exception))

    def test_without_a_label(self):
        """A point without a label is told, and chosen by none."""
        point = "<VARIATION-POINT/></FLEXRAY-FRAME-TRIGGERING>"
        text = self.file_of(LEFT.replace("</FLEXRAY-FRAME-TRIGGERING>", point), pointed(RIGHT, "FLEXRAY-FRAME-TRIGGERING", "RHD"))
        what = "/Cluster/C/ChA/T_Left: variation point"
        self.see("told", True, any(note.what == what for note in self.read(text, "RHD").notes))

    def test_clusters(self):
        """Of two forms of the cluster a label chooses one."""
        text = self.file_of().replace("</FLEXRAY-CLUSTER-VARIANTS>", "<FLEXRAY-CLUSTER-CONDITIONAL/></FLEXRAY-CLUSTER-VARIANTS>", 1)
        with self.assertRaisesRegex(Fault, "2 FLEXRAY-CLUSTER-CONDITIONAL"):
            self.read(text)
        form = "FLEXRAY-CLUSTER-CONDITIONAL"
        two = text.replace(f"<{form}/>", pointed(f"<{form}></{form}>", form, "X"))
        first = two.index(f"</{form}>")
        two = two[:first] + "<VARIATION-POINT><SHORT-LABEL>Y</SHORT-LABEL></VARIATION-POINT>" + two[first:]
        self.see("frames", ["Left", "Right"], [it.name for it in self.read(two, "Y").plan.frames])
