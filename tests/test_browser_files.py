"""Files and differences in the planners' page, in a browser: files as spreadsheets write them, files of many rows, exports, and what differs."""
from tests.drivers.planner import PlannerCase
from tests.models.demo_plan import BOSS, CAMERA, CHANGED, CLUSTER, REQUESTS
from tests.models.workbook import open_workbook, workbook

HEADER = "frame,node,slot,channels,base,repetition\n"
SIGNALS = "frame,signal,start,length,order\n"
# In slot 17 base 1 of 2 is free on both channels.
ROWS = "glare,front_camera,17,A,1,4\nrain,front_camera,17,B,1,4\n"
WOULD = "All 2 rows would be carried out."


class FileCase(PlannerCase):
    """The supplier camtech before its files."""

    def setUp(self):
        super().setUp()
        self.plan(CLUSTER, REQUESTS)
        self.enter(CAMERA)
        self.view("files")

    def frames(self):
        return self.api.get(CAMERA, "variants/my29/frames")

    def told(self):
        """What the page tells of the file."""
        return self.seen("#view-files")

    def fates(self, count):
        script = "return document.querySelectorAll('#view-files tbody tr').length === arguments[0]"
        self.browser.wait(f"{count} rows", script, count)
        return [row[-1] for row in self.table("#view-files")]

    def carried(self, words):
        self.browser.click("#carry-out")
        return self.says(words)


class Files(FileCase):
    """A file is tried row by row, and then imported, or put in the place of what was there."""

    def test_fates(self):
        """Each refused row is told in words; the file is not sent; a click shows the cell that is taken."""
        before = self.frames()
        rows = "new_1,front_camera,19,A,0,2", "object_1,front_camera,11,A,0,4", "new_2,nobody,17,A,1,4", "new_3,front_camera,17,A,3"
        self.file("week 48.csv", HEADER + "\n".join([*rows, "new_4,front_camera,17,A,1,3"]))
        fates = self.fates(5)
        wanted = ["NotGranted (21)", "In cycle 0 on channel A the frame lane_left is sent already.", "NoNode (15)", "BadText (1)", "BadCycles (5)"]
        for fate, words in zip(fates, wanted):
            self.see(f"{fate!r} says {words}", True, words in fate)
        self.see("the label that is proposed", "week_48", self.browser.run("return document.getElementById('label').value"))
        self.see("the file cannot be sent", True, self.browser.run("return document.getElementById('carry-out').disabled"))
        self.browser.press("Show the cell", "#view-files")
        shown = "return document.getElementById('view-plan').checkVisibility() && document.getElementById('cell').textContent"
        self.see("the cell", True, self.browser.wait("the cell", shown).startswith("Cycle 0, slot 11 A: lane_left"))
        self.see("nothing has changed", before, self.frames())

    def test_import(self):
        self.file("week 48.csv", HEADER + ROWS)
        self.fates(2)
        self.carried("2 rows of week 48.csv imported under the label week_48.")
        self.see("the register has them", True, "FRAME glare front_camera\nAT 0017 A 01 04\n" in self.frames())
        # The label is kept with that file now.
        other = self.api.ask(CAMERA, "POST", "variants/my29/imports/week_48", HEADER)
        self.see("another file under it", '{"no":9,"refused":"LabelUsed"}', other)
        self.file("week 48.csv", HEADER + "dusk,front_camera,17,A,3,4\n")
        self.fates(1)
        self.carried("LabelUsed (9)")
        self.see("nothing has changed", False, "dusk" in self.frames())

    def test_drop(self):
        """A file is dropped from a window of the desk."""
        path = self.folder / "glare.csv"
        path.write_text(HEADER + ROWS)
        box = self.browser.run("const it = document.querySelector('.drop').getBoundingClientRect(); return [it.x + 20, it.y + 10]")
        self.browser.drop(box, path)
        self.fates(2)
        self.see("it would be carried out", True, WOULD in self.told())

    def test_a_colleague(self):
        """What a colleague did to a frame of the file before it was sent is said; what the file did is not."""
        self.file("more.csv", HEADER + "walkers,front_camera,17,A,1,4\n" + ROWS.splitlines(True)[1])
        self.fates(2)
        place = {"do": "place", "variant": "my29", "frame": "walkers", "slot": 12, "channels": "A", "base": 2, "repetition": 8}
        self.see("a colleague places it too", {"ok": "done"}, self.api.command(CAMERA, **place))
        told = self.carried("2 rows of more.csv imported under the label more.")
        self.see(f"{told!r} has the colleague's", True, "Somebody else changed 1 frame (walkers) meanwhile" in told)
        self.file("most.csv", HEADER + "walkers,front_camera,17,B,3,4\ndusk,front_camera,17,A,3,4\n")
        self.fates(2)
        self.see("nobody else", False, "Somebody" in self.carried("2 rows of most.csv imported under the label most."))

    def test_drop_elsewhere(self):
        """A file that is dropped beside the place for it is taken too, and not opened by the browser."""
        self.view("plan")
        path = self.folder / "glare.csv"
        path.write_text(HEADER + ROWS)
        self.browser.drop((640, 400), path)
        self.fates(2)
        self.see("it would be carried out", True, WOULD in self.told())
        self.browser.choose("#variant", "my28")
        self.browser.wait("my28", "return document.getElementById('variant-state').textContent === 'released'")
        self.rests()
        self.view("plan")
        self.browser.drop((640, 400), path)
        self.browser.wait("why not", "return document.getElementById('view-files').textContent.includes('The variant is released')")
        self.see("nothing can be sent", 0, self.browser.run("return document.querySelectorAll('#carry-out').length"))


class Replacements(FileCase):
    """A file takes the place of what its frames had. What would be gone is shown and asked for first, and read once more before it is sent."""

    WALK = "FRAME walkers front_camera\nAT 0017 AB {}\n"
    DIALOG = "return document.getElementById('dialog').open && document.getElementById('dialog').textContent"

    def replacement(self, name, content, rows, way="replace"):
        """A file is to take the place of what was there."""
        self.file(name, content)
        self.fates(rows)
        self.browser.click(f"input[value={way}]")
        self.browser.wait("what would be gone", "return document.getElementById('gone')")
        self.rests()
        return self.seen("#gone")

    def gone(self):
        return set(self.browser.run("return [...document.querySelectorAll('#gone li')].map(it => it.textContent)"))

    def asked(self):
        """What the page asks when the file is to be sent."""
        self.browser.click("#carry-out")
        return self.browser.wait("a question", self.DIALOG)

    def test_placements(self):
        would = self.replacement("walk.csv", HEADER + "walkers,front_camera,17,AB,1,2\n", 1)
        self.see("what would be gone", "1 placement would be gone:walkers in slot 17 AB, base 0, repetition 2", would)
        asked = self.asked()
        self.see(f"it is asked for in {asked!r}", True, "1 placement would be gone" in asked and "walkers in slot 17 AB, base 0, repetition 2" in asked)
        self.browser.press("Cancel", "#dialog")
        self.rests()
        self.see("nothing is sent where it is not wanted", True, self.WALK.format("00 02") in self.frames())
        self.asked()
        self.browser.press("Replace", "#dialog")
        self.says("1 row of walk.csv took the place")
        self.see("the register has it", True, self.WALK.format("01 02") in self.frames())

    def test_signals(self):
        # signs has kind, limit and distance; a start is written with zeros before it too.
        rows = "signs,kind,00,6,little\nsigns,limit,8,7,little\n"
        layout = self.api.get(CAMERA, "variants/my29/frames/signs/layout")
        self.see("what is there", "0000 06 little kind\n0008 08 little limit\n0016 10 little distance\n", layout)
        would = self.replacement("signs.csv", SIGNALS + rows, 2)
        self.see("what would be gone", "2 signals would be gone:", would[:24])
        self.see("these", {"signs, limit: 8 bits from bit 8, little", "signs, distance: 10 bits from bit 16, little"}, self.gone())
        self.asked()
        self.browser.press("Replace", "#dialog")
        self.says("2 rows of signs.csv took the place")
        layout = self.api.get(CAMERA, "variants/my29/frames/signs/layout")
        self.see("the register has them", "0000 06 little kind\n0008 07 little limit\n", layout)

    def test_nothing_would_be_gone(self):
        """Where a file has all that its frames have it is not asked, and of the frames that it does not name nothing is said."""
        rows = "walkers,front_camera,17,AB,0,2\nwalkers,front_camera,12,A,2,8\n"
        would = self.replacement("more.csv", HEADER + rows, 2)
        self.see("what would be gone", "Nothing would be gone.", would)
        self.carried("2 rows of more.csv took the place")
        self.see("the register has both", True, "FRAME walkers front_camera\nAT 0012 A 02 08\nAT 0017 AB 00 02\n" in self.frames())

    def test_a_colleague(self):
        """What a colleague added meanwhile is not taken away unseen: nothing is sent, and what would be gone is shown anew."""
        self.replacement("walk.csv", HEADER + "walkers,front_camera,17,AB,1,2\n", 1)
        self.asked()
        place = {"do": "place", "variant": "my29", "frame": "walkers", "slot": 12, "channels": "A", "base": 2, "repetition": 8}
        self.see("a colleague places it too", {"ok": "done"}, self.api.command(CAMERA, **place))
        frames = self.frames()
        self.browser.press("Replace", "#dialog")
        told = self.says("Nothing was sent: what would be gone has changed meanwhile.")
        self.see(f"{told!r} says whose it is", True, "Somebody else changed 1 frame (walkers) meanwhile" in told)
        self.see("all is there still", frames, self.frames())
        gone = {"walkers in slot 12 A, base 2, repetition 8", "walkers in slot 17 AB, base 0, repetition 2"}
        self.see("what would be gone now", gone, self.gone())
        self.asked()
        self.browser.press("Replace", "#dialog")
        self.says("1 row of walk.csv took the place")
        self.see("the register has it", True, self.WALK.format("01 02") in self.frames())


class Whole(Replacements):
    """A file is all that there is of its kind: what it does not have is gone, once that was shown, asked for, and read once more."""

    FRAMES = "frame,node\n"

    def exported(self, kind):
        return self.api.get(CAMERA, f"variants/my29/exports/{kind}/0")

    def agreed(self, words):
        self.asked()
        self.browser.press("Replace", "#dialog")
        return self.says(words)

    def test_placements(self):
        placements, signals = self.exported("placements"), self.exported("signals")
        file = "".join(line for line in placements.splitlines(True) if not line.startswith(("signs,", "walkers,"))) + "walkers,front_camera,17,AB,1,2\n"
        would = self.replacement("week.csv", file, 8, "whole")
        self.see("how many would be gone", "3 placements would be gone:", would[:27])
        gone = {"signs in slot 12 A, base 0, repetition 8", "signs in slot 12 B, base 4, repetition 8", "walkers in slot 17 AB, base 0, repetition 2"}
        self.see("these", gone, self.gone())
        self.asked()
        self.browser.press("Cancel", "#dialog")
        self.rests()
        self.see("nothing is sent where it is not wanted", placements, self.exported("placements"))
        told = self.agreed("8 rows of week.csv are all placements now.")
        self.see(f"{told!r} tells of nobody else", False, "Somebody" in told)
        self.see("what is taken is what was sent", sorted(file.splitlines()), sorted(self.exported("placements").splitlines()))
        self.see("signals stay", signals, self.exported("signals"))
        would = self.replacement("week.csv", file, 8, "whole")
        self.see("of the same file", "Nothing would be gone.", would)
        self.carried("8 rows of week.csv are all placements now.")

    def test_signals(self):
        file = SIGNALS + "walkers,count,0,8,little\nsigns,kind,0,6,little\n"
        count = self.exported("signals").count("\n") - 1
        would = self.replacement("bits.csv", file, 2, "whole")
        self.see("how many would be gone", f"{count - 2} signals would be gone:", would[: len(f"{count - 2} signals would be gone:")])
        self.agreed("2 rows of bits.csv are all signals now.")
        self.see("what is taken", SIGNALS + "signs,kind,0,6,little\nwalkers,count,0,8,little\n", self.exported("signals"))

    def test_frames(self):
        """A frame is taken out, one is renamed, and a third one comes; with a frame go its placements and signals."""
        file = self.exported("frames").replace("walkers,front_camera\n", "").replace("signs,", "signs_2,") + "dusk,front_camera\n"
        would = self.replacement("frames.csv", file, 10, "whole")
        self.see("how many would be gone", "2 frames, 3 placements, 4 signals would be gone:", would[:48])
        self.see("some of these", True, {"signs, sent by front_camera", "walkers in slot 17 AB, base 0, repetition 2", "signs, limit: 8 bits from bit 8, little"} <= self.gone())
        told = self.agreed("10 rows of frames.csv are all frames now.")
        self.see(f"{told!r} tells of nobody else", False, "Somebody" in told)
        self.see("what is taken is what was sent", sorted(file.splitlines()), sorted(self.exported("frames").splitlines()))
        rest = [line.partition(",")[0] for kind in ("placements", "signals") for line in self.exported(kind).splitlines()[1:]]
        self.see("rows of frames that are gone", set(), {"signs", "signs_2", "walkers", "dusk"} & set(rest))
        self.see("rows of the others", 7 + 26, len(rest))

    def test_nothing_would_be_gone(self):
        file = self.exported("frames")
        self.see("what would be gone", "Nothing would be gone.", self.replacement("frames.csv", file, 10, "whole"))
        self.carried("10 rows of frames.csv are all frames now.")
        self.see("the same", file, self.exported("frames"))

    def test_all_would_be_gone(self):
        """Below a header alone all goes."""
        would = self.replacement("none.csv", HEADER, 0, "whole")
        self.see("how many would be gone", "10 placements would be gone:", would[:28])
        self.agreed("0 rows of none.csv are all placements now.")
        self.see("nothing is left", HEADER, self.exported("placements"))

    def test_a_colleague(self):
        """A row that a colleague added to a frame that would go is not taken away unseen; nor is a frame that is new."""
        file = self.exported("frames").replace("walkers,front_camera\n", "")
        self.replacement("frames.csv", file, 9, "whole")
        self.asked()
        place = {"do": "place", "variant": "my29", "frame": "walkers", "slot": 12, "channels": "A", "base": 2, "repetition": 8}
        self.see("a colleague places it too", {"ok": "done"}, self.api.command(CAMERA, **place))
        self.browser.press("Replace", "#dialog")
        told = self.says("Nothing was sent: what would be gone has changed meanwhile.")
        self.see(f"{told!r} says whose it is", True, "Somebody else changed 1 frame (walkers) meanwhile" in told)
        self.see("it is shown now", True, "walkers in slot 12 A, base 2, repetition 8" in self.gone())
        self.see("a colleague adds a frame", {"ok": "done"}, self.api.command(CAMERA, do="add_frame", variant="my29", frame="dusk", node="front_camera"))
        frames = self.frames()
        self.asked()
        self.browser.press("Replace", "#dialog")
        self.says("Nothing was sent: what would be gone has changed meanwhile.")
        self.see("all is there still", frames, self.frames())
        self.see("the new one is shown", True, "dusk, sent by front_camera" in self.gone())
        self.agreed("9 rows of frames.csv are all frames now.")
        self.see("what is taken", file, self.exported("frames"))

    def test_last_week(self):
        """Three files that were taken bring back what was there then."""
        last_week = {kind: self.exported(kind) for kind in ("frames", "placements", "signals")}
        for lines in {"do": "drop_frame", "frame": "signs"}, {"do": "add_frame", "frame": "dusk", "node": "front_camera"}, {"do": "drop_signal", "frame": "walkers", "signal": "count"}:
            self.see("a week's work", {"ok": "done"}, self.api.command(CAMERA, variant="my29", **lines))
        for kind, file in last_week.items():
            rows = file.count("\n") - 1
            would = self.replacement(f"{kind}.csv", file, rows, "whole")
            if would == "Nothing would be gone.":
                self.carried(f"{rows} rows of {kind}.csv are all {kind} now.")
            else:
                self.agreed(f"{rows} rows of {kind}.csv are all {kind} now.")
        self.see("it is last week's", last_week, {kind: self.exported(kind) for kind in last_week})

    def test_what_is_sent(self):
        """A file that is sent whole goes by the routes for that alone, and rows are read before it goes."""
        self.replacement("none.csv", SIGNALS, 0, "whole")
        self.browser.requests()
        self.agreed("0 rows of none.csv are all signals now.")
        paths = [(it["method"], it["url"].partition("/v1/")[2]) for it in self.browser.requests() if "/v1/" in it["url"]]
        self.see("what is asked", [("GET", "variants/my29/rows"), ("PUT", "variants/my29/rows/whole"), ("GET", "variants/my29/rows")], paths)


class OfSpreadsheets(FileCase):
    """Files as spreadsheets write them are named, and mended by a click where it is sure what is meant."""

    def tells(self, name, content, words, mend=None):
        """The page says these words of the file. Where it mends it by a click, the rows would then be carried out."""
        self.file(name, content)
        self.see(f"{name}: {self.told()!r:.200} says {words!r}", True, words in self.told())
        if mend:
            self.browser.press(mend, "#view-files")
            self.rests()
        offered = self.browser.run("const it = document.getElementById('carry-out'); return Boolean(it && !it.disabled)")
        self.see(f"{name} can be sent", mend is not None, offered)
        self.see(f"{name}: its rows would be carried out", mend is not None, WOULD in self.told())

    def test_files(self):
        text = (HEADER + ROWS).replace("\n", "\r\n")
        self.tells("mark.csv", b"\xef\xbb\xbf" + text.encode(), "begins with a byte order mark", mend="")
        self.tells("semicolons.csv", text.replace(",", ";"), "separated by semicolons", mend="Turn")
        self.tells("tabs.txt", text.replace(",", "\t"), "separated by tabs", mend="Turn")
        self.tells("capitals.csv", text.replace("frame,node", "Frame, Node"), "no capitals, no spaces", mend="Mend")
        self.tells("book.xlsx", b"PK\x03\x04\x14\x00\x06\x00rest", "This is a workbook, not a CSV file. It cannot be read")
        self.tells("other.csv", "id;name\n1;2\n", "no header that the register knows")
        self.tells("empty.csv", "", "The file is empty.")
        self.tells("latin.csv", HEADER.encode() + b"b\xe4r,front_camera,17,A,1,4\n", "not UTF-8")
        self.see("none of them was sent", False, "glare" in self.frames())

    def test_more_of_excel(self):
        """Text in UTF-16, first lines for spreadsheets alone, blank rows, empty columns behind the others, and a workbook."""
        self.tells("unicode.txt", (HEADER + ROWS).replace(",", "\t").encode("utf-16"), "UTF-16", mend="Turn")
        self.tells("hint.csv", "sep=;\r\n" + (HEADER + ROWS).replace(",", ";"), "separated by semicolons", mend="Turn")
        self.tells("loaded.csv", "Spalte1;Spalte2;Spalte3;Spalte4;Spalte5;Spalte6\r\n" + (HEADER + ROWS).replace(",", ";"), "numbered names", mend="Turn")
        self.tells("blank.csv", HEADER + ROWS.replace("\n", "\n,,,,,\n", 1), "nothing in it", mend="Mend")
        self.tells("wide.csv", (HEADER + ROWS).replace("\n", ",,\n"), "Empty columns", mend="Mend")
        book = workbook([line.split(",") for line in (HEADER + ROWS).splitlines()])
        self.tells("weeks.xlsx", book, "Its sheet slots & cycles has rows", mend="Take the sheet")
        self.browser.click("#carry-out")
        self.says("2 rows of weeks.xlsx imported under the label weeks.")
        self.see("the register has them", True, "FRAME rain front_camera\nAT 0017 B 01 04\n" in self.frames())

    def test_of_libreoffice(self):
        """A workbook has a cell or a row once that stands there several times in turn, and a remark on a cell within it."""
        self.tells("old.xls", b"\xd0\xcf\x11\xe0\xa1\xb1\x1a\xe1" + bytes(504), "of an older form (.xls). Save its sheet as CSV")
        records = [line.split(",") for line in (HEADER + ROWS).splitlines()]
        self.tells("weeks.ods", open_workbook(records), "Its sheet slots & cycles has rows", mend="Take the sheet")
        self.browser.click("#carry-out")
        self.says("2 rows of weeks.ods imported under the label weeks.")
        self.see("the register has them", True, "FRAME rain front_camera\nAT 0017 B 01 04\n" in self.frames())
        self.file("twice.ods", open_workbook([*records, records[2]]))
        self.browser.press("Take the sheet", "#view-files")
        fates = self.fates(3)
        self.see("a row that stands there twice is two", [True] * 3, ["CellTaken (25)" in fate for fate in fates])
        self.tells("many.ods", open_workbook(records[:2] + records[2:] * 20_001), "It cannot be read: A sheet of it has more than")

    def test_columns(self):
        """Columns in another order, or beside others, are taken by their names where these can mean one thing alone."""
        order = "Slot;Remark;Node;Frame;Channels;Base;Repetition\n17;\"left; right\";front_camera;glare;A;1;4\n17;;front_camera;rain;B;1;4\n"
        self.tells("order.csv", order, "in another order, or beside others", mend="Turn")
        self.see("each in its place", ["2", *ROWS.split("\n")[0].split(",")], self.table("#view-files")[0][:7])
        for name, text in {
            "a slip": (HEADER + ROWS).replace("channels", "channel"),
            "twice": HEADER.replace("\n", ",Base\n") + ROWS.replace("\n", ",2\n"),
            "too long": HEADER.replace("\n", ",remark\n") + ROWS.replace("\n", ",left, right\n"),
            "frames": "frame,node,remark\nglare,front_camera,\n",
        }.items():
            self.tells(f"{name}.csv", text, "no header that the register knows")
        self.tells("all.csv", HEADER.replace("\n", ",supplier\n") + ROWS.replace("\n", ",camtech\n"), "a file of the integrator's")

    def test_slips(self):
        """Of a row that no register takes the field is told."""
        rows = {"low-beam,front_camera,17,A,1,4": 'frame is "low-beam".', "glare,front_camera,17.0,A,1,4": 'slot is "17.0".',
                "glare,front_camera,17,A,,4": 'base is "".', "glare,front_camera,17,A,1": "5 fields, in the header 6."}
        self.file("slips.csv", HEADER + "\n".join(rows))
        for fate, words in zip(self.fates(4), rows.values()):
            self.see(f"{fate!r} says {words}", True, fate.endswith(words))


class ManyRows(FileCase):
    """Files of more than 512 rows go in parts of whole frames, and an export of several parts comes as one file."""

    PARTS = (1, 480), (2, 480), (3, 240)

    def next_part(self, shown):
        """The next part was tried, and can be sent."""
        self.browser.wait("the next part", f"const go = document.getElementById('carry-out'); return {shown} && go && !go.disabled")
        self.rests()

    def has_all(self, what):
        """The register has all rows. Gives its export's parts."""
        parts = [self.api.get(CAMERA, f"variants/my29/exports/signals/{part}").splitlines(True) for part in range(4)]
        self.see(f"the rows that were {what}", 1200, sum(row.startswith("many_") for part in parts for row in part))
        return parts

    def test_parts(self):
        frames = [f"many_{number:02}" for number in range(20)]
        self.file("frames.csv", "frame,node\n" + "".join(f"{frame},front_camera\n" for frame in frames))
        self.fates(20)
        self.carried("20 rows")
        # 60 signals of a bit each, those of a frame far apart: a part of 512 rows has 8 such frames.
        rows = SIGNALS + "".join(f"{frame},bit_{bit:02},{bit},1,little\n" for bit in range(60) for frame in frames)
        self.file("signals.csv", rows)
        self.see("it goes in parts", True, "in 3 parts" in self.told())
        self.see("a part is not sent whole", [], self.browser.run("return [...document.querySelectorAll('input[value=whole]')]"))
        for number, count in self.PARTS:
            self.next_part(f"document.getElementById('label')?.value === 'signals_{number}'")
            self.carried(f"{count} rows of signals.csv imported")
        self.has_all("imported")
        # The same rows in their own place: no part takes away what another one brought.
        self.file("signals.csv", rows)
        self.browser.click("input[value=replace]")
        for number, count in self.PARTS:
            self.next_part(f"document.getElementById('view-files').textContent.includes('this is part {number}')")
            self.carried(f"{count} rows of signals.csv took the place")
        parts = self.has_all("replaced")
        self.browser.press("signals.csv", "#view-files")
        self.see("the export is whole", SIGNALS + "".join(row for part in parts for row in part[1:]), self.browser.taken("my29_signals.csv"))


class Exports(FileCase):
    """What the page gives to take away is what the register's routes give."""

    def test_exports(self):
        for kind in "frames", "placements", "signals":
            self.browser.press(f"{kind}.csv", "#view-files")
            self.see(kind, self.api.get(CAMERA, f"variants/my29/exports/{kind}/0"), self.browser.taken(f"my29_{kind}.csv"))
        self.browser.press("picture.html", "#view-files")
        self.see("the picture", self.api.get(CAMERA, "variants/my29/picture"), self.browser.taken("my29.html"))


class Differences(PlannerCase):
    """The rows in which two variants differ stand in a table, and are marked in the plan."""

    def setUp(self):
        super().setUp()
        self.plan(CLUSTER, REQUESTS)

    def compared(self, key):
        browser = self.enter(key)
        self.view("diff")
        browser.choose("#from", "my28")
        browser.press("Compare", "#view-diff")
        self.rests()
        return browser

    def test_table(self):
        """camtech sees what was typed by hand; the integrator the same, with the supplier in each row."""
        self.see("what was typed is what the register tells", CHANGED, self.api.get(CAMERA, "variants/my29/since/my28"))
        words = {"GRANT": "grant", "FRAME": "frame", "AT": "placement", "SIGNAL": "signal", "GAP": "gap"}
        wanted = [(line[0] == "+", words[line.split()[1]]) for line in CHANGED.splitlines()]
        for key in CAMERA, BOSS:
            self.compared(key)
            rows = self.table("#view-diff")
            self.see(f"signs and kinds of {key}", wanted, [(row[0].startswith("+"), row[1]) for row in rows])
            self.see("each row is some supplier's", key == BOSS, all("camtech" in row for row in rows))
        for words in "slot 13 B, base 0, repetition 4", "count: 8 bits from bit 0, little", "80,000 macroticks", "sent by front_camera":
            self.see(f"a row has {words}", True, any(words in cell for row in rows for cell in row))

    def test_marks(self):
        """The cells that are new and those that are gone are told as such, also those that are both sent in both."""
        browser = self.compared(CAMERA)
        browser.press("Mark it in the plan", "#view-diff")
        told = self.cells()
        new = {it.partition(":")[0] for it in told if "New since my28" in it}
        gone = {it.partition(":")[0] for it in told if "In my28" in it}
        # walkers is new in slot 17 on A and B; camera_status was in 12 A at 4 of 16, and free_space in 13 B at 0 of 2, now 0 of 4.
        self.see("new", {f"Cycle {cycle}, slot 17 {channel}" for cycle in range(0, 64, 2) for channel in "AB"}, {it for it in new if "slot 17" in it})
        lost = {f"Cycle {cycle}, slot 12 A" for cycle in range(4, 64, 16)} | {f"Cycle {cycle}, slot 13 B" for cycle in range(2, 64, 4)}
        self.see("gone", lost, {it for it in gone if "slot 13" not in it or int(it.split()[1].strip(",")) % 4})
        browser.press("Differences", "#tabs")
        browser.press("Forget it", "#view-diff")
        self.view("plan")
        self.see("marks that are left", [], [it for it in self.cells() if "since my28" in it or "In my28" in it])

    def test_none(self):
        """A variant that was just opened differs in nothing."""
        self.see("my29 is released", {"ok": "done"}, self.api.command(BOSS, do="release", variant="my29"))
        self.see("my30 is opened", {"ok": "done"}, self.api.command(BOSS, do="open_variant", variant="my30", **{"from": "my29"}))
        browser = self.enter(CAMERA)
        self.view("diff")
        browser.choose("#from", "my29")
        browser.press("Compare", "#view-diff")
        self.rests()
        self.see("nothing differs", True, "Nothing differs." in self.seen("#view-diff"))
