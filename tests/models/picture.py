"""A page of `slotplan picture`, read by python3's html.parser and compared with the lines of the reports. The tests of pictures and tools/look.py use it.

The page's rectangles are read as cells: a lane is found by where it stands, its frame by its title."""
import re
from collections import Counter
from html.parser import HTMLParser
from itertools import combinations

BOX = re.compile(r"M(\d+) (\d+)h(\d+)v(\d+)h-(\d+)z")
TITLE = re.compile(r"(\w+)\n(\w+) of (\w+)\n(\d+) ([AB]) (?:(\d+/\d+)|cycles((?: [\d-]+)+))")
HELD = re.compile(r"(\w+) of (\w+)\n(\d+) ([AB])")
GAP = re.compile(r"(nobody holds|not yours) (\d+)(?: to (\d+))?")
KEY = re.compile(r"([a-h]\d?) (\w+): lanes (\d+), cells (\d+), sent in (\d+) of them \((\d+) %\)")
SENT = re.compile(r"(?:(\d+/\d+)|cycles((?: [\d-]+)+)) (\w+)")
# A colour of the page's style: of lanes, and of the legend.
COLOUR = re.compile(r"\.c(\d)\{fill:#(\w{6});background:#(\w{6});")
# The other shade of a colour, of frames that begin in an odd cycle.
SHADE = re.compile(r"\.c(\d) \.o\{fill:#(\w{6})\}")
# The patterns over the colours of suppliers behind the first eight: in the drawing, where they are used there, and in the legend.
PATTERN = re.compile(r"<pattern id=t(\d)( .*?)</pattern>")
OVER = re.compile(r"^\.t(\d)\{--p:url\(#t(\d)\)\}$", re.M)
KEYED = re.compile(r"^i\.t(\d)\{(background-image:.*)\}$", re.M)
# How high a part is on paper, in millimetres: so much for each unit of its height. A sheet of A4 that lies on its side has 186 between its margins, of
# which a heading takes 13. A part is as wide as the sheet, 277, and so 138 units are.
PAPER, LEFT = re.compile(r"^@media print\{\.plan>svg\{height:calc\((\d+)\*2\.5mm\)\}\}$", re.M), 186 - 13
# Where the lanes of a part begin; where channel B stands further right, where the cluster has both; and how narrow and how wide a lane may be.
START, SHIFT, NARROW, WIDE = 4, 68, 2, 12


def boxes(path):
    """The rectangles of a path: from where on across and down, how wide and how high."""
    assert BOX.sub("", path) == "", path
    found = [tuple(map(int, box)) for box in BOX.findall(path)]
    assert all(width == back for _, _, width, _, back in found), path
    return [box[:4] for box in found]


def mark_of(place):
    """The mark of the supplier at this place: a letter, and behind the first eight a number."""
    return "abcdefgh"[place % 8] + (str(place // 8) if place > 7 else "")


def look_of(place):
    """The classes of the supplier at this place: its colour, and behind the first eight a pattern."""
    return f"c{place % 8}" + (f" t{place // 8}" if place > 7 else "")


class Part:
    """A part of the drawing: its heading, its name where it is shown small, and its lanes, the attributes of each with its title and its shapes."""

    def __init__(self, heading, given):
        self.heading, self.given, self.group, self.lanes = heading, given, None, []


class Page(HTMLParser):
    """The parts of a page, its legend, index and tables, and where its links lead. Each shape of a lane, and of a link in it, has its attributes and text."""

    def __init__(self, text):
        super().__init__()
        self.shapes = {}  # by their names, as lists of rectangles
        self.parts, self.small, self.keys, self.index, self.tables, self.text = [], [], [], [], [], ""
        self.ids, self.links, self.headings = [], [], {}
        self.metas, self.backs = {}, {}  # what the page says of itself; by its row, where each placement of a frame leads
        self.open = []
        self.hatched = []  # the cycles, each by one more, that have a line across in a granted lane
        self.lane = self.link = self.change = self.shape = self.heading = self.titled = None
        self.boxed, self.named = False, None
        self.feed(text)
        self.close()

    def handle_starttag(self, tag, attributes):
        given = dict(attributes)
        assert not {"src", "onload", "onclick"} & set(given) and tag != "script", tag
        assert given.get("href", "#").startswith("#"), given
        # Tags that the page does not close end where the next of their kind begins.
        ends = {"td": ("td", "th"), "th": ("td", "th"), "tr": ("td", "th", "tr", "thead"), "tbody": ("td", "th", "tr", "thead"), "li": ("li",)}.get(tag, ())
        while self.open and self.open[-1] in ends and (tag, self.open[-1]) != ("tr", "thead"):
            self.open.pop()
        if tag not in ("br", "meta", "html"):
            self.open.append(tag)
        self.ids += [given["id"]] if "id" in given else []
        self.links += [given[name].lstrip("#") for name in ("href", "aria-labelledby") if name in given]
        if tag == "h2":
            self.titled = given.get("id")
            self.heading = self.titled or self.heading
            self.headings |= {self.titled: ""} if self.titled else {}
        elif tag == "div" and given.get("class") == "plan":
            assert "tabindex" in given and given["aria-labelledby"] == self.heading, given
            self.boxed = True
        elif tag == "svg" and self.boxed:
            # What it has can be focused, so it is no image.
            assert given["role"] == "none", given
            self.boxed = False
            self.parts.append(Part(self.heading, given))
        elif tag == "g" and self.lane is not None:
            self.change = {**given, "title": "", "shapes": []}
            self.lane["changes"].append(self.change)
        elif tag == "g" and self.parts and not self.tables:
            self.parts[-1].group = given["id"]
        elif tag == "a" and "nav" in self.open:
            self.small.append([given["href"], None, ""])
        elif tag == "use" and "nav" in self.open:
            self.small[-1][1] = given["href"]
        elif tag == "g" and given.get("id", "").isdigit():
            self.named = given["id"]
        elif tag == "path" and self.named:
            # Over each shape stands that of a pattern, the same.
            assert given.get("class") == (None, "h")[self.named in self.shapes], given
            assert self.shapes.setdefault(self.named, boxes(given["d"])) == boxes(given["d"]), given
        elif tag == "path" and "g" in self.open and "pattern" not in self.open and not self.parts and "id" not in given:
            self.hatched += [int(y) for y in re.findall(r"M0 (\d+)l\d+-1", given["d"])]
        elif self.parts and tag == "svg" and not self.tables:
            self.lane = {"tag": tag, **given, "title": "", "shapes": [], "links": [], "changes": []}
            self.parts[-1].lanes.append(self.lane)
        elif self.lane is not None and tag == "a":
            self.link = {**given, "title": "", "shapes": []}
            self.lane["links"].append(self.link)
        elif self.lane is not None and tag in ("use", "path", "text"):
            self.shape = {"tag": tag, **given, "text": ""}
            (self.change or self.link or self.lane)["shapes"].append(self.shape)
        elif tag == "meta":
            self.metas |= {given["name"]: given["content"]} if "name" in given else {}
        elif tag == "a" and "td" in self.open:
            self.backs.setdefault(self.tables[-1][-1][0], []).append(given["href"])
        elif tag == "ul":
            self.list = self.index if given.get("class") == "index" else self.keys
        elif tag == "li":
            self.list.append(["", ""])
        elif tag in ("a", "i") and "li" in self.open:
            self.list[-1][1] = given["href" if tag == "a" else "class"]
        elif tag == "table":
            self.tables.append([])
        elif tag == "tr":
            self.tables[-1].append([given.get("id", "")])
        elif tag in ("td", "th"):
            self.tables[-1][-1].append("")
        elif tag == "path" and self.tables:
            self.tables[-1][-1] += [given["d"], ""]

    def handle_startendtag(self, tag, attributes):
        self.handle_starttag(tag, attributes)
        self.handle_endtag(tag)

    def handle_endtag(self, tag):
        while tag in self.open and self.open.pop() != tag:
            pass
        if tag in ("use", "path", "text"):
            self.shape = None
        elif tag == "g":
            self.named = self.change = None
        elif tag == "a":
            self.link = None
        elif tag == "svg":
            self.lane = None

    def handle_data(self, data):
        inside = self.open
        if "td" in inside or "th" in inside:
            self.tables[-1][-1][-1] += data
        elif "li" in inside:
            self.list[-1][0] += data
        elif "nav" in inside and "a" in inside:
            self.small[-1][2] += data
        elif "h2" in inside and self.titled:
            self.headings[self.titled] += data
        elif self.shape is not None:
            self.shape["text"] += data
        elif self.lane is not None:
            assert "title" in inside, data
            (self.change or self.link or self.lane)["title"] += data
        elif "style" not in inside:
            self.text += data


class Lane:
    """What a page shows of one slot and channel: its holder, its marks above and below, and its rectangles."""

    def __init__(self):
        self.holders, self.kinds, self.marks = [], [], []


def cycles_of(words, count):
    """The cycles that a title names: base and repetition, or single cycles and runs of them."""
    cycles = []
    for word in words.split():
        if "/" in word:
            base, repetition = map(int, word.split("/"))
            cycles += range(base, count, repetition)
        else:
            first, _, last = word.partition("-")
            cycles += range(int(first), int(last or first) + 1)
    return cycles


def read(text, channels, count):
    """The page, its lanes by slot and channel, its gaps with what is said of them, its crossed lanes, and the first slots of its parts. Says
    with an AssertionError where the page contradicts itself."""
    page = Page(text)
    lanes, gaps, free, firsts = {}, set(), set(), []
    assert len(page.ids) == len(set(page.ids)) and set(page.links) <= set(page.ids), sorted(set(page.links) - set(page.ids))
    for part in page.parts:
        columns, shown = {}, set()
        for drawn in part.lanes:
            for shape in drawn["shapes"]:
                if shape["tag"] == "text" and shape["y"] == "-2":
                    columns[int(drawn["x"])] = int(shape["text"])
        # Lanes stand one beside the other, and have room for their rectangles.
        places = sorted(int(drawn["x"]) for drawn in part.lanes)
        for drawn in part.lanes:
            x = int(drawn["x"])
            here = (columns.get(x), "B" if channels == "B" or x > SHIFT else "A")
            for shape in drawn["shapes"]:
                if shape["tag"] == "text" and GAP.fullmatch(shape["text"]):
                    said, first, last = GAP.fullmatch(shape["text"]).groups()
                    gaps.add((int(first), int(last or first), said))
                    shown.add(int(first))
                elif shape["tag"] == "text" and shape["y"] in ("-1", str(count)) and here in lanes and len(lanes[here].marks) < 2:
                    lanes[here].marks.append((shape["y"], shape["text"]))
                elif shape.get("href") == "#free":
                    free.add(here)
                elif shape.get("href") == "#held":
                    node, supplier, slot, channel = HELD.fullmatch(drawn["title"]).groups()
                    assert (int(slot), channel) == here, drawn
                    lanes.setdefault(here, Lane()).holders.append((node, supplier))
            for link in drawn["links"]:
                frame, node, supplier, slot, channel, repeated, single = TITLE.fullmatch(link["title"]).groups()
                labels = [it for it in link["shapes"] if it["tag"] == "text"]
                shape, *over = (it for it in link["shapes"] if it["tag"] != "text")
                assert over == ([] if shape["tag"] == "use" else [{**shape, "class": "h"}]), link
                if shape["tag"] == "use":
                    rectangles = [(bx, int(shape.get("y", 0)) + by, bw, bh) for bx, by, bw, bh in page.shapes[shape["href"][1:]]]
                else:
                    rectangles = boxes(shape["d"])
                assert (int(slot), channel) == here, link
                assert all(bx == 0 and not [at for at in places if x < at < x + bw] for bx, _, bw, _ in rectangles), link
                told = sorted(cycles_of(repeated or single, count))
                assert told == sorted(c for _, y, _, high in rectangles for c in range(y, y + high)), link
                number = number_of(link, here, labels, min(rectangles, key=lambda box: box[1]), frame)
                assert link.get("class") == (None, "o")[told[0] % 2], link
                lanes.setdefault(here, Lane()).kinds.append((frame, node, supplier, drawn["class"], [(y, high) for _, y, _, high in rectangles], number))
        firsts.append(min(shown | set(columns.values())))
    # Each part has its heading; where there are more, the overview shows each and leads to it.
    assert [page.headings[part.heading].split(": ")[1] for part in page.parts] == [f"slots from {first} on" for first in firsts], page.headings
    small = [(f"#{part.heading}", f"#{part.group}", f"from {first}") for part, first in zip(page.parts, firsts)]
    assert [(to, what, said.strip()) for to, what, said in page.small] == (small if len(small) > 1 else []), page.small
    return page, lanes, gaps, free


def changes_of(page, channels):
    """What the drawing marks as new or gone, by slot and channel: its class, its title, its cycles, and in which of them stands which sign."""
    found = {}
    for part in page.parts:
        columns = {int(lane["x"]): int(shape["text"]) for lane in part.lanes for shape in lane["shapes"] if shape["tag"] == "text" and shape["y"] == "-2"}
        for lane in part.lanes:
            x = int(lane["x"])
            for change in lane["changes"]:
                *cells, sign = change["shapes"]
                assert (sign["tag"], sign["class"]) == ("text", "sign") and sign["x"] == str(page.shapes["1"][0][2]), change
                down = [(int(shape.get("y", 0)), page.shapes[shape["href"][1:]]) for shape in cells]
                cycles = sorted(c for y, boxes_of in down for _, by, _, high in boxes_of for c in range(y + by, y + by + high))
                here = (columns[x], "B" if channels == "B" or x > SHIFT else "A")
                found.setdefault(here, []).append((change["class"], change["title"], cycles, (int(sign["y"]), sign["text"])))
    return found


def number_of(link, here, labels, first, frame):
    """The number of the row to which a frame's rectangles lead. It stands in the first of them, and the frame's name beside it, or down below it."""
    number = link["href"].removeprefix("#r")
    assert link["id"] == f"{here[0]}{here[1]}{number}", link
    (said, at), *more = [(label["text"].split(" "), int(label["y"])) for label in labels]
    _, top, _, high = first
    assert at == top and said in ([number], [number, frame]), link
    assert not more or more == [([frame], top + 1)] and said == [number] and high > 1, link
    return int(number)


def bits_of(start, length, order):
    """The payload bits of a signal: in big order one down within a byte, and then the highest bit of the next byte."""
    bits, at = [], start
    for _ in range(length):
        bits.append(at)
        at = at + 1 if order == "little" else at - 1 if at % 8 else at + 15
    return set(bits)


class Difference:
    """What differs, a line for each."""

    def __init__(self):
        self.lines = []

    def same(self, what, wanted, got):
        if wanted != got and isinstance(wanted, list):
            missing, more = Counter(map(repr, wanted)), Counter(map(repr, got))
            missing, more = list((missing - more).elements()), list((more - missing).elements())
            self.lines.append(f"{what}: {len(missing)} are missing: {missing[:4]}; {len(more)} are too many: {more[:4]}; or their order differs")
        elif wanted != got:
            self.lines.append(f"{what}: wanted {wanted!r}, got {got!r}")


def compare(text, plan):
    """Compares a page with a plan: its channels, slots, cycles, suppliers, grants, cells, frames with gaps, and layouts, and the supplier whose page it
    is, as a dict. Gives what differs, a line for each."""
    try:
        page, lanes, gaps, free = read(text, plan["channels"], plan["cycles"])
    except (AssertionError, KeyError, AttributeError, ValueError) as fault:
        return [f"the page contradicts itself: {type(fault).__name__} {fault}"]
    found = Difference()
    compare_drawing(found.same, page, lanes, gaps, free, plan)
    compare_columns(found.same, page, plan)
    compare_colours(found.same, text)
    compare_patterns(found.same, text)
    marks = {supplier: mark_of(place) for place, supplier in enumerate(plan["suppliers"])}
    compare_suppliers(found.same, page, lanes, marks, plan)
    compare_slots(found.same, page, marks, plan)
    compare_frames(found.same, page, marks, plan)
    compare_ways(found.same, page, lanes)
    compare_sheets(found.same, page, text, plan)
    found.same("what a narrow screen is told", "width=device-width,initial-scale=1", page.metas.get("viewport"))
    return found.lines


def compare_drawing(same, page, lanes, gaps, free, plan):
    """The drawing has the plan's cells and grants, and the rest of the slots as gaps and crossed lanes."""
    same("the cycles in which a granted lane is hatched", list(range(1, plan["cycles"] + 1)), page.hatched)
    drawn = [(c, slot, channel, frame, node, supplier) for (slot, channel), lane in lanes.items() for frame, node, supplier, _, runs, _ in lane.kinds for y, high in runs for c in range(y, y + high)]
    same("the cells", sorted(plan["cells"]), sorted(drawn))
    held = [(slot, channel, node, supplier) for (slot, channel), lane in lanes.items() for node, supplier in lane.holders]
    same("the grants", sorted(plan["grants"]), sorted(held))
    for (slot, channel), lane in lanes.items():
        for frame, _, supplier, _, runs, _ in lane.kinds:
            ends = {y + high for y, high in runs}
            same(f"rectangles of {frame} in slot {slot} on {channel} that could be one", [], [y for y, _ in runs if y in ends])
        names = [kind[0::2][:2] for kind in lane.kinds]
        same(f"frames of slot {slot} on {channel} that are drawn twice", [], [name for name in names if names.count(name) > 1])
    # Slots of which there is no grant and in which nothing is sent: runs of them are gaps, and lanes of the others may be crossed.
    shown = {slot for slot, _, _, _ in plan["grants"]} | {cell[1] for cell in plan["cells"]}
    said = "not yours" if plan["viewer"] else "nobody holds"
    runs, slot = [], 1
    while slot <= plan["slots"]:
        end = slot
        while end <= plan["slots"] and end not in shown:
            end += 1
        if end > slot:
            runs.append((slot, end - 1, said))
        slot = end + 1
    same("the gaps", runs, sorted(gaps))
    granted = {grant[:2] for grant in plan["grants"]}
    same("the crossed lanes", sorted((s, c) for s in shown for c in plan["channels"] if (s, c) not in granted), sorted(free))


def columns_of(part, width, end):
    """The columns of a part, each with where it stands and how wide it is."""
    gaps = {int(lane["x"]): any(GAP.fullmatch(shape["text"]) for shape in lane["shapes"]) for lane in part.lanes}
    return [(x, 1 if is_gap else width) for x, is_gap in sorted(gaps.items()) if x < end]


def compare_columns(same, page, plan):
    """Lanes are as wide as one part has room for. Where even narrow ones are too many, a part ends where the next column has no room in it."""
    width, end = page.shapes["1"][0][2], SHIFT if plan["channels"] == "AB" else 2 * SHIFT
    parts = [columns_of(part, width, end) for part in page.parts]
    shown = {grant[0] for grant in plan["grants"]} | {cell[1] for cell in plan["cells"]}
    gaps = sum(len(part) for part in parts) - len(shown)
    fitting = [wide for wide in range(NARROW, WIDE + 1) if START + len(shown) * wide + gaps <= end]
    same("how wide a lane is", max(fitting, default=NARROW), width)
    for (*_, (x, wide)), ((_, more), *_) in zip(parts, parts[1:]):
        same("a part ends where the next column has no room", True, x + wide + more > end)


def compare_colours(same, text):
    """Each letter has a colour of its own, the same in the drawing and in the legend. Two differ in red, green or blue by a fifth of what they may. Each
    has another shade, which differs from it as much, and from all else by an eighth."""
    colours = COLOUR.findall(text)
    same("the colours of the legend", [(place, fill) for place, fill, _ in colours], [(place, ground) for place, _, ground in colours])
    same("whose colours they are", [str(place) for place in range(8)], [place for place, _, _ in colours])
    parts = [bytes.fromhex(fill) for _, fill, _ in colours]
    shades = [bytes.fromhex(fill) for _, fill in SHADE.findall(text)]
    apart = lambda one, other: max(abs(a - b) for a, b in zip(one, other))
    same("colours that are alike", [], [pair for pair in combinations(parts, 2) if apart(*pair) < 50])
    same("whose shades they are", [str(place) for place in range(8)], [place for place, _ in SHADE.findall(text)])
    same("shades that are like their colour", [], [pair for pair in zip(parts, shades) if apart(*pair) < 50])
    same("shades that are alike, or like a colour", [], [pair for pair in combinations(parts + shades, 2) if apart(*pair) < 32])


def compare_patterns(same, text):
    """There are seven patterns, so that each of 64 suppliers has its own look, and each is one of the drawing and one of the legend, unlike the others."""
    drawn, used, keyed = PATTERN.findall(text), OVER.findall(text), KEYED.findall(text)
    numbers = list("1234567")
    same("the patterns", [numbers, [(n, n) for n in numbers], numbers], [[n for n, _ in drawn], used, [n for n, _ in keyed]])
    same("patterns that are alike", (7, 7), (len({look for _, look in drawn}), len({look for _, look in keyed})))


def compare_suppliers(same, page, lanes, marks, plan):
    """Each supplier has its mark and its colour by its place among all, in the legend and above and below its lanes."""
    keys = [KEY.fullmatch(text.strip()) for text, _ in page.keys]
    same("the suppliers and marks of the legend", [(mark, name) for name, mark in marks.items()], [key.groups()[:2] for key in keys if key])
    for key in filter(None, keys):
        lanes_held = sum(g[3] == key[2] for g in plan["grants"])
        sent = sum(cell[5] == key[2] for cell in plan["cells"])
        room = lanes_held * plan["cycles"]
        same(f"how full the grants of {key[2]} are", (lanes_held, room, sent, sent * 100 // room if room else 0), tuple(map(int, key.groups()[2:])))
    looks = {supplier: look_of(place) for place, supplier in enumerate(plan["suppliers"])}
    same("the looks of the legend", list(looks.values()), [look for _, look in page.keys])
    both = lambda mark: [("-1", mark), (str(plan["cycles"]), mark)]
    same("marks above and below lanes", [], [at for at, lane in lanes.items() for _, supplier in lane.holders if lane.marks != both(marks.get(supplier))])
    same("looks", [], [kind for lane in lanes.values() for kind in lane.kinds if kind[3] != looks[kind[2]]])


def compare_slots(same, page, marks, plan):
    """The table of slots: each grant, with what is sent there, the frame of the earliest cycle first, and how many cells are used."""
    sent = {}
    for cycle, slot, channel, frame, node, supplier in sorted(plan["cells"]):
        sent.setdefault((slot, channel), {}).setdefault(frame, []).append(cycle)
    wanted = []
    for slot, channel, node, supplier in sorted(plan["grants"]):
        here = sent.get((slot, channel), {})
        wanted.append((f"{slot} {channel}", f"{marks[supplier]} {node} of {supplier}", list(here.items()), f"{sum(map(len, here.values()))} of {plan['cycles']}"))
    got = []
    for _, lane, holder, said, load in page.tables[0][2:]:
        frames = [SENT.fullmatch(one.strip()).groups() for one in said.split(",") if one.strip()]
        got.append((lane, holder, [(frame, sorted(cycles_of(repeated or single, plan["cycles"]))) for repeated, single, frame in frames], load.strip()))
    same("the table of slots", wanted, got)


def compare_frames(same, page, marks, plan):
    """The table of frames: each with its number, placements, gap and signals, the worst first; and the index, by name."""
    got, gaps_told, numbers = [], [], []
    for row, number, name, node, supplier, placed, gap, _, *strip in page.tables[1][2:]:
        path, names = strip or ("", "")
        placements = tuple(tuple(line.split()) for line in placed.split("\n") if line)
        signals = names.split()
        got.append((name, node, supplier, placements, gap.strip()))
        numbers.append((row, number))
        gaps_told.append(2**32 if gap.strip() == "never" else int(gap))
        runs = [tuple(map(int, run)) for run in re.findall(r"M(\d+),[39]h(\d+)", path)]
        filled = [bit for start, length in runs for bit in range(start, start + length)]
        layout = plan["layouts"].get((supplier, name), [])
        same(f"the signals of {supplier}'s {name}", [f"{n}:{s}+{l}{'big' if o == 'big' else ''}" for n, s, l, o in layout], signals)
        same(f"the bits of {supplier}'s {name}", sorted(bit for n, s, l, o in layout for bit in bits_of(s, l, o)), sorted(filled))
    wanted = [(name, node, supplier, tuple(placements), gap) for name, node, supplier, placements, gap in plan["frames"]]
    same("the table's frames", sorted(wanted), sorted(got))
    same("the table's order", sorted(gaps_told, reverse=True), gaps_told)
    same("the frames' numbers", [(f"r{number}", str(number)) for number in range(1, len(got) + 1)], numbers)
    entries = sorted(((name, number, supplier) for number, (name, _, supplier, _, _) in enumerate(got, 1)), key=lambda entry: entry[:2])
    same("the index", [(f"{name} {marks[supplier]} {number}", f"#r{number}") for name, number, supplier in entries], [(text.strip(), to) for text, to in page.index])


def compare_ways(same, page, lanes):
    """Each frame's rectangles in a lane lead to its row, and say that row's number; from there each placement leads to them."""
    rows = {(name, node, supplier): (int(number), placed) for _, number, name, node, supplier, placed, *_ in page.tables[1][2:]}
    drawn = [(frame, node, supplier, number) for lane in lanes.values() for frame, node, supplier, _, _, number in lane.kinds]
    same("numbers that are not those of the frame's row", [], [it for it in drawn if it[3] != rows[it[:3]][0]])
    for number, placed in rows.values():
        ways = [f"#{slot}{channels[0]}{number}" for slot, channels, _ in (line.split() for line in placed.split("\n") if line)]
        same(f"where the placements of row {number} lead", ways, page.backs.get(f"r{number}", []))


def compare_sheets(same, page, text, plan):
    """On paper each part is as high as the sheet has room for where there are 64 cycles, and its figures are stretched by no more than a quarter."""
    high = plan["cycles"] + 5
    same("how high a part is on paper", [str(high)], PAPER.findall(text))
    same("whether it fits", True, high * 2.5 <= LEFT and 1 < 2.5 / (277 / 138) < 1.25)
    drawn = (f"0 -4 138 {high}", "none")
    same("parts that are not stretched", [], [part.given for part in page.parts if (part.given["viewbox"], part.given.get("preserveaspectratio")) != drawn])
