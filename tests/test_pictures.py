"""Pictures of plans: each page, read without a browser and compared with the lines of the reports"""
import json
import re

from tests.drivers.planned_registers import Register
from tests.models.picture import Page, changes_of, compare
from tests.models.plans import examples, limits
from tests.runner.case import Case

# How many bytes a page may have at the limits, by itself and for each supplier, lane, placement, frame and signal, as FORMATS says.
PAGE, SUPPLIER, LANE, PLACEMENT, FRAME, SIGNAL = 28_000, 110, 220, 235, 170, 35

# The suppliers' colours: eight that readers who are colour-blind can tell apart.
COLOURS = {"#56B4E9", "#E69F00", "#009E73", "#F0E442", "#CC79A7", "#D55E00", "#0072B2", "#882255"}
SHADE = re.compile(r"^\.c(\d) \.o\{fill:(#\w{6})\}$", re.M)
COLOUR = re.compile(r"^\.c(\d)\{fill:(#\w{6});background:(#\w{6});stroke:(#\w{6})\}$", re.M)


def head_of(register, opened, supplier):
    """The sentences above the drawing: the variant, and the cluster's figures."""
    variant, parent, of = opened["variant"], None if opened.get("flat") else opened.get("from"), register.cluster
    released = any(request["variant"] == variant for request in register.done("release"))
    told = f"Variant {variant} It {'was opened from ' + parent if parent else 'has no parent'}, and is {'released' if released else 'open'}."
    return (
        told
        + (f" This page shows what is {supplier}'s alone." if supplier else "")
        + f" Channels {of['channels']}; {of.get('cycles', 64)} cycles of {of['macroticks_per_cycle']} macroticks; payload length {of['payload_words']} two-byte words; "
        + f"{of['static_slots']} static slots of {of['slot_macroticks']} macroticks; in macroticks: dynamic segment {of['dynamic_macroticks']}, "
        + f"symbol window {of['symbol_macroticks']}, network idle time {of['idle_macroticks']}."
    )


class PictureCase(Case):
    seconds = 60

    def agrees(self, what, wrong):
        """Nothing of the page is wrong."""
        self.see(what, [], wrong[:10])


class PicturesOfExamples(PictureCase):
    """Each page of the examples' variants, the integrator's and each supplier's, has the cells, grants, gaps, tables and index that the reports say."""

    def test_examples(self):
        for name, cluster, requests in examples():
            folder = self.folder / name
            folder.mkdir()
            register = Register(folder, cluster, requests)
            for opened in register.done("open_variant"):
                for supplier in [None, *register.suppliers()]:
                    self.sees(name, register, opened, supplier)

    def sees(self, name, register, opened, supplier):
        variant = opened["variant"]
        text = register.tell("picture", "car.db", variant, *(["--supplier", supplier] if supplier else []))
        self.agrees(f"{name} {variant} {supplier or ''}", compare(text, register.plan(variant, supplier)))
        told = " ".join(Page(text).text.split())
        self.see(f"{name} {variant} {supplier or ''}: the head", True, head_of(register, opened, supplier) in told)


class PicturesOfReleased(PictureCase):
    """A supplier's page of a released variant stays as it is, byte by byte, whatever is asked later; the integrator's does until a supplier joins."""

    def test_released(self):
        _, cluster, requests = next(example for example in examples() if example[0] == "powertrain")
        register = Register(self.folder, cluster, requests)
        variant, suppliers = next(register.done("release"))["variant"], register.suppliers()
        first, integrator = suppliers[0], register.cluster["integrator"]

        def pages():
            return {seen: register.tell("picture", "car.db", variant, *(["--supplier", seen] if seen else [])) for seen in [None, *suppliers]}

        def asks(who, what, **fields):
            told = register.tell("ask", "car.db", given=f"{who} {json.dumps({'do': what, **fields})}\n")
            self.see(f"to {what}", '{"ok":"done"}\n', told)

        before = pages()
        node = next(request for request in register.done("add_node") if request["supplier"] == first)["node"]
        asks(integrator, "open_variant", variant="later", **{"from": variant})
        asks(register.cluster["suppliers"][first], "add_frame", variant="later", frame="later_frame", node=node)
        asks(integrator, "set_key", supplier=first, key="anotherkey1")
        asks(integrator, "add_node", supplier=first, node="later_node")
        self.see("pages that changed", [], [seen for seen, page in pages().items() if page != before[seen]])
        asks(integrator, "add_supplier", supplier="a_first", key="keyofafirst")
        self.see("pages that changed where a supplier joined", [None], [seen for seen, page in pages().items() if page != before[seen]])


class ColoursOfSuppliers(PictureCase):
    """The style gives the colours from c0 to c7 in turn, no two of them alike, and each is the same in a lane, in the legend and in a hatched cell."""

    def test_colours(self):
        _, cluster, requests = next(examples())
        register = Register(self.folder, cluster, requests)
        text = register.tell("picture", "car.db", next(register.done("open_variant"))["variant"])
        given = COLOUR.findall(text)
        self.see("the colours' numbers", list("01234567"), [number for number, *_ in given])
        self.see("the colours", sorted(COLOURS), sorted(lane for _, lane, _, _ in given))
        self.see("the other shades' numbers", list("01234567"), [number for number, _ in SHADE.findall(text)])
        self.see("a colour that differs in the legend or in a hatched cell", [], [colour for colour in given if len(set(colour[1:])) > 1])


CHANGED_CLUSTER = """channels = "AB"
static_slots = 6
slot_macroticks = 10
dynamic_macroticks = 20
symbol_macroticks = 10
idle_macroticks = 10
macroticks_per_cycle = 100
payload_words = 1
integrator = "integrator1"

[suppliers]
s1 = "supplier01"
s2 = "supplier02"
"""

# v2 was opened from v1. There f1 is moved, f3 and its lane are gone, f4 and its lane are new, f2 has a signal, and g1 is sent on one channel.
CHANGED = """
integrator1 {"do":"open_variant","variant":"v1"}
integrator1 {"do":"add_node","supplier":"s1","node":"n1"}
integrator1 {"do":"add_node","supplier":"s2","node":"n2"}
integrator1 {"do":"grant","variant":"v1","slot":1,"channel":"A","supplier":"s1","node":"n1"}
integrator1 {"do":"grant","variant":"v1","slot":2,"channel":"A","supplier":"s1","node":"n1"}
integrator1 {"do":"grant","variant":"v1","slot":3,"channel":"A","supplier":"s2","node":"n2"}
integrator1 {"do":"grant","variant":"v1","slot":3,"channel":"B","supplier":"s2","node":"n2"}
supplier01 {"do":"add_frame","variant":"v1","frame":"f1","node":"n1"}
supplier01 {"do":"add_frame","variant":"v1","frame":"f2","node":"n1"}
supplier01 {"do":"add_frame","variant":"v1","frame":"f3","node":"n1"}
supplier02 {"do":"add_frame","variant":"v1","frame":"g1","node":"n2"}
supplier01 {"do":"place","variant":"v1","frame":"f1","slot":1,"channels":"A","base":0,"repetition":4}
supplier01 {"do":"place","variant":"v1","frame":"f2","slot":1,"channels":"A","base":1,"repetition":4}
supplier01 {"do":"place","variant":"v1","frame":"f3","slot":2,"channels":"A","base":0,"repetition":1}
supplier02 {"do":"place","variant":"v1","frame":"g1","slot":3,"channels":"AB","base":0,"repetition":2}
integrator1 {"do":"release","variant":"v1"}
integrator1 {"do":"open_variant","variant":"v2","from":"v1"}
supplier01 {"do":"unplace","variant":"v2","frame":"f1","slot":1,"channels":"A","base":0,"repetition":4}
supplier01 {"do":"place","variant":"v2","frame":"f1","slot":1,"channels":"A","base":2,"repetition":4}
supplier01 {"do":"drop_frame","variant":"v2","frame":"f3"}
integrator1 {"do":"revoke","variant":"v2","slot":2,"channel":"A","supplier":"s1"}
integrator1 {"do":"grant","variant":"v2","slot":4,"channel":"A","supplier":"s1","node":"n1"}
supplier01 {"do":"add_frame","variant":"v2","frame":"f4","node":"n1"}
supplier01 {"do":"place","variant":"v2","frame":"f4","slot":4,"channels":"A","base":0,"repetition":8}
supplier01 {"do":"add_signal","variant":"v2","frame":"f2","signal":"speed","start":0,"length":8,"order":"little"}
supplier02 {"do":"unplace","variant":"v2","frame":"g1","slot":3,"channels":"AB","base":0,"repetition":2}
supplier02 {"do":"place","variant":"v2","frame":"g1","slot":3,"channels":"A","base":0,"repetition":2}
"""
# By slot and channel what the drawing of v2 marks since v1: of s1, and of s2.
CHANGES_1 = {
    (1, "A"): [("gone", "gone: f1 of s1", list(range(0, 64, 4)), (0, "\u2212")), ("new", "new: f1 of s1", list(range(2, 64, 4)), (2, "+"))],
    (2, "A"): [("gone", "gone: n1 of s1", [], (64, "\u2212")), ("gone", "gone: f3 of s1", list(range(64)), (0, "\u2212"))],
    (4, "A"): [("new", "new: n1 of s1", [], (-1, "+")), ("new", "new: f4 of s1", list(range(0, 64, 8)), (0, "+"))],
}
CHANGES_2 = {
    (3, "A"): [("new", "new: g1 of s2", list(range(0, 64, 2)), (0, "+")), ("gone", "gone: g1 of s2", list(range(0, 64, 2)), (0, "\u2212"))],
    (3, "B"): [("gone", "gone: g1 of s2", list(range(0, 64, 2)), (0, "\u2212"))],
}
# The table below the slots: its rows of s1, and of s2, in the order of the difference.
ROWS_1 = [
    ["\u2212", "grant", "n1", "s1", "2 A"],
    ["+", "grant", "n1", "s1", "4 A"],
    ["\u2212", "frame", "f3", "s1", "sent by n1"],
    ["+", "frame", "f4", "s1", "sent by n1"],
    ["\u2212", "placement", "f1", "s1", "1 A 0/4"],
    ["+", "placement", "f1", "s1", "1 A 2/4"],
    ["\u2212", "placement", "f3", "s1", "2 A 0/1"],
    ["+", "placement", "f4", "s1", "4 A 0/8"],
    ["+", "signal", "f2", "s1", "speed:0+8"],
    ["\u2212", "greatest gap", "f3", "s1", "100 macroticks"],
    ["+", "greatest gap", "f4", "s1", "800 macroticks"],
]
ROWS_2 = [["+", "placement", "g1", "s2", "3 A 0/2"], ["\u2212", "placement", "g1", "s2", "3 AB 0/2"]]
# What a page has besides, where it marks changes.
BESIDES = re.compile(r"\.new,\.gone\{.*?\n\.sign\{.*?\n|<p>This page shows what is new since .*?</p>\n|<g class=(?:new|gone)>.*?</g>|<h2 id=since>.*?</table>\n", re.S)


class PicturesSince(PictureCase):
    """A page of a variant since another one marks what is new and what is gone, and has a table of both; of its reader's rows alone."""

    def pages(self, *views):
        """Pages, each of a variant since another one, or since none, as a supplier sees it, or as the integrator."""
        register = Register(self.folder, CHANGED_CLUSTER, CHANGED)
        for variant, since, supplier in views:
            more = (["--since", since] if since else []) + (["--supplier", supplier] if supplier else [])
            yield register.tell("picture", "car.db", variant, *more)

    def sees(self, what, text, changes, rows):
        page = Page(text)
        self.see(f"{what}: what is marked", changes, changes_of(page, "AB"))
        self.see(f"{what}: the table", rows, [[cell.strip() for cell in row[1:]] for row in page.tables[1][2:]])

    def test_what_is_new_and_gone(self):
        all_of, of_1, of_2 = self.pages(("v2", "v1", None), ("v2", "v1", "s1"), ("v2", "v1", "s2"))
        placements = ROWS_1[4:8] + ROWS_2
        self.sees("the integrator's page", all_of, CHANGES_1 | CHANGES_2, ROWS_1[:4] + placements + ROWS_1[8:])
        self.sees("the page of s1", of_1, CHANGES_1, ROWS_1)
        self.sees("the page of s2", of_2, CHANGES_2, ROWS_2)
        words = set(re.findall(r"\w+", re.sub(r"<style>.*?</style>", "", of_2, flags=re.S)))
        self.see("names of s1 on the page of s2", set(), {"s1", "n1", "f1", "f2", "f3", "f4", "speed"} & words)

    def test_turned_round(self):
        (text,) = self.pages(("v1", "v2", None))
        turned = {"new": ("gone", "gone", "\u2212"), "gone": ("new", "new", "+")}
        flags = {at: {(kind, title) for kind, title, _, _ in marks} for at, marks in changes_of(Page(text), "AB").items()}
        wanted = {at: {(turned[kind][0], title.replace(kind, turned[kind][1])) for kind, title, _, _ in marks} for at, marks in (CHANGES_1 | CHANGES_2).items()}
        self.see("what is marked", wanted, flags)

    def test_nothing_changed(self):
        same, plain = self.pages(("v2", "v2", None), ("v2", None, None))
        self.sees("the page", same, {}, [])
        self.see("what a page without changes has of them", None, BESIDES.search(plain))
        self.see("the page without its words on changes", plain, BESIDES.sub("", same))

    def test_page_below_its_marks(self):
        """Where the same slots are shown, the marks stand over what the page has without them."""
        since, plain = self.pages(("v2", "v1", "s2"), ("v2", None, "s2"))
        self.see("the page without its marks", plain, BESIDES.sub("", since))


class PicturesAtTheLimits(PictureCase):
    """A page of 64 suppliers, 1,023 slots, both channels and 64 cycles has what was planned, and no more bytes than docs/FORMATS.md says."""

    is_apart = True

    def plans(self, share, signals, spread):
        """So many frames of so many signals share each lane, and each is sent in so many lanes."""
        cluster, requests, plan = limits(share, signals, spread)
        text = Register(self.folder, cluster, requests).tell("picture", "car.db", "v1")
        self.agrees("the page", compare(text, plan))
        placements = sum(len(frame[3]) for frame in plan["frames"])
        most = PAGE + SUPPLIER * len(plan["suppliers"]) + LANE * len(plan["grants"]) + PLACEMENT * placements + (FRAME + SIGNAL * signals) * len(plan["frames"])
        self.see(f"its {len(text.encode())} bytes are at most {most}", True, len(text.encode()) <= most)

    def test_all_is_new(self):
        """Since an empty variant all is new: each grant and each placement has its mark, and each row of the difference its line."""
        cluster, requests, plan = limits(4, 2, 1)
        requests = requests.rstrip("\n") + '\nintegrator1 {"do":"open_variant","variant":"empty"}\n'
        text = Register(self.folder, cluster, requests).tell("picture", "car.db", "v1", "--since", "empty")
        page = Page(text)
        marks = [kind for found in changes_of(page, plan["channels"]).values() for kind, _, _, _ in found]
        placements = [(placed[1], frame) for frame in plan["frames"] for placed in frame[3]]
        wanted = len(plan["grants"]) + sum(len(channels) for channels, _ in placements)
        self.see("how many marks there are", ["new"] * wanted, marks)
        signals = sum(map(len, plan["layouts"].values()))
        self.see("how many lines the table has", len(plan["grants"]) + 2 * len(plan["frames"]) + len(placements) + signals, len(page.tables[1]) - 2)

    def test_frames_of_many_signals(self):
        self.plans(share=2, signals=8, spread=1)

    def test_many_frames(self):
        self.plans(share=4, signals=2, spread=1)

    def test_frames_of_many_placements(self):
        self.plans(share=16, signals=8, spread=8)
