"""What people are told: no key, nothing that drives a terminal, what a word means, and a picture whose words can be seen.

What is wanted was typed by hand from docs/FORMATS.md."""
import html
import re
import shutil
import subprocess
from html.parser import HTMLParser

from tests.drivers.planned_registers import Register
from tests.drivers.program import ran
from tests.drivers.registers import RegisterCase
from tests.models.formats import FORMATS
from tests.models.messages import CLUSTER
from tests.models.plans import examples

LONG = b"secret" * 11  # 66 letters, two too many
# Lines of requests, each with a key that is none, or in a text that is none. Each key has the word secret in it.
REQUESTS = [
    LONG + b' {"do":"variants"}',
    b'secret- {"do":"variants"}',
    b'secret1 {"do":"variants"}',
    b"secret01",
    b'secret01{"do":"variants"}',
    b"secret01 ",
    b"secret01 variants",
    b'secret01 {"do":"variants"',
    b'secret01 {"do":"variants","variant":"v1"}',
    b'secret01 {"do":"schedule","variant":"v-1"}',
    *(
        b'secret01 {"do":"%s","supplier":"s1","key":"%s"}' % (do, key)
        for do in (b"add_supplier", b"set_key")
        for key in (LONG, b"secret", b"secret-01", b"secret 01")
    ),
    *(
        b'secret01 {"do":"set_key","supplier":"s1","key":%s}' % key
        for key in (b'["secret01"]', b'{"secret01":1}', b'"secret01', b"secret01", b"null")
    ),
    b'secret01 {"do":"set_key","supplier":"1s","key":"secret"}',
    b'secret01 {"do":"set_key","key":"secret01"}',
]
# What stands in a cluster file in place of a supplier's line, and so a key that is none, or is there twice, or a text that is no TOML.
CLUSTERS = [
    *(b's1 = "%s"\n' % key for key in (LONG, b"secret", b"secret-01", b"secret02")),
    *(b"s1 = %s\n" % key for key in (b"secret01", b'"secret01', b'["secret01"]', b'{key = "secret01"}', b"'secret01''", b'"secret01" "secret03"')),
]

# What a terminal takes as an order, and what hides what stands behind it.
CODES = *range(9), 11, 12, *range(14, 32), 127, *range(128, 160)
ORDERS = [*(bytes([code]) for code in CODES), "\u009b".encode(), "\u202e".encode(), b"\x1b]0;x\x07", b"\x1b[2J"]
SEEN = re.compile(rb"[ -~\n]*")
ROWS = b"frame,node,slot,channels,base,repetition\n"
FIELDS = b"f%s1,n1,1,A,0,64", b"f1,%sn1,1,A,0,64", b"f1,n1,1%s,A,0,64", b"f1,n1,1,A,0%s,64", b'"f1","n1","1","A","0","%s64"', b"f1,n1,1,A,0,64,%s"
LINES = b'%s {"do":"variants"}', b"supplier01 %s", b'supplier01 {"%s":1}', b'supplier01 {"do":"%s"}', b'supplier01 {"do":"grants","variant":"%s"}'


class Secrets(RegisterCase):
    """`check` shows no key, be it well formed or not."""

    def untold(self, what, words, lines=None):
        """It finds a fault, in just these lines, and shows no key."""
        status, written, said = ran(words, self.folder)
        self.see(f"{what}: a fault is told", (1, b"", True), (status, written, bool(said)))
        if lines:
            self.see(f"{what}: the lines that are told of", lines, sorted({int(it) for it in re.findall(rb"^line (\d+): ", said, re.M)}))
        self.see(f"{what}: no key is shown", [], [line for line in said.splitlines() if b"secret" in line.lower()])

    def test_of_requests(self):
        for text in REQUESTS:
            (self.folder / "requests").write_bytes(text + b"\n")
            self.untold(text, ["check", "--requests", "requests"], [1])
        (self.folder / "requests").write_bytes(b"\n".join(REQUESTS))
        self.untold("all together", ["check", "--requests", "requests"], list(range(1, len(REQUESTS) + 1)))

    def test_of_clusters(self):
        for text in CLUSTERS:
            named = CLUSTER.replace(b's1 = "supplier01"\n', text).replace(b'"supplier02"', b'"secret02"')
            self.see("a key is another one", True, b"secret" in named)
            (self.folder / "wrong.toml").write_bytes(named)
            self.untold(text, ["check", "wrong.toml"])


class Terminals(RegisterCase):
    """Nothing of a file that somebody sent reaches the terminal but printable ASCII: a question mark stands for any other character."""

    def shown(self, what, words):
        status, written, said = ran(words, self.folder)
        self.see(f"{what}: what is printed", True, (SEEN.fullmatch(written + said) and status in (0, 1)) is not None or (written, said))
        return said

    def test_rows(self):
        """Each row has an order of a terminal in one of its fields, or in a field that is too many."""
        rows = [row.replace(b"%s", order) for order in ORDERS for row in FIELDS]
        (self.folder / "rows").write_bytes(ROWS + b"".join(row + b"\n" for row in rows))
        said = self.shown("rows", ["check", "--rows", "rows"])
        told = {int(line) for line in re.findall(rb"^line (\d+): ", said, re.M)}
        self.see("rows that are not told of", [], [row for line, row in enumerate(rows, 2) if line not in told])

    def test_headers(self):
        for order in ORDERS[::8]:
            (self.folder / "rows").write_bytes(b"frame%s,node\n" % order)
            self.see("a header", True, b"frame?" in self.shown(b"a header with " + order, ["check", "--rows", "rows"]))

    def test_requests(self):
        lines = [line.replace(b"%s", order) for order in ORDERS for line in LINES] + [rb'supplier01 {"do":"grants","variant":"\u001b[2J"}']
        (self.folder / "requests").write_bytes(b"".join(line + b"\n" for line in lines))
        said = self.shown("requests", ["check", "--requests", "requests"])
        told = {int(line) for line in re.findall(rb"^line (\d+): ", said, re.M)}
        self.see("requests that are not told of", [], [line for number, line in enumerate(lines, 1) if number not in told])
        self.see("an escape of JSON", True, b'"?[2J"' in said)


LABEL_USED = b"""\
LabelUsed: refusal 9. The label is used by another import.
An import of the supplier is kept under the label, with another variant or another file.
The same import that is sent again has its old answer and changes nothing.
Choose another label for the new file.
"""
# What FORMATS has of it, which those lines tell a supplier.
OF_LABELS = (
    "| 9 | `LabelUsed` | 409 | an import is kept under the label, with another variant or file |",
    "An import of the same label, variant and file as one that is kept has its answer again and changes nothing",
    "is kept under its label, a name of the supplier's own",
)


class Labels(RegisterCase):
    """`explain LabelUsed` says, word for word, what FORMATS has of labels."""

    def test_words(self):
        for sentence in OF_LABELS:
            self.see(f"FORMATS says: {sentence}", True, sentence in FORMATS)
        for word in "LabelUsed", "9":
            self.tell(["explain", word], LABEL_USED)


# ---- the words of a picture


class Words(HTMLParser):
    """A page's style, and its texts that are to be read: not those of the small drawings, of titles and of what is drawn by reference."""

    HIDDEN = "title", "style", "nav"

    def __init__(self, page):
        super().__init__()
        self.open, self.style, self.texts, self.inline = [], "", [], []
        self.feed(page)

    def handle_starttag(self, tag, attributes):
        self.inline += [(name, value) for name, value in attributes if name in ("style", "hidden", "opacity", "visibility", "display", "color")]
        if tag in self.HIDDEN:
            self.open.append(tag)

    def handle_endtag(self, tag):
        if tag in self.HIDDEN:
            self.open.remove(tag)

    def handle_data(self, data):
        if "style" in self.open:
            self.style += data
        elif not self.open and data.strip():
            self.texts.append(" ".join(data.split()))


# What of a style's declarations can hide a text, and the values with which it does not. In the small drawings texts are left out: a variable says so.
HARMLESS = {
    "display": {"block", "flex", "inline-block", "var(--text,inline)"},
    "--text": {"none"},
    "color": {"#111", "inherit"},
    "overflow": {"visible", "auto"},
    "overflow-x": {"visible", "auto"},
    "position": {"absolute"},
    "stroke-opacity": {".5"},
    "white-space": {"pre-line"},
}
HIDING = set("visibility opacity clip clip-path filter mask text-indent content-visibility zoom scale left top z-index max-height".split())
RULE = re.compile(r"([^{}]+)\{([^{}]*)\}")
# A script that marks the page with each text of it that cannot be seen: without a box, or in no colour, or in that of what it stands on.
LOOKING = """<script>
const clear = (it) => it === 'none' || it === 'transparent' || /, 0\\)$/.test(it) && it.startsWith('rgba');
const ground = (at) => {
  for (; at; at = at.parentElement) { const it = getComputedStyle(at).backgroundColor; if (!clear(it)) return it; }
  return 'rgb(255, 255, 255)';
};
const walk = document.createTreeWalker(document.body, NodeFilter.SHOW_TEXT), lost = [];
let count = 0;
while (walk.nextNode()) {
  const node = walk.currentNode, at = node.parentElement;
  if (!node.data.trim() || at.closest('title, style, script, nav')) continue;
  count++;
  const range = document.createRange(); range.selectNodeContents(node);
  const box = range.getBoundingClientRect(), style = getComputedStyle(at), drawn = at instanceof SVGElement;
  let shown = 1; for (let up = at; up; up = up.parentElement) shown *= getComputedStyle(up).opacity;
  const colour = drawn ? style.fill : style.color;
  if (!(box.width > 0 && box.height > 0 && box.right > 0 && box.bottom > 0 && shown > 0.5 && style.visibility === 'visible' && !clear(colour)
      && (drawn || colour !== ground(at)))) lost.push(node.data.trim());
}
document.body.setAttribute('data-texts', count);
document.body.setAttribute('data-lost', JSON.stringify(lost));
</script>"""


def drawn(folder):
    """A page of an example: my28 of assistance, to the integrator."""
    name, cluster, requests = next(it for it in examples() if it[0] == "assistance")
    return Register(folder, cluster, requests).tell("picture", "car.db", "my28")


class Pictures(RegisterCase):
    """The style of a picture hides no text that is to be read."""

    def test_style(self):
        words = Words(drawn(self.folder))
        self.see("there is a style", True, len(words.style) > 1000)
        self.see("what attributes hide", [], words.inline)
        hidden = []
        for selector, body in RULE.findall(re.sub(r"@(media|page)[^{]*\{", "", words.style)):
            for name, _, value in (it.partition(":") for it in body.split(";") if it):
                small = name in ("font-size", "width", "height") and re.fullmatch(r"0+\w*|\.0\d*\w*|-.*", value) and ".defs" not in selector
                clear = name == "fill" and value in ("none", "transparent") and re.search(r"\btext\b", selector)
                far = "translate" in value and re.search(r"(?<![.\d])\d\d+px|%", value) or "scale(0" in value
                if name in HIDING or value not in HARMLESS.get(name, {value}) or "transparent" in value or small or clear or far:
                    hidden.append((selector.strip(), name, value))
        self.see("declarations that can hide a text", [], hidden)

    def test_words(self):
        """The texts of the page are those that a reader wants: head, suppliers, frames and signals."""
        texts = " ".join(Words(drawn(self.folder)).texts)
        for word in ("my28", "camtech", "front_camera", "brakeworks", "gap"):
            self.see(f"{word} stands there", True, word in texts.lower())


# Where a frame's rectangles lead, its title's names, slot and channel, and its numbers; a row, its number and names, and where its placements lead.
DRAWN = re.compile(r"<a[^>]* id=(\w+) href=#(r\d+)><title>(\w+)\n(\w+) of (\w+)\n(\d+) ([AB]) [^<]*</title><(?:use|path)[^>]*/>.*?<text[^>]*>(\d+)[ <]")
ROW = re.compile(r"<tr id=(r\d+)><td>(\d+)<td>(\w+)<td>(\w+)<td>(\w+)<td>((?:<a.*</a>\n)*)")
BACK = re.compile(r"<a href=#(\w+)>(\d+) ([AB]+) \d+/\d+</a>\n")


class Ways(RegisterCase):
    """From a frame in the drawing one comes to its row, and from a placement there to the frame in that slot. Nothing hides these ways from a screen
    reader or a keyboard, and a narrow screen is told that the page is as wide as it is."""

    def test_ways(self):
        page = drawn(self.folder)
        frames = {id: (row, (frame, node, supplier), slot, channel, number) for id, row, frame, node, supplier, slot, channel, number in DRAWN.findall(page)}
        rows = {row: (number, names, BACK.findall(placed)) for row, number, *names, placed in ROW.findall(page)}
        self.see("what is drawn, and the rows", (True, True), (len(frames) == page.count("<a id=") + page.count("<a class=o id=") > 20, len(rows) > 10))
        for id, (row, names, slot, channel, number) in frames.items():
            self.see(f"where {id} leads, and its number", (list(names), number), (rows[row][1], rows[row][0]))
        for row, (_, names, placed) in rows.items():
            for id, slot, channels in placed:
                self.see(f"where a placement of {row} leads", (row, tuple(names), slot, channels[0]), frames[id][:4])

    def test_shades(self):
        """Neighbours in a lane have two shades: where the one begins in an even cycle, and the other in an odd one."""
        drawn_at = re.findall(r"<a( class=o)? id=\d+[AB]\d+ href=#r\d+><title>\w+\n\w+ of \w+\n\d+ [AB] (?:cycles )?(\d+)", drawn(self.folder))
        self.see("frames of each shade", (True, True), (any(odd for odd, _ in drawn_at), not all(odd for odd, _ in drawn_at)))
        self.see("frames of the wrong shade", [], [it for it in drawn_at if bool(it[0]) != int(it[1]) % 2])

    def test_looks(self):
        """Of twenty suppliers with a lane each no two look alike, in the drawing and in the legend; each looks the same in both."""
        names = [f"maker{number:02}" for number in range(20)]
        head = CLUSTER.decode().split("[suppliers]")[0].replace("static_slots = 4", "static_slots = 20").replace("macroticks_per_cycle = 100", "macroticks_per_cycle = 260")
        ask = ['integrator1 {"do":"open_variant","variant":"v1"}']
        for slot, name in enumerate(names, 1):
            ask.append('integrator1 {"do":"add_node","supplier":"%s","node":"n1"}' % name)
            ask.append('integrator1 {"do":"grant","variant":"v1","slot":%d,"channel":"A","supplier":"%s","node":"n1"}' % (slot, name))
        register = Register(self.folder, head + "[suppliers]\n" + "".join(f'{name} = "key{name}"\n' for name in names), "\n".join(ask))
        page = register.tell("picture", "car.db", "v1")
        lanes = re.findall(r'<svg class=("[^"]+"|\w+) x=\d+><title>n1 of (\w+)\n', page)
        keys = re.findall(r'<li><i class=("[^"]+"|\w+)>\w+</i> (\w+):', page)
        self.see("the looks", (20, sorted(lanes)), (len({look for look, _ in keys}), sorted(keys)))

    def test_reach(self):
        page = drawn(self.folder)
        self.see("what hides links", [], re.findall(r"role=(?:img|presentation)|aria-hidden=true><a|tabindex=-", page))
        self.see("the width", 1, page.count('<meta name=viewport content="width=device-width,initial-scale=1">'))


class SeenInABrowser(RegisterCase):
    """Each of a picture's texts can be seen where there is chromium, on a screen and on a narrow one."""

    may_be_skipped = True

    def lost(self, page, width):
        (self.folder / "page.html").write_text(page.replace("</html>", "") + LOOKING)
        browser = shutil.which("chromium") or shutil.which("chromium-browser")
        if not browser:
            self.skipTest("there is no chromium: apt-get install chromium")
        flags = "--headless", "--no-sandbox", "--disable-gpu", f"--window-size={width},1600", "--dump-dom"
        words = [browser, *flags, (self.folder / "page.html").as_uri()]
        dom = subprocess.run(words, stdout=subprocess.PIPE, stderr=subprocess.DEVNULL, text=True, timeout=300).stdout
        return int(re.search(r'data-texts="(\d+)"', dom)[1]), html.unescape(re.search(r'data-lost="([^"]*)"', dom)[1])

    def test_words(self):
        page = drawn(self.folder)
        texts = len(Words(page).texts)
        for width in 1600, 700:
            count, lost = self.lost(page, width)
            self.see(f"the texts that the browser finds at {width}", True, count >= texts or (count, texts))
            self.see(f"those that cannot be seen at {width}", "[]", lost)

    def test_style_that_hides(self):
        """Such a look finds a text that is hidden: by each of these styles some text is lost."""
        page = drawn(self.folder)
        hiding = "td{display:none}", "h1{visibility:hidden}", "p{color:transparent}", "text{fill:none}", "li{opacity:0}", "th{font-size:0}", "p{color:#fff}"
        for style in hiding:
            _, lost = self.lost(page.replace("</style>", f"{style}</style>", 1), 1600)
            self.see(f"what {style} hides", True, lost != "[]")
