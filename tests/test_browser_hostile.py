"""The planners' page before a server that answers what no register does, in a browser: nothing that it sends is run or shown as anything but text,
and no plan is shown of a report that has not its form."""
import json

from tests.drivers.stub_register import CLUSTER, GOOD, LISTED, TOLD, StubCase

ROWS = GOOD["rows"]

EVIL = '<img src=x onerror="window.hacked=1"><script>window.hacked=1</script>'
# Reports that no register tells, by their names.
REPORTS = {
    "cluster": [
        EVIL,
        "",
        "\x00" * 100,
        CLUSTER.replace("s1", EVIL),
        CLUSTER.replace("64", "6400000000"),
        CLUSTER.replace("64", "7"),
        CLUSTER.replace("slots 4", "slots 999999999"),
        CLUSTER.replace("words 1", "words 4000000000"),
        CLUSTER.replace("AB", "C"),
        CLUSTER.replace("payload_words 1\n", ""),
    ],
    "nodes": [EVIL, f"n1 {EVIL}\n", "n1\n\n"],
    "variants": [EVIL, f"{EVIL} - 1 open\n", "v1 - 1 <b>\n", f"v1 {EVIL} 2 open\n", "v1 - 1 open \n"],
    "rows": [
        EVIL,
        *(line for word in ("constructor", "__proto__", "toString", "+ FRAME", "frame") for line in (f"{word} f1 n1\n", f"{ROWS}{word}\n")),
        *(f"{kind} {EVIL}\n" for kind in ("GRANT 0001 A", "FRAME", "FRAME f1", "AT", "SIGNAL f1 0000 08 little", "GAP     200")),
        *(f"GRANT {lane} n1\n" for lane in ("9999 A", "0000 A", "0001 C", "0001 AB")),
        "FRAME f1 constructor.prototype\n",
        "AT f1 0001 A 00 02\n",
        "SIGNAL f1 0000 08 little x\n",
        "GAP     200 f1\n",
        ROWS.partition("GAP")[0],
        *(ROWS.replace("0001 A 00 02", where) for where in ("0001 A 00 00", "0001 A 05 02", "0001 A 00 03", "0002 A 00 02", "0009 A 00 02", "0001 AB 00 02")),
        *(ROWS.replace("     200", gap) for gap in ("     400", "   never", " 99999999999")),
        *(ROWS.replace(line, line + more) for line, more in (("AT f1 0001 A 00 02\n", "AT f1 0001 A 00 04\n"), ("FRAME f1 n1\n", "FRAME f1 n2\n"))),
        ROWS + "GAP     200 f1\n",
        ROWS + "GAP   never f2\n",
        ROWS.replace("\n", " s1\n"),
        ROWS.replace("little x", "middle x"),
    ],
}
# Answers to a command, each given with the status of a refusal and as if it were carried out.
ANSWERS = [
    EVIL,
    "",
    "[]",
    "null",
    '{"ok":{}}',
    json.dumps({"ok": EVIL}),
    json.dumps({"no": EVIL, "refused": EVIL, "frame": EVIL}),
    json.dumps({"no": 25, "refused": "CellTaken", "cycle": EVIL, "channel": EVIL, "frame": EVIL}),
    json.dumps({"no": 27, "refused": "BitTaken", "bit": [EVIL], "signal": {"x": EVIL}}),
    json.dumps({"no": 29, "refused": "BadRow", "line": EVIL, "row": {"no": 27, "bit": EVIL, "signal": EVIL, "refused": EVIL}}),
    json.dumps({"no": 29, "refused": "BadRow", "line": 2, "row": {"no": 29, "refused": EVIL, "row": {"no": 29}}}),
]
# What a page has that ran or showed something that was sent to it.
TRACES = """
    const not = 'img, iframe, object, embed, svg, link[rel=stylesheet]:not([href="slotplan.css"]), a[href^=javascript], base, meta[http-equiv]';
    const handlers = [...document.querySelectorAll('*')].filter(it => [...it.attributes].some(({name}) => name.startsWith('on')));
    const elements = document.querySelectorAll(not).length, scripts = document.scripts.length - 1;
    return {hacked: window.hacked ?? null, elements, scripts, handlers: handlers.length, listed: document.querySelectorAll('#frames li').length};"""
NO_TRACES = {"hacked": None, "elements": 0, "scripts": 0, "handlers": 0}


class HostileCase(StubCase):
    """A page that was sent what no register sends."""

    def plan_of_one(self):
        """The frames that are listed, once one is."""
        return self.browser.wait("a frame", LISTED)

    def is_clean(self, what, listed=1):
        """Nothing ran, or was made of what was sent, and so many frames are shown."""
        self.rests()
        self.see(f"{what}: what ran, or was made of it", {**NO_TRACES, "listed": listed}, self.browser.run(TRACES))


class Hostile(HostileCase):
    """Answers that no register gives."""

    def test_the_page_works(self):
        """Before a server that answers well a plan is shown: else all that follows would say nothing."""
        self.answer()
        self.see("frames", 1, self.plan_of_one())

    def test_reports(self):
        for report, texts in REPORTS.items():
            for text in texts:
                what = f"{report} {text[-60:]!r}"
                self.answer(**{report: (200, "text/html", text)})
                self.is_clean(what, listed=0)
                self.see(f"{what}: the page says something", True, bool(self.browser.run(TOLD)))

    def test_names(self):
        """Texts that are no names, told alike in all rows, so that these fit together."""
        for name in "<b>x</b>", "f-1", "1f", "f\u0430", "f" * 33, "f1\u202e", "__proto__":
            self.answer(rows=ROWS.replace("f1", name))
            self.is_clean(f"the frame {name!r}", listed=0)
            self.answer(rows=ROWS.replace("little x", f"little {name}"))
            self.is_clean(f"the signal {name!r}", listed=0)
            self.answer(nodes=f"{name}\n", rows=ROWS.replace("n1", name))
            self.is_clean(f"the node {name!r}", listed=0)
            self.see(f"{name!r}: the page says something", True, bool(self.browser.run(TOLD)))
        self.answer(rows=ROWS.replace("f1", "f" * 32))
        self.see("the longest name is one", 1, self.plan_of_one())

    def test_answers(self):
        for body in ANSWERS:
            for status in 409, 200:
                what = f"{status} {body[:60]!r}"
                self.answer(commands=(status, "application/json", body))
                self.browser.click("#frames button")
                self.browser.wait("the frame", "return document.getElementById('show-room')")
                self.browser.press("Unplace", "#detail")
                self.browser.wait("some words", "return document.getElementById('message').checkVisibility()")
                self.is_clean(what)
                self.see(f"{what}: it is no success", False, self.browser.run("return document.getElementById('message').classList.contains('good')"))

    def test_behind_a_plan(self):
        """Differences, fates, proposals, exports and pictures, and rows that are read anew, each shown as text or refused."""
        evil_fates = json.dumps({"ok": "try", "lines": [EVIL]})
        self.answer(
            proposals=(200, "application/json", json.dumps({"ok": "propose", "lines": [EVIL]})),
            since=(200, "text/html", f"+ FRAME {EVIL} n1\n"),
            tries=(200, "application/json", evil_fates),
            exports=(200, "text/html", EVIL),
            picture=(200, "text/html", EVIL),
        )
        browser = self.browser
        self.plan_of_one()
        self.view("diff")
        browser.press("Compare", "#view-diff")
        self.says("line that no")
        self.is_clean("a difference")
        self.view("files")
        self.file("evil.csv", "frame,node\n" + EVIL + ",n1\n")
        self.says("line that no report has")
        self.is_clean("a try")
        browser.press("Close", "#message")
        browser.type("#wishes-text", f"frame,node,channels,repetition\n{EVIL},n1,A,2")
        browser.click("#propose")
        self.says("line that no report has")
        self.is_clean("a proposal")
        for kind in "picture.html", "placements.csv":
            browser.run("document.getElementById('message').hidden = true")
            browser.press(kind, "#view-files")
            self.is_clean(kind)
        self.answers["rows"] = f"FRAME {EVIL} n1\n"
        self.file("evil.csv", "frame,node\n" + EVIL + ",n1\n")
        browser.click("input[value=whole]")
        self.says("line that no report has")
        self.is_clean("what would be gone")
        browser.click("#reload")
        self.says("line that no report has")
        self.is_clean("a plan that is read anew")

    def test_file_names(self):
        """A file's own name and rows are texts too."""
        self.answer(tries=(200, "application/json", json.dumps({"ok": "try", "lines": ["0002 04 BadName"]})))
        self.plan_of_one()
        self.view("files")
        path = self.folder / EVIL.replace("/", "")
        path.write_text("frame,node\n" + EVIL + ",n1\n")
        self.browser.upload("#pick", path)
        self.browser.wait("the row", "return document.getElementById('view-files').textContent.includes('BadName (4)')")
        self.is_clean("a file's name")


class LostReplies(HostileCase):
    """A reply that is lost, as while a proxy waits for the register: the page says what it does not know, and sends nothing twice."""

    def test_lost(self):
        for answer in (502, "text/html", "<h1>Bad Gateway</h1>"), (504, "text/html", ""), None:
            self.answer(commands=answer)
            self.browser.click("#frames button")
            self.browser.wait("the frame", "return document.getElementById('show-room')")
            self.browser.requests()
            self.browser.press("Unplace", "#detail")
            self.says("may have been carried out or not")
            self.see(f"{answer}: commands that were sent", 1, sum(it["url"].endswith("/commands") for it in self.browser.requests()))
            self.is_clean(f"{answer}")

    def test_no_server(self):
        """Where nobody answers any more the page says so, and keeps what it shows."""
        self.answer()
        for report in GOOD:
            self.answers[report] = None
        self.browser.click("#reload")
        self.says("does not answer")
        self.see("the plan is shown still", 1, self.browser.run(LISTED))
