"""The command `slotplan-plans`: how it reads a register, how it ends, its tables, and how it is installed.

What is wanted was typed by hand."""
import os
import shutil
import ssl
import subprocess
import sys
from contextlib import contextmanager
from dataclasses import replace
from http.server import BaseHTTPRequestHandler, HTTPServer
from threading import Thread
from unittest.mock import patch

from clients import archive
from clients.slotplan_plans.comparing import differences
from clients.slotplan_plans.faults import Fault
from clients.slotplan_plans.plan import Cluster, Frame, Grant, Node, Placement, Plan, Signal, Variant
from clients.slotplan_plans.reading import read
from clients.slotplan_plans.sources import RegisterFile, Server
from tests import TOP
from tests.drivers.followed_pages import THERE, follow
from tests.drivers.plans_client import ClientCase, TypedSource
from tests.models.messages import FIRST
from tests.models.pages import blocks_left_out
from tests.models.plans import limits
from tests.runner.case import Case

# Two suppliers call a frame and a node alike; a frame is sent on A and on B apart; names differ in case alone.
SCRIPT = """\
channels = "AB"
static_slots = 4
slot_macroticks = 10
dynamic_macroticks = 40
symbol_macroticks = 10
idle_macroticks = 10
macroticks_per_cycle = 100
payload_words = 1
cycles = 10
integrator = "integrator1"
[suppliers]
s1 = "supplier01"
S1 = "supplier02"
idle = "supplier03"
---
integrator1 {"do":"open_variant","variant":"v1"}
integrator1 {"do":"add_node","supplier":"s1","node":"n1"}
integrator1 {"do":"add_node","supplier":"S1","node":"n1"}
integrator1 {"do":"grant","variant":"v1","slot":3,"channel":"A","supplier":"s1","node":"n1"}
integrator1 {"do":"grant","variant":"v1","slot":3,"channel":"B","supplier":"s1","node":"n1"}
integrator1 {"do":"grant","variant":"v1","slot":4,"channel":"B","supplier":"S1","node":"n1"}
supplier01 {"do":"add_frame","variant":"v1","frame":"f","node":"n1"}
supplier01 {"do":"add_frame","variant":"v1","frame":"F","node":"n1"}
supplier02 {"do":"add_frame","variant":"v1","frame":"f","node":"n1"}
supplier01 {"do":"place","variant":"v1","frame":"f","slot":3,"channels":"B","base":1,"repetition":5}
supplier01 {"do":"place","variant":"v1","frame":"f","slot":3,"channels":"A","base":1,"repetition":5}
supplier01 {"do":"place","variant":"v1","frame":"F","slot":3,"channels":"AB","base":0,"repetition":10}
supplier02 {"do":"place","variant":"v1","frame":"f","slot":4,"channels":"B","base":0,"repetition":1}
supplier01 {"do":"add_signal","variant":"v1","frame":"f","signal":"x","start":4,"length":8,"order":"little"}
supplier01 {"do":"add_signal","variant":"v1","frame":"f","signal":"y","start":3,"length":8,"order":"big"}
integrator1 {"do":"release","variant":"v1"}
integrator1 {"do":"open_variant","variant":"v2","from":"v1"}
supplier01 {"do":"drop_signal","variant":"v2","frame":"f","signal":"x"}
"""
FIGURES = {
    "static_slots": 4, "slot_macroticks": 10, "dynamic_macroticks": 40, "symbol_macroticks": 10, "idle_macroticks": 10, "macroticks_per_cycle": 100,
    "payload_words": 1, "cycles": 10,
}
X, Y = Signal(4, 8, "little", "x"), Signal(3, 8, "big", "y")
FRAMES = (
    Frame("S1", "f", "n1", (Placement(4, "B", 0, 1),)),
    Frame("s1", "F", "n1", (Placement(3, "AB", 0, 10),)),
    Frame("s1", "f", "n1", (Placement(3, "A", 1, 5), Placement(3, "B", 1, 5)), (Y, X)),
)
GRANTS = Grant(3, "A", "s1", "n1"), Grant(3, "B", "s1", "n1"), Grant(4, "B", "S1", "n1")
NODES = Node("S1", "n1"), Node("s1", "n1")
PLAN = Plan(Cluster("AB", FIGURES, ("S1", "idle", "s1")), Variant("v1", None, 1, True), NODES, GRANTS, FRAMES)


def of_supplier(name):
    """What a supplier sees of the plan."""
    own = lambda rows: tuple(row for row in rows if row.supplier == name)
    return Plan(replace(PLAN.cluster, suppliers=(name,)), PLAN.variant, own(NODES), own(GRANTS), own(FRAMES))


class Reading(ClientCase):
    """A plan that is read is the one that was asked for, whoever reads it, of a file as over HTTP."""

    def setUp(self):
        super().setUp()
        self.see("what was typed is done", {'{"ok":"done"}'}, set(self.made_of(SCRIPT)))

    def test_file(self):
        for supplier in None, "s1", "S1", "idle":
            wanted = of_supplier(supplier) if supplier else PLAN
            plan = read(RegisterFile(self.folder / "car.db", self.program, supplier), "v1")
            self.see(f"the plan of {supplier}", wanted, plan)
            self.see(f"who reads as {supplier}", None if supplier == "idle" else supplier, plan.reader)

    def test_server(self):
        with self.served() as (_, port):
            for path in "", "/":
                for key, wanted in ("integrator1", PLAN), ("supplier01", of_supplier("s1")), ("supplier03", of_supplier("idle")):
                    self.see(f"the plan by {key}", wanted, read(Server(f"http://127.0.0.1:{port}{path}", key), "v1"))

    def test_open(self):
        """A variant that is open, opened from another."""
        wanted = replace(PLAN, variant=Variant("v2", "v1", 2, False), frames=(*FRAMES[:2], replace(FRAMES[2], signals=(Y,))))
        plan = read(RegisterFile(self.folder / "car.db", self.program), "v2")
        self.see("the plan", wanted, plan)
        self.see("what differs", ["- SIGNAL f 0004 08 little x s1"], differences(PLAN, plan))
        self.see("the other way round", ["+ SIGNAL f 0004 08 little x s1"], differences(plan, PLAN))


class Many(ClientCase):
    """A large plan is read whole: of 64 suppliers, with 2,046 frames and 6,138 signals."""

    seconds = 10

    def test_rows(self):
        cluster, requests, plan = limits(share=1, signals=3)
        self.made_of(f"{cluster}\n---\n{requests}")
        got = read(RegisterFile(self.folder / "car.db", self.program), "v1")
        self.see("grants", sorted(plan["grants"]), sorted((it.slot, it.channel, it.node, it.supplier) for it in got.grants))
        self.see("frames", sorted((it[2], it[0], it[1]) for it in plan["frames"]), [(it.supplier, it.name, it.node) for it in got.frames])
        placed = {(it[2], it[0]): [(int(slot), channel, bases) for slot, channel, bases in it[3]] for it in plan["frames"]}
        self.see("placements", placed, {it.key: [(at.slot, at.channels, f"{at.base}/{at.repetition}") for at in it.placements] for it in got.frames})
        laid = {key: sorted(rows) for key, rows in plan["layouts"].items()}
        self.see("signals", laid, {it.key: sorted((at.name, at.start, at.length, at.order) for at in it.signals) for it in got.frames})


class Torn(Case):
    """Rows that do not fit together make no plan: no register tells them."""

    ROWS = ["GRANT 0001 A n1 s1", "FRAME f n1 s1", "AT f 0001 A 00 01 s1", "SIGNAL f 0000 01 little x s1", "GAP     100 f s1"]

    def test_torn(self):
        self.see("a whole plan", 1, len(read(TypedSource(rows=self.ROWS), "v1").frames))
        self.see("nothing of a variant", (), read(TypedSource(rows=[]), "v1").frames)
        for row, other in (
            (0, ""), (0, "GRANT 0001 A n2 s1"), (0, "GRANT 0001 A n1 s2"), (1, ""), (1, "FRAME f n2 s1"), (1, "FRAME g n1 s1"), (1, "+ FRAME f n1 s1"),
            (2, "AT f 0001 A 00 s1"), (2, "AT f 0002 A 00 01 s1"), (3, "SIGNAL g 0000 01 little x s1"), (3, "SIGNAL f zero 01 little x s1"),
        ):
            rows = [*self.ROWS[:row], *([other] if other else []), *self.ROWS[row + 1 :]]
            with self.assertRaises(Fault) as ended:
                read(TypedSource(rows=rows), "v1")
            fault = str(ended.exception)
            self.see(f"with {other!r} in place of {self.ROWS[row]!r}: {fault}", True, fault.startswith("what SOURCE tells is no report of a register"))


class Pages(BaseHTTPRequestHandler):
    """A server that is none of a register: it answers each request with a page on which to log in."""

    TEXT = b"<html>\n<body>Who are you?</body>\n</html>\n"

    def do_GET(self):
        self.send_response(200)
        self.send_header("Content-Length", str(len(self.TEXT)))
        self.end_headers()
        self.wfile.write(self.TEXT)

    def log_message(self, *words):
        pass


@contextmanager
def pages(certificate=None):
    """The port of such a server, by TLS where it has a certificate."""
    with HTTPServer(("127.0.0.1", 0), Pages) as server:
        if certificate:
            context = ssl.SSLContext(ssl.PROTOCOL_TLS_SERVER)
            context.load_cert_chain(certificate)
            server.socket = context.wrap_socket(server.socket, server_side=True)
        thread = Thread(target=server.serve_forever, kwargs={"poll_interval": 0.01})
        thread.start()
        try:
            yield server.server_port
        finally:
            server.shutdown()
            thread.join()


class Ends(ClientCase):
    """What is wrong is told in a line, with status 2; a key is read from a file or standard input, and nothing shows it."""

    def setUp(self):
        super().setUp()
        self.made_of(FIRST.decode())

    def test_words(self):
        more = lambda command="": f"; slotplan-plans{command} --help tells more"
        self.stops("the following arguments are required: COMMAND" + more(), program=False)
        self.stops("the following arguments are required: VARIANT, kind" + more(" table"), "table", "car.db")
        self.stops("unrecognized arguments: --nothing" + more(), "table", "car.db", "v1", "nodes", "--nothing")
        self.stops("argument kind: invalid choice: 'frames' (choose from 'nodes', 'grants')" + more(" table"), "table", "car.db", "v1", "frames")
        status, written, said = self.client("--help", program=False)
        self.see("help", (0, True, ""), (status, all(name in written for name in ("table", "arrange", "dump")), said))

    def test_sources(self):
        self.stops("there is no variant v9; there are: v1", "table", "car.db", "v9", "nodes")
        self.stops('car.db: {"no":14,"refused":"NoSupplier"}', "table", "car.db", "v1", "nodes", "--supplier", "s9")
        self.stops("none.db: there is no such file", "table", "none.db", "v1", "nodes")
        self.stops("the program none cannot be started: No such file or directory; --program names another",
                   "table", "car.db", "v1", "nodes", "--program", "none", program=False)

    def test_no_register(self):
        """Another server answers, another program, or nobody can be at an address."""
        no_report = "what SOURCE tells is no report of a register"
        self.has("integrator.key", "integrator1\n")
        with pages() as port:
            for words in ("table", f"http://127.0.0.1:{port}", "v1", "nodes"), ("dump", f"http://127.0.0.1:{port}", "a.script", "--new-keys"):
                self.stops(no_report, *words, "--key", "integrator.key")
        self.has("greets", "#!/bin/sh\nread request\necho Good day\n")
        (self.folder / "greets").chmod(0o700)
        self.stops(no_report, "table", "car.db", "v1", "nodes", "--program", "./greets", program=False)
        self.stops("http://[::1: Invalid IPv6 URL", "table", "http://[::1", "v1", "nodes", "--key", "integrator.key")
        self.see("no script", False, (self.folder / "a.script").exists())

    def test_keys(self):
        """Of a server."""
        self.has("s1.key", "X-Office-Key: supplier01\r\n")
        self.has("wrong.key", "nobody123\n")
        table = "table", "v1", "grants"
        asked = lambda url, *key: (table[0], url, *table[1:], *key)
        with self.served() as (_, port):
            url = f"http://127.0.0.1:{port}"
            self.writes("slot,channel,supplier,node\n1,A,s1,n1\n", *asked(url, "--key", "s1.key"))
            self.writes("slot,channel,supplier,node\n1,A,s1,n1\n", *asked(url, "--key", "-"), given="integrator1")
            self.stops(f'{url}: 401 Unauthorized {{"no":2,"refused":"UnknownKey"}}', *asked(url, "--key", "wrong.key"))
            self.stops("--key names a file, whose first line is the key; there is no such file", *asked(url, "--key", "integrator1"))
            for wrong in f"{url}/v1", f"{url}/car/":
                self.stops(f"{wrong}: there is no register; SOURCE is the address of its page, without /v1", *asked(wrong, "--key", "s1.key"))
            self.stops("standard input: the first line is no key, which is 8 to 64 letters and digits", *asked(url, "--key", "-"))
            needed = "a server is asked with --key, and without --supplier: it tells what the key's owner sees"
            self.stops(needed, *asked(url))
            self.stops(needed, *asked(url, "--key", "s1.key", "--supplier", "s1"))
        self.stops(f"{url}: [Errno 111] Connection refused", *asked(url, "--key", "s1.key"))
        without = "a file is read without --key; the address of a server begins with http:// or https://"
        self.stops(without, "table", "car.db", "v1", "nodes", "--key", "s1.key")

    def test_reader_that_stops(self):
        """Whoever reads may end first; then nothing is said."""
        line = f'{sys.executable} -m clients.slotplan_plans table car.db v1 nodes --program "$1" | true; echo "${{PIPESTATUS[0]}}"'
        env = {**os.environ, "PYTHONPATH": str(TOP)}
        got = subprocess.run(["bash", "-c", line, "bash", self.program], cwd=self.folder, env=env, capture_output=True)
        self.see("nothing is said", b"", got.stderr)


class Certificates(ClientCase):
    """A server that is asked by TLS."""

    may_be_skipped = True

    def setUp(self):
        super().setUp()
        if not shutil.which("openssl"):
            self.skipTest("there is no openssl")

    def test_certificate(self):
        """Whose certificate nobody knows is not shown the key, but where SSL_CERT_FILE names that certificate."""
        self.has("integrator.key", "integrator1\n")
        words = "req -x509 -newkey rsa:2048 -nodes -days 2 -subj /CN=own -addext subjectAltName=IP:127.0.0.1 -keyout own.pem -out own.pem"
        subprocess.run(["openssl", *words.split()], cwd=self.folder, check=True, capture_output=True)
        with pages(self.folder / "own.pem") as port:
            asked = "table", f"https://127.0.0.1:{port}", "v1", "nodes", "--key", "integrator.key"
            _, _, said = self.client(*asked)
            self.see(f"{said!r} tells why", True, "certificate verify failed" in said)
            with patch.dict(os.environ, SSL_CERT_FILE=str(self.folder / "own.pem")):
                self.stops("what SOURCE tells is no report of a register", *asked)


class Tables(ClientCase):
    """The tables of nodes and grants, which `arrange` reads again."""

    def test_table(self):
        self.made_of(SCRIPT)
        self.writes("supplier,node\nS1,n1\ns1,n1\n", "table", "car.db", "v2", "nodes")
        self.writes("slot,channel,supplier,node\n3,A,s1,n1\n3,B,s1,n1\n4,B,S1,n1\n", "table", "car.db", "v2", "grants")
        self.writes("slot;channel;supplier;node\n4;B;S1;n1\n", "table", "car.db", "v2", "grants", "--semicolons", "--supplier", "S1")
        self.writes("supplier,node\n", "table", "car.db", "v1", "nodes", "--supplier", "idle")


class Installed(ClientCase):
    """The one file that `make` installs needs nothing of the repository."""

    def test_archive(self):
        self.made_of(FIRST.decode())
        archive.make(self.folder / "bin/slotplan-plans")
        command = [self.folder / "bin/slotplan-plans", "table", "car.db", "v1", "nodes", "--program", self.program]
        ended = subprocess.run(command, cwd=self.folder, env={"PATH": os.environ["PATH"]}, capture_output=True, text=True)
        self.see("its table", (0, "supplier,node\ns1,n1\n", ""), (ended.returncode, ended.stdout, ended.stderr))

    def test_make(self):
        """`make install` puts it beside the program."""
        said = subprocess.run(["make", "-n", "install", "PROVED=no", "PREFIX=/there"], cwd=TOP, capture_output=True, text=True).stdout
        self.see("where it goes", True, "install -D -m 755 out/slotplan-plans /there/bin/slotplan-plans\n" in said)


class Page(Case):
    """The commands of the page of clients/ print what stands behind them there."""

    seconds = 10

    def test_commands(self):
        page = (TOP / "clients/README.md").read_text()
        _, steps = follow(page, THERE["clients/README.md"])
        self.see("it has commands", True, bool(steps))
        self.see("blocks of the console with no line of text before them", 0, blocks_left_out(page))
        for step in steps:
            self.see(f"$ {step.command}", step.wanted, step.printed)
