"""Nodes and grants by tables, with `slotplan-plans arrange`: what it says, what it sends, and where it stops.

What is wanted was typed by hand."""
import random
import tomllib
from unittest.mock import patch

from clients.slotplan_plans.arranging import steps_to
from clients.slotplan_plans.faults import Fault
from clients.slotplan_plans.plan import Grant, Node
from clients.slotplan_plans.reading import read
from clients.slotplan_plans.sources import Server
from clients.slotplan_plans.tables import grants_of, nodes_of
from tests.drivers.plans_client import ClientCase, TypedSource, ended
from tests.drivers.program import ran
from tests.models.plans import examples
from tests.models.scripts import CLUSTER, cluster_file
from tests.models.workbook import open_workbook, workbook
from tests.runner.case import Case

DONE = '{"ok":"done"}'
REQUESTS = """\
integrator1 {"do":"open_variant","variant":"v1"}
integrator1 {"do":"add_node","supplier":"s1","node":"n1"}
integrator1 {"do":"add_node","supplier":"s2","node":"n1"}
integrator1 {"do":"grant","variant":"v1","slot":1,"channel":"A","supplier":"s1","node":"n1"}
integrator1 {"do":"grant","variant":"v1","slot":1,"channel":"B","supplier":"s1","node":"n1"}
integrator1 {"do":"grant","variant":"v1","slot":2,"channel":"A","supplier":"s2","node":"n1"}
integrator1 {"do":"grant","variant":"v1","slot":2,"channel":"B","supplier":"s2","node":"n1"}
supplier01 {"do":"add_frame","variant":"v1","frame":"f","node":"n1"}
supplier01 {"do":"add_frame","variant":"v1","frame":"g","node":"n1"}
supplier01 {"do":"place","variant":"v1","frame":"g","slot":1,"channels":"A","base":1,"repetition":2}
supplier01 {"do":"place","variant":"v1","frame":"f","slot":1,"channels":"AB","base":0,"repetition":2}
"""
# The same, as reports tell it.
PLAN = {
    "nodes": ["n1 s1", "n1 s2"],
    "rows": [
        "GRANT 0001 A n1 s1", "GRANT 0001 B n1 s1", "GRANT 0002 A n1 s2", "GRANT 0002 B n1 s2", "FRAME f n1 s1", "FRAME g n1 s1", "AT f 0001 AB 00 02 s1",
        "AT g 0001 A 01 02 s1", "GAP     200 f s1", "GAP     200 g s1",
    ],
}
NODES = "supplier,node\ns1,n1\ns1,n2\ns2,n1\n"
HELD = "slot,channel,supplier,node\n1,A,s1,n1\n1,B,s1,n1\n2,A,s2,n1\n2,B,s2,n1\n"
HINT = "; nothing was sent: --do sends it"
# The request for slot 2 on A, where `n2` of `s1` is to have it.
GRANT = '{"do":"grant","variant":"v1","slot":2,"channel":"A","supplier":"s1","node":"n2"}'


def tables(folder, nodes=None, grants=None):
    """The words that name these tables, which are in the folder then."""
    for name, text in ("nodes", nodes), ("grants", grants):
        if text is not None:
            (folder / f"{name}.csv").write_text(text)
            yield from (f"--{name}", f"{name}.csv")


class Saying(Case):
    """What would be granted, revoked and refused is said first, with the reason."""

    def says(self, text, *more, nodes=None, grants=None, status=0, source=TypedSource(**PLAN)):
        with patch("clients.slotplan_plans.arranging.source_of", lambda given, asked: source):
            words = "arrange", "car.db", "v1", *tables(self.folder, nodes, grants), *more
            self.see(f"{nodes}{grants}", (status, text, ""), ended(self.folder, words))

    def test_nothing_to_do(self):
        self.says("revocations: 0, nodes: 0, grants: 0, refused: 0\n", nodes="supplier,node\ns2,n1\n", grants=HELD)

    def test_changes(self):
        """Revocations come first, then nodes, then grants; a node that the table lacks stays."""
        grants = "slot,channel,supplier,node\n1,AB,s1,n1\n2,A,s1,n2\n3,AB,s2,n1\n"
        self.says(
            "- GRANT 0002 A n1 s2\n- GRANT 0002 B n1 s2\n+ NODE n2 s1\n+ GRANT 0002 A n2 s1\n+ GRANT 0003 A n1 s2\n+ GRANT 0003 B n1 s2\n"
            f"revocations: 2, nodes: 1, grants: 3, refused: 0{HINT}\n",
            nodes="supplier,node\ns1,n2\n",
            grants=grants,
        )

    def test_in_use(self):
        """A slot in which something is sent stays, whether the table lacks it or gives it to another; it names the frames."""
        self.says(
            "refused: - GRANT 0001 A n1 s1: in use: s1 sends f g there\nrefused: + GRANT 0001 B n1 s2: in use: s1 sends f there\n"
            "revocations: 0, nodes: 0, grants: 0, refused: 2\n",
            grants="slot,channel,supplier,node\n1,B,s2,n1\n2,AB,s2,n1\n",
            status=1,
        )

    def test_keep(self):
        """With --keep nothing is revoked: what the table lacks stays, and a slot of another supplier or node is refused."""
        self.says(
            "refused: + GRANT 0002 A n1 s1: s2 holds it\nrefused: + GRANT 0002 B n2 s2: s2 holds it for n1\n+ NODE n2 s2\n+ GRANT 0003 A n2 s2\n"
            f"revocations: 0, nodes: 1, grants: 1, refused: 2{HINT}\n",
            "--keep",
            nodes="supplier,node\ns2,n2\n",
            grants="slot,channel,supplier,node\n2,A,s1,n1\n2,B,s2,n2\n3,A,s2,n2\n",
            status=1,
        )

    def test_refused(self):
        """Where a slot's new grant cannot be, the old one stays."""
        self.says(
            "refused: + NODE n-2 s1: 'n-2' is no name, which is 1 to 32 letters, digits and underscores, a letter first\n"
            "refused: + NODE n1 s9: there is no supplier 's9'\n"
            "refused: + GRANT 0000 A n1 s1: the cluster has the slots 1 to 4\n"
            "refused: + GRANT 0002 A n7 s1: s1 has no node n7\n"
            "refused: + GRANT 0002 B n-2 s1: 'n-2' is no name, which is 1 to 32 letters, digits and underscores, a letter first\n"
            "refused: + GRANT 0003 A n1 s1: lines 7 and 8 differ in who has it\n"
            "refused: + GRANT 0003 A n1 s2: lines 7 and 8 differ in who has it\n"
            "refused: + GRANT 0003 B n1 s9: there is no supplier 's9'\n"
            "refused: + GRANT 0005 A n1 s1: the cluster has the slots 1 to 4\n"
            "revocations: 0, nodes: 0, grants: 0, refused: 9\n",
            nodes="supplier,node\ns9,n1\ns1,n-2\n",
            grants="slot,channel,supplier,node\n1,AB,s1,n1\n1,A,s1,n1\n2,A,s1,n7\n2,B,s1,n-2\n5,A,s1,n1\n3,A,s1,n1\n3,A,s2,n1\n3,B,s9,n1\n"
            "0,A,s1,n1\n",
            status=1,
        )

    def test_limit(self):
        """Two of 64 nodes more have no place beside `n1`."""
        nodes = "".join(f"s1,m{number}\n" for number in range(10, 74))
        text = "".join(f"+ NODE m{number} s1\n" for number in range(10, 73))
        self.says(
            f"refused: + NODE m73 s1: s1 has 64 nodes\n{text}revocations: 0, nodes: 63, grants: 0, refused: 1{HINT}\n",
            nodes=f"supplier,node\n{nodes}",
            status=1,
        )

    def test_released(self):
        self.says(
            f"refused: + GRANT 0003 A n1 s1: v1 is released\n+ NODE n2 s1\nrevocations: 0, nodes: 1, grants: 0, refused: 1{HINT}\n",
            nodes=NODES,
            grants=f"{HELD}3,A,s1,n1\n",
            status=1,
            source=TypedSource(state="released", **PLAN),
        )

    def test_one_channel(self):
        """A cluster without channel B."""
        self.says(
            "refused: + GRANT 0003 B n1 s1: the cluster has no channel B\n+ GRANT 0003 A n1 s1\n"
            f"revocations: 0, nodes: 0, grants: 1, refused: 1{HINT}\n",
            grants="slot,channel,supplier,node\n3,AB,s1,n1\n",
            status=1,
            source=TypedSource(channels="A", nodes=["n1 s1"], rows=[]),
        )


class Arranging(ClientCase):
    """A test of a register in which `s1` sends in slot 1, and `s2` holds slot 2."""

    def setUp(self):
        super().setUp()
        self.see("what was typed is done", {DONE}, set(self.made_of(f"{cluster_file(CLUSTER)}---\n{REQUESTS}")))
        self.has("integrator.key", "integrator1\n")

    def tables(self, nodes=None, grants=None):
        return tables(self.folder, nodes, grants)

    def sends(self, text, *more, nodes=None, grants=None, status=0):
        self.writes(text, "arrange", "car.db", "v1", *self.tables(nodes, grants), "--do", "--key", "integrator.key", *more, status=status)

    def held(self):
        nodes = self.rows("SELECT supplier, name FROM nodes ORDER BY 1, 2")
        return nodes, self.rows("SELECT slot, channel, supplier, node FROM grants ORDER BY 1, 2")


class Sending(Arranging):
    """With --do the requests are sent one by one, of a file as over HTTP; the way back is `table`."""

    WANTED = "slot,channel,supplier,node\n1,A,s1,n1\n1,B,s1,n1\n2,A,s1,n2\n3,B,s2,n1\n"
    SAID = (
        "- GRANT 0002 A n1 s2\n- GRANT 0002 B n1 s2\n+ NODE n2 s1\n+ GRANT 0002 A n2 s1\n+ GRANT 0003 B n1 s2\n"
        "revocations: 2, nodes: 1, grants: 2, refused: 0\n"
    )
    AGAIN = "revocations: 0, nodes: 0, grants: 0, refused: 0\n"

    def is_arranged(self, source="car.db", *key):
        self.writes(NODES, "table", source, "v1", "nodes", *key)
        self.writes(self.WANTED, "table", source, "v1", "grants", *key)

    def test_file(self):
        self.sends(self.SAID, nodes=NODES, grants=self.WANTED)
        self.is_arranged()
        self.sends(self.AGAIN, nodes=NODES, grants=self.WANTED)

    def test_server(self):
        with self.served() as (_, port):
            url, key = f"http://127.0.0.1:{port}", ("--key", "integrator.key")
            words = "arrange", url, "v1", *self.tables(NODES, self.WANTED), *key
            self.writes(self.SAID.replace("0\n", f"0{HINT}\n"), *words)
            self.writes(self.SAID, *words, "--do")
            self.is_arranged(url, *key)
            self.writes(self.AGAIN, *words, "--do")
            self.has("s1.key", "supplier01\n")
            self.stops("the key is of s1: nodes and grants are the integrator's", *words[:-1], "s1.key")

    def test_other_rows_are_sent(self):
        """What would be refused is not sent, and the rest is."""
        self.sends(
            "refused: + GRANT 0004 A n9 s1: s1 has no node n9\n+ GRANT 0003 A n1 s1\nrevocations: 0, nodes: 0, grants: 1, refused: 1\n",
            grants=f"{HELD}3,A,s1,n1\n4,A,s1,n9\n",
            status=1,
        )
        self.see("the grant is there", (3, "A", "s1", "n1"), self.held()[1][-1])

    def test_words(self):
        self.stops("arrange needs --nodes or --grants", "arrange", "car.db", "v1")
        self.stops(
            "--do needs --key: the file whose first line is the integrator's key", "arrange", "car.db", "v1", *self.tables(NODES), "--do"
        )

    def test_stop(self):
        """A supplier's key grants nothing: the first request is refused. Where the table lacks a grant that a supplier uses meanwhile, it goes on."""
        self.has("s1.key", "supplier01\n")
        words = "arrange", "car.db", "v1", *self.tables(grants=self.WANTED.replace("n2", "n1")), "--do", "--key"
        self.stops("- GRANT 0002 A n1 s2: 3 NotYours; 0 of 4 were done, and the same call goes on", *words, "s1.key")
        self.see("the grants stay", 4, len(self.held()[1]))

    def test_refused_between(self):
        """Somebody else takes a slot before its request comes: that is refused, and ends the call. The same call does the rest."""
        words = "v1", *self.tables(NODES, self.WANTED), "--key", "integrator.key", "--do"
        theirs, reply = GRANT.replace("n2", "n1").replace("s1", "s2"), Server.reply

        def between(server, method, path, body=None):
            if body == GRANT:
                self.see("somebody else is first", DONE, reply(server, "POST", "commands", theirs)[-1].strip())
            return reply(server, method, path, body)

        with self.served() as (_, port):
            words = "arrange", f"http://127.0.0.1:{port}", *words
            with patch.object(Server, "reply", between):
                done = "- GRANT 0002 A n1 s2\n- GRANT 0002 B n1 s2\n+ NODE n2 s1\n"
                self.stops("+ GRANT 0002 A n2 s1: 24 Taken; 3 of 5 were done, and the same call goes on", *words, written=done)
            left = "- GRANT 0002 A n1 s2\n+ GRANT 0002 A n2 s1\n+ GRANT 0003 B n1 s2\nrevocations: 1, nodes: 0, grants: 2, refused: 0\n"
            self.writes(left, *words)
            self.is_arranged(words[1], "--key", "integrator.key")

    def test_stop_between(self):
        """The server ends behind some of the requests; the same call does the rest."""
        words = *self.tables(NODES, self.WANTED), "--key", "integrator.key", "--do"
        # (four reports are read before: the fifth and the sixth connection are the first two requests)
        with self.served("--count", "6") as (server, port):
            url = f"http://127.0.0.1:{port}"
            status, written, said = self.client("arrange", url, "v1", *words)
        self.see("what was done", (2, "- GRANT 0002 A n1 s2\n- GRANT 0002 B n1 s2\n"), (status, written))
        self.see("where it stopped", True, said.startswith(f"slotplan-plans: {url}: "))
        self.see("how far it came", "; 2 of 5 were done, and the same call goes on\n", said[said.rindex(";") :])
        left = "+ NODE n2 s1\n+ GRANT 0002 A n2 s1\n+ GRANT 0003 B n1 s2\nrevocations: 0, nodes: 1, grants: 2, refused: 0\n"
        self.writes(left, "arrange", "car.db", "v1", *words)
        self.is_arranged()


class Examples(ClientCase):
    """The tables of each variant of each example give a register of the same suppliers its nodes and grants."""

    seconds = 10

    def test_examples(self):
        for name, cluster, requests in examples():
            key = tomllib.loads(cluster)["integrator"]
            joined = "".join(f"{line}\n" for line in requests.splitlines() if '"do":"add_supplier"' in line)
            self.made_of(f"{cluster}---\n{requests}", db=f"{name}.db")
            self.has("integrator.key", key)
            for variant, *_ in self.rows("SELECT name FROM variants ORDER BY name", f"{name}.db"):
                of_variant = f'{joined}{key} {{"do":"open_variant","variant":"{variant}"}}\n'
                self.made_of(f"{cluster}---\n{of_variant}", db=f"{name}_{variant}.db")
                self.comes_back(f"{name}.db", f"{name}_{variant}.db", variant)

    def comes_back(self, db, again, variant):
        told = {kind: self.client("table", db, variant, kind)[1] for kind in ("nodes", "grants")}
        self.see(f"{db} {variant} has rows", True, all(text.count("\n") > 1 for text in told.values()))
        words = *tables(self.folder, **told), "--do", "--key", "integrator.key"
        status, written, said = self.client("arrange", again, variant, *words)
        self.see(f"{db} {variant} is arranged", (0, "", True), (status, said, written.endswith("refused: 0\n")))
        for report in ("nodes", again), ("grants", again, variant):
            self.see(f"{db} {variant}: {report[0]}", *(ran([report[0], file, *report[2:]], self.folder) for file in (db, again)))


class Foreseen(Arranging):
    """What it says beforehand is what the register does: each request that it would send is done, and each that it holds back is refused."""

    # What the register answers where this is the reason.
    ANSWERS = {
        "in use": {"InUse", "Taken", "NodeDiffers"}, "the cluster has the slots": {"BadSlot"}, "there is no supplier": {"NoSupplier"},
        "holds it": {"Taken", "NodeDiffers"}, "has no node": {"NoNode"},
    }

    def test_by_chance(self):
        dice, met = random.Random(1), set()
        with self.served() as (_, port):
            url = f"http://127.0.0.1:{port}"
            source = Server(url, "integrator1")
            with source.asked() as ask:
                for number in range(12):
                    self.is_sent(url, dice, number)
                    steps = steps_to(read(source, "v1"), *tables_by_chance(dice), keep=number % 3 == 2)
                    # (nodes that come, what is held back, and then the rest)
                    for step in sorted(steps, key=lambda step: (isinstance(step.row, Grant) or step.why != "", step.why == "")):
                        reason = next((it for it in self.ANSWERS if it in step.why), step.why)
                        met.add((step.sign, reason))
                        self.see(f"{number}: {step}", True, ask(step.request("v1")).get("refused", "") in self.ANSWERS.get(reason, {""}))
        self.see("reasons that were met", {*self.ANSWERS, ""}, {reason for _, reason in met})
        wanted = {("-", ""), ("+", ""), ("-", "in use"), ("+", "in use")}
        self.see("what was done, and what was held back", wanted, {it for it in met if it[1] in ("", "in use")})

    def is_sent(self, url, dice, number):
        """Each supplier adds a frame, and places it where it can."""
        for key in "supplier01", "supplier02":
            with Server(url, key).asked() as ask:
                ask({"do": "add_frame", "variant": "v1", "frame": f"f{number}", "node": dice.choice(("n1", "n2"))})
                for slot in range(1, 5):
                    place = {"slot": slot, "channels": dice.choice(("A", "B")), "base": number, "repetition": 64}
                    ask({"do": "place", "variant": "v1", "frame": f"f{number}", **place})


def tables_by_chance(dice):
    """Nodes and grants, each with its line: a row for most slots and channels, some of suppliers, nodes and slots that are not there."""
    who = lambda: (dice.choice(("s1", "s1", "s2", "s2", "s9")), dice.choice(("n1", "n1", "n2", "n3")))
    lanes = [(slot, channel) for slot in (1, 2, 3, 4, 5) for channel in "AB" if dice.random() < 0.7]
    return [(2, Node(*who()))], [(line, Grant(*lane, *who())) for line, lane in enumerate(lanes, 2)]


class Spreadsheets(Case):
    """Tables are read as spreadsheets save them; what is no table is told with its line."""

    ROWS = ["slot", "channel", "supplier", "node"], ["1", "AB", "s1", "n1"], ["1023", "B", "s2", "n_2"]
    GRANTS = [(2, Grant(1, "A", "s1", "n1")), (2, Grant(1, "B", "s1", "n1")), (3, Grant(1023, "B", "s2", "n_2"))]

    def table(self, data):
        path = self.folder / "grants.csv"
        path.write_bytes(data if isinstance(data, bytes) else data.encode())
        return path

    def reads(self, data, wanted=GRANTS):
        self.see(f"{data!r}", wanted, list(grants_of(self.table(data))))

    def stops(self, said, call):
        with self.assertRaises(Fault) as fault:
            list(call())
        self.see("the fault", said, str(fault.exception).replace(f"{self.folder}/", ""))

    def test_forms(self):
        """Marks between fields, ends of lines, byte order marks, quotes."""
        for mark in ",;\t":
            lines = [mark.join(row) for row in self.ROWS]
            for end in "\n", "\r\n", "\r":
                text = end.join(lines) + end
                for data in text.encode(), text.encode("utf-8-sig"), text.encode("utf-16"), text.rstrip().encode():
                    self.reads(data)
                self.reads(end.join(mark.join(f'"{field}"' for field in row) for row in self.ROWS))

    def test_workbooks(self):
        """Of Excel and of LibreOffice: the sheet is read whose first row names the columns."""
        rows = [list(row) for row in self.ROWS]
        for made in workbook, open_workbook:
            self.reads(made(rows))
            self.reads(made([[*row[::-1], ""] for row in rows]))
            said = "grants.csv: no sheet has a first row that names the columns slot, channel, supplier, node"
            self.stops(said, lambda: grants_of(self.table(made(rows[1:]))))

    def test_looks(self):
        """Columns in another order and more of them, capital letters in the header, spaces, leading zeros, letters of other codes, empty rows."""
        self.reads("node;Slot; channel ;remark;SUPPLIER;;\nn1;0001;AB;\"für später; ja\";s1;;\nn_2; 1023 ;B;;s2\n".encode())
        self.reads("node;slot;channel;supplier;remark\nn1;1;AB;s1;für\nn_2;1023;B;s2\n".encode("latin-1"))
        late = [(5, grant) for _, grant in self.GRANTS[:2]] + [(7, self.GRANTS[2][1])]
        self.reads("slot,channel,supplier,node\n\n,,,\n , ,,\n1,AB,s1,n1\n\n1023,B,s2,n_2\n", late)
        self.reads("slot,channel,supplier,node\n", [])

    def test_nodes(self):
        wanted = [(2, Node("s1", "n1")), (3, Node("s1", "n1")), (4, Node("1s", "n"))]
        self.see("nodes", wanted, list(nodes_of(self.table("node;supplier\nn1;s1\nn1;s1\nn;1s\n"))))

    def test_no_table(self):
        stops = lambda said, data: self.stops(f"grants.csv: {said}", lambda: grants_of(self.table(data)))
        header = "slot,channel,supplier,node\n"
        for text in "", "1,A,s1,n1\n", "slot,channel,supplier\n1,A,s1\n", "slot|channel|supplier|node\n", "\0":
            stops("the first line does not name the columns slot, channel, supplier, node", text)
        stops("line 3: the slot 'x' is no number", f"{header}1,AB,s1,n1\nx,A,s1,n1\n")
        stops("line 2: the slot '\\xb2' is no number", f"{header}\xb2,A,s1,n1\n")
        stops("line 2: the channel 'a' is none of A, B and AB", f"{header}1,a,s1,n1\n")
        stops("line 4: there is no node", f"{header}\n1,A,s1,n1\n1,B,s1\n")
        stops("line 2: field larger than field limit (131072)", f"{header}{'1' * 140000},A,s1,n1\n")
        self.stops("none.csv: No such file or directory", lambda: nodes_of(self.folder / "none.csv"))
