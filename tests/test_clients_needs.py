"""What slots wishes need, by `slotplan-plans needs`: typed by hand, by chance, and at the limits; what it grants is enough for each proposal."""
import json
import random
import shutil
from fractions import Fraction
from itertools import combinations
from math import ceil

from clients.slotplan_plans import evenly
from clients.slotplan_plans.plan import Cluster, Frame, Grant, Node, Placement
from clients.slotplan_plans.planning import Lacking, Planner, needs
from clients.slotplan_plans.wishes import Wanted
from tests.drivers.plans_client import ClientCase, request
from tests.drivers.program import ran
from tests.models.proposing import cells, proposed
from tests.models.scripts import CLUSTER, DONE, cluster_file
from tests.runner.case import Case
from tests.test_clients_rows import damaged

# Ten slots; from the last one to the first of the next cycle there are 110 macroticks.
TEN = {**CLUSTER, "static_slots": "10", "dynamic_macroticks": "80", "macroticks_per_cycle": "200"}
S1 = "frame,node,channels,repetition\nf,n1,AB,2\ng,n1,AB,4\nh,n1,A,4\nk,n1,A,2\nm,n2,B,64\n"
S2 = "frame;node;channels;cycle time (macroticks);remark\nx;n1;A;110;twice a cycle\ny;n1;B;200;\n"
TOLD = "s1 n1: A 2, B 1, both 1\ns1 n2: A 0, B 1, both 0\ns2 n1: A 2, B 1, both 0\nall: A 4 of 10, B 3 of 10\n"
GRANTS = "slot,channel,supplier,node\n1,A,s2,n1\n2,B,s2,n1\n3,A,s1,n1\n3,B,s1,n1\n4,A,s1,n1\n7,B,s1,n2\n10,A,s2,n1\n"
NODES = "supplier,node\ns1,n1\ns1,n2\ns2,n1\n"
HEADER = "frame,node,slot,channels,base,repetition\n"
PLACED = {
    "s1": f"{HEADER}f,n1,3,AB,0,2\ng,n1,3,AB,1,4\nh,n1,3,A,3,4\nk,n1,4,A,0,2\nm,n2,7,B,0,64\n",
    "s2": f"{HEADER}x,n1,1,A,0,1\nx,n1,10,A,0,1\ny,n1,2,B,0,1\n",
}
TABLES = "--grants", "grants.csv", "--nodes", "nodes.csv", "--placements", "made"


class NeedsCase(ClientCase):
    """A test of the command on wishes and a cluster of ten slots."""

    cluster = cluster_file(TEN).encode()

    def setUp(self):
        super().setUp()
        (self.folder / "wishes").mkdir()
        self.wishes(S1, S2)

    def wishes(self, *files):
        for number, text in enumerate(files, 1):
            self.has(f"wishes/s{number}.csv", text)

    def told(self, text, *words, status=0):
        self.see(f"needs {words}", (status, text, ""), self.client("needs", "wishes", *words, program=False))

    def written(self):
        return sorted(it.name for it in self.folder.iterdir() if it.name in ("grants.csv", "nodes.csv", "made"))


class Typed(NeedsCase):
    """Wishes of two suppliers, one of them of two slots in each cycle."""

    def test_cluster(self):
        self.told(f"{TOLD}the cluster has them; new grants: 7\n", "--cluster", "cluster.toml", *TABLES)
        self.see("grants", GRANTS, self.text("grants.csv"))
        self.see("nodes", NODES, self.text("nodes.csv"))
        for supplier, rows in PLACED.items():
            self.see(f"placements of {supplier}", rows, self.text(f"made/{supplier}/part00_placements.csv"))

    def test_register(self):
        """What is granted is arranged, and each supplier's file imported; then all is there."""
        self.register()
        asked = "--source", "car.db", "--variant", "v1", "--program", self.program
        self.told(f"{TOLD}the cluster has them; new grants: 7\n", *asked, *TABLES)
        tables = "--nodes", "nodes.csv", "--grants", "grants.csv"
        status, written, _ = self.client("arrange", "car.db", "v1", *tables, "--do", "--key", "integrator.key")
        self.see("it is arranged", (0, "revocations: 0, nodes: 3, grants: 7, refused: 0"), (status, written.splitlines()[-1]))
        self.told(f"{TOLD}the cluster has them; new grants: 0\n", *asked, "--grants", "again.csv")
        self.see("the same grants", GRANTS, self.text("again.csv"))
        for key, supplier, count in ("supplier01", "s1", 5), ("supplier02", "s2", 3):
            file = f"made/{supplier}/part00_placements.csv"
            wanted = f'{{"ok":"imported","rows":{count}}}\n'.encode()
            self.tell(["import", "car.db", "-", "v1", "week47", file], wanted, given=f"{key}\n".encode())
        gaps = ran(["gaps", "car.db", "v1"], self.folder)[1].decode().splitlines()
        self.see("the gap that was wanted", "GAP     110 x s2", next(line for line in gaps if " x " in line))

    def test_server(self):
        self.register()
        with self.served() as (_, port):
            url = f"http://127.0.0.1:{port}"
            self.told(f"{TOLD}the cluster has them; new grants: 7\n", "--source", url, "--variant", "v1", "--key", "integrator.key")
            self.has("s1.key", "supplier01\n")
            self.has("n1.txt", '{"do":"add_node","supplier":"s1","node":"n1"}')
            self.see("a node", DONE, self.shell(f"curl -s -d @n1.txt -H 'X-Office-Key: integrator1' {url}/v1/commands")[1].decode().strip())
            asked = "needs", "wishes", "--source", url, "--variant", "v1", "--key", "s1.key"
            self.stops("the key is of s1: grants are the integrator's", *asked, program=False)

    def register(self):
        self.create()
        self.has("integrator.key", "integrator1\n")
        self.see("a variant", [DONE], self.answers(request("integrator1", "open_variant", variant="v1")))

    def test_tables(self):
        """One table for all, in a column of which the supplier stands; a folder with folders; gaps in ms."""
        rows = "".join(f"s1,{line},\n" for line in S1.splitlines()[1:]) + "s2,x,n1,A,,2.2 ms\ns2,y,n1,B,,1 cycle\n"
        self.has("all.csv", f"supplier,frame,node,channels,repetition,gap\n{rows}")
        wanted = f"{TOLD}the cluster has them; new grants: 7\n"
        asked = "--cluster", "cluster.toml", "--macrotick", "20"
        self.see("one table", (0, wanted, ""), self.client("needs", "all.csv", *asked, program=False))
        (self.folder / "more/s2").mkdir(parents=True)
        self.has("more/s1.csv", S1)
        self.has("more/s2/wishes 47.tsv", S2.replace(";", "\t"))
        self.has("more/s2/.~lock.wishes 47.tsv#", "somebody")
        self.see("folders", (0, wanted, ""), self.client("needs", "more", *asked, program=False))
        self.see("files", (0, wanted, ""), self.client("needs", "wishes/s1.csv", "more/s2", *asked, program=False))

    def test_no_chain(self):
        """Of 12 cycles 4 and 6 divide neither the other: the sum of what they take is a bound alone. 4 and 3 never meet in one slot."""
        self.has("cluster.toml", cluster_file({**TEN, "cycles": "12"}))
        head = "frame,node,channels,repetition\n"
        for rows, need, new in ("f,n1,A,4\ng,n1,A,6\n", "A 1, B 0, both 0, or more", 1), ("f,n1,A,4\ng,n1,A,3\n", "A 1, B 0, both 0, or more", 2):
            self.wishes(head + rows, head)
            self.told(f"s1 n1: {need}\nall: A 1 of 10, B 0 of 10\nthe cluster has them; new grants: {new}\n", "--cluster", "cluster.toml")

    def test_one_channel(self):
        self.has("cluster.toml", cluster_file({**TEN, "channels": '"A"'}))
        head = "frame,node,channels,repetition\n"
        self.wishes(f"{head}f,n1,A,1\ng,n1,A,2\n", head)
        told = "s1 n1: A 2, B 0, both 0\nall: A 2 of 10\nthe cluster has them; new grants: 2\n"
        self.told(told, "--cluster", "cluster.toml", "--grants", "grants.csv")
        self.see("grants", "slot,channel,supplier,node\n1,A,s1,n1\n2,A,s1,n1\n", self.text("grants.csv"))
        self.wishes(f"{head}f,n1,AB,1\n", head)
        said = "wishes/s1.csv: line 2: the cluster has no channel B"
        self.stops(said, "needs", "wishes", "--cluster", "cluster.toml", program=False)

    def test_lacking(self):
        """The cluster has not the slots: nothing is written."""
        self.wishes(S1, "frame,node,channels,repetition\n" + "".join(f"x{number},n1,A,1\n" for number in range(9)))
        told = "s1 n1: A 2, B 1, both 1\ns1 n2: A 0, B 1, both 0\ns2 n1: A 9, B 0, both 0\nall: A 11 of 10, B 2 of 10\nlacking: 1 on A\n"
        self.told(told, "--cluster", "cluster.toml", *TABLES, status=1)
        self.wishes(S1, S2.replace("x;n1;A", "x;n1;AB") + "z;n1;AB;110;\n")
        status, written, _ = self.client("needs", "wishes", "--cluster", "cluster.toml", *TABLES, program=False)
        said = "no slots that are free keep the gap of 110 macroticks: wishes/s2.csv: line 4"
        self.see("two frames for the same two slots", (1, said), (status, written.splitlines()[-1]))
        self.see("what is written", [], self.written())

    def test_at_fault(self):
        stops = lambda said, *words: self.stops(said, "needs", *(words or ("wishes", "--cluster", "cluster.toml", *TABLES)), program=False)
        stops("needs wants the cluster: its file by --cluster, or a register by --source and --variant", "wishes")
        stops("--source and --variant go together: a register has its grants by variants", "wishes", "--source", "car.db")
        stops("nowhere: No such file or directory", "nowhere", "--cluster", "cluster.toml")
        for text, said in (
            (S1.replace("h,n1,A,4", "f,n2,A,4"), "line 4: the frame f is sent by the node n1, and not by n2"),
            (S1.replace("AB,4", "AB,5"), "line 3: the repetition 5 does not divide the 64 cycles"),
            (S1.replace("AB,4", "AC,4"), "line 3: the channels 'AC' are none of A, B and AB"),
            (S1 + "f,n1,A,64\n" * 8, "line 14: the frame f would have more than 8 placements"),
            (HEADER + "f,n1,1,A,0,1\n", "it has placements, and no wishes, whose columns are frame, node, channels, repetition or gap"),
            ("supplier," + S1.replace("\n", "\ns3,").removesuffix("s3,"), "line 2: there is no supplier s3"),
            ("frame,node,channels,gap\nf,n1,A,109 MT\n", "line 2: the gap is 109 macroticks: no slots of this cluster keep it"),
            ("frame,node,channels,gap\nf,n1,A,3 ms\n", "line 2: the gap is told in ms: --macrotick says how many microseconds a macrotick lasts"),
            ("\n".join(["frame,node,channels,repetition", *(f"f{it},n1,A,64" for it in range(257))]), "line 258: s1 would have more than 256 frames"),
        ):
            self.wishes(text)
            stops(f"wishes/s1.csv: {said}")
        self.wishes(S1)
        self.has("wishes/s3.csv", S1)
        stops("wishes/s3.csv: line 2: whose wish it is neither a column supplier says nor the name of the file")
        self.see("what is written", [], self.written())
        (self.folder / "wishes/s3.csv").unlink()
        (self.folder / "made").mkdir()
        stops("made is there already; name another folder, or move it away")
        self.see("what is written", ["made"], self.written())


class Damaged(NeedsCase):
    """Wishes with faults in 1 to 20 bytes: what they need is told, or one line what is at fault, and then nothing is written."""

    step = 10

    def test_damaged(self):
        numbers, refused = range(self.turn % self.each, 400, self.each), 0
        for number in numbers:
            dice = random.Random(number)
            hurt = damaged if dice.random() < 0.5 else with_a_letter
            (self.folder / "wishes/s1.csv").write_bytes(hurt(S1.encode(), dice))
            (self.folder / "wishes/s2.csv").write_bytes(hurt(S2.encode(), dice))
            status, told, said = self.client("needs", "wishes", "--cluster", "cluster.toml", *TABLES, program=False)
            if status == 2:
                refused += 1
                self.see(f"{number}: {said!r} is one line", ("", True), (told, said.endswith("\n") and said[:-1].isprintable()))
            self.see(f"{number}: what is written", [] if status else ["grants.csv", "made", "nodes.csv"], self.written())
            for path in self.written():
                shutil.rmtree(self.folder / path) if path == "made" else (self.folder / path).unlink()
        self.see("some are read, and some are not", True, 0 < refused < len(numbers))


def with_a_letter(text, dice):
    """The bytes, of which one is another letter or digit."""
    at = dice.choice([at for at in range(text.index(b"\n"), len(text)) if text[at : at + 1].isalnum()])
    return text[:at] + dice.choice(b"1248gAB").to_bytes() + text[at + 1 :]


WIDE = {
    "static_slots": 60, "slot_macroticks": 10, "dynamic_macroticks": 380, "symbol_macroticks": 10, "idle_macroticks": 10,
    "macroticks_per_cycle": 1000, "payload_words": 1, "cycles": 64,
}


def wished(dice, count, cycles, suppliers, below=0.0):
    """Wishes by chance: repetitions that divide the cycles, some of a gap below a cycle."""
    repetitions = [it for it in range(1, cycles + 1) if cycles % it == 0]
    for number in range(count):
        short = dice.random() < below
        node = Node(dice.choice(suppliers), dice.choice(("n1", "n2")))
        repetition = None if short else dice.choice(repetitions[1:])
        gap = Fraction(dice.choice((420, 500, 640, 999))) if short else None
        yield Wanted(node, f"f{number}_{node.name}", dice.choice(("A", "AB", "B")), repetition, gap, f"line {number}")


def in_the_way(dice, figures, suppliers):
    """Grants and frames that are there: some lanes held, some of their cells filled."""
    grants, frames = [], []
    for slot in range(1, figures["static_slots"] + 1):
        if dice.random() < 0.3:
            node = Node(dice.choice(suppliers), dice.choice(("n1", "n2")))
            mine = [Grant(slot, channel, node.supplier, node.name) for channel in dice.choice(("A", "B", "AB", "AB"))]
            grants += mine
            for it in mine:
                repetition = dice.choice((2, 4, 8))
                if dice.random() < 0.6:
                    placed = Placement(slot, it.channel, dice.randrange(repetition), repetition)
                    frames.append(Frame(node.supplier, f"there{slot}{it.channel}", node.name, (placed,)))
    return grants, frames


class ByChance(Case):
    """Plans by chance: what was there stays, each wish has a place, and a node that held nothing has no slot too many."""

    seconds = 10

    def planned(self, number, figures, asked, grants, frames):
        cluster = Cluster("AB", figures, ("s1", "s2", "s3"))
        try:
            plan = Planner(cluster, asked, grants, frames).plan()
        except Lacking:
            return None
        lanes = {it.lane: Node(it.supplier, it.node) for it in plan.grants}
        self.see(f"{number}: a lane is granted once", len(plan.grants), len(lanes))
        self.see(f"{number}: what was granted stays", [], [it for it in grants if it not in plan.grants])
        self.see(f"{number}: new ones", sorted({*plan.grants} - {*grants}), plan.new)
        filled = cells_of((it for frame in frames for it in frame.placements), figures["cycles"])
        for wish, places in plan.placements:
            filled += cells_of(places, figures["cycles"])
            for it in places:
                self.see(f"{number}: {it} is the node's", {wish.node}, {lanes[it.slot, channel] for channel in it.channels})
                self.see(f"{number}: its channels and repetition", (wish.channels, wish.repetition or 1), (it.channels, it.repetition))
            if wish.macroticks:
                self.see(f"{number}: its gap", True, evenly.widest([it.slot for it in places], figures) <= wish.macroticks)
        self.see(f"{number}: cells that are filled twice", len(filled), len(set(filled)))
        return plan

    def test_from_nothing(self):
        """The slots of each node are as many as the sum of what its wishes take, rounded up: one less would be too few."""
        dice = random.Random(1)
        for number in range(60):
            figures = {**WIDE, "cycles": dice.choice((8, 16, 32, 64))}
            asked = list(wished(dice, dice.randrange(1, 60), figures["cycles"], ("s1", "s2", "s3")))
            plan = self.planned(number, figures, asked, (), ())
            for node in {it.node for it in asked}:
                share = {channel: sum(Fraction(1, it.repetition) for it in asked if it.node == node and channel in it.channels) for channel in "AB"}
                both = sum(Fraction(1, it.repetition) for it in asked if it.node == node and it.channels == "AB")
                mine = [it for it in plan.grants if Node(it.supplier, it.node) == node]
                held = {channel: {it.slot for it in mine if it.channel == channel} for channel in "AB"}
                for channel in "AB":
                    self.see(f"{number}: slots of {node} on {channel}", ceil(share[channel]), len(held[channel]))
                self.see(f"{number}: on both", True, len(held["A"] & held["B"]) >= ceil(both))
                need = needs(Cluster("AB", figures, ("s1", "s2", "s3")), asked)[node]
                self.see(f"{number}: what is told", (ceil(share["A"]), ceil(share["B"]), ceil(both), True), need)

    def test_in_the_way(self):
        """Beside grants and frames; each proposal, cell by cell, gives each wish the place that was planned."""
        dice, met = random.Random(2), 0
        for number in range(60):
            figures = {**WIDE, "cycles": dice.choice((8, 12, 16, 64))}
            grants, frames = in_the_way(dice, figures, ("s1", "s2", "s3"))
            if figures["cycles"] == 12:
                frames = ()
            asked = list(wished(dice, dice.randrange(1, 60), figures["cycles"], ("s1", "s2", "s3"), below=0.05))
            plan = self.planned(number, figures, asked, grants, frames)
            if plan:
                met += 1
                self.is_proposed(number, figures["cycles"], plan, frames)
        self.see("most have the slots", True, met > 40)

    def test_tight(self):
        """Four slots, of each of which one channel or both are needed: all lanes that are granted are needed, and those on both channels are the
        same slots."""
        figures = {**WIDE, "static_slots": 4, "cycles": 8}
        for name, held, wishes, wanted in (
            ("each on its own channel", "", "n1 A, n1 A, n1 A, n2 B, n2 B, n2 B", {"n1": "1A 2A 3A", "n2": "1B 2B 3B"}),
            ("as many alike as there are", "1A 4B", "n1 AB, n1 A, n1 B, n2 A", {"n1": "2A 2B 3A 3B", "n2": "4A"}),
            ("only those that have to be", "1A 4B", "n1 AB, n1 A, n1 B, n2 AB", {"n1": "2A 2B 4A 1B", "n2": "3A 3B"}),
        ):
            grants = [Grant(int(lane[0]), lane[1], "s2", "n1") for lane in held.split()]
            asked = [Wanted(Node("s1", it.split()[0]), f"f{number}", it.split()[1], 1, None, "") for number, it in enumerate(wishes.split(", "))]
            plan = self.planned(name, figures, asked, grants, ())
            got = {node: {f"{it.slot}{it.channel}" for it in plan.new if it.node == node} for node in wanted}
            self.see(name, {node: set(lanes.split()) for node, lanes in wanted.items()}, got)

    def test_second_turn(self):
        """Wishes whose repetitions are no chain may go elsewhere once there are more slots, so that other slots are lacking."""
        figures, held = {**WIDE, "cycles": 12}, Grant(12, "A", "s1", "n1")
        frames = [Frame("s1", "there", "n1", (Placement(12, "A", 2, 3), Placement(12, "A", 3, 12)))]
        wishes = (("A", 4), ("B", 3), ("A", 3), ("AB", 6))
        asked = [Wanted(Node("s1", "n1"), f"f{number}", *wish, None, "") for number, wish in enumerate(wishes)]
        self.is_proposed("a second turn", 12, self.planned("a second turn", figures, asked, [held], frames), frames)

    def is_proposed(self, number, cycles, plan, frames):
        filled = cells_of((it for frame in frames for it in frame.placements), cycles)
        filled += cells_of((it for wish, places in plan.placements if wish.macroticks for it in places), cycles)
        lanes = {it.lane: Node(it.supplier, it.node) for it in plan.grants}
        mine = [(wish, places) for wish, places in plan.placements if wish.repetition]
        got = proposed(cycles, lanes, filled, [(wish.node, wish.channels, wish.repetition) for wish, _ in mine])
        self.see(f"{number}: what is proposed", [(it.slot, it.base) for _, (it,) in mine], got)

    def test_again(self):
        """Of a plan that was granted nothing more is lacking, and all wishes have their places again."""
        dice = random.Random(3)
        for number in range(20):
            asked = list(wished(dice, 40, 64, ("s1", "s2", "s3"), below=0.05))
            if plan := self.planned(number, WIDE, asked, (), ()):
                again = self.planned(number, WIDE, asked, plan.grants, ())
                self.see(f"{number}: again", ([], plan.placements), (again.new, again.placements))


def cells_of(places, cycles):
    return [cell for it in places for cell in cells(it.slot, it.channels, it.base, it.repetition, cycles)]


class Evenly(Case):
    """Slots for a gap below a cycle: as few as any choice has, and as even as any choice of so few is, or nearly."""

    FIGURES = {"static_slots": 9, "slot_macroticks": 10, "macroticks_per_cycle": 100}

    def test_every_choice(self):
        dice, met = random.Random(1), set()
        for _ in range(300):
            slots = sorted(dice.sample(range(1, 10), dice.randrange(1, 10)))
            macroticks = dice.randrange(10, 100)
            choices = (it for count in range(1, 9) for it in combinations(slots, count))
            wanted = next((len(it) for it in choices if evenly.widest(it, self.FIGURES) <= macroticks), None)
            got = evenly.chosen(slots, self.FIGURES, macroticks)
            self.see(f"{slots} for {macroticks}", wanted, got and len(got))
            self.see(f"{slots} for {macroticks} keeps it", True, got is None or evenly.widest(got, self.FIGURES) <= macroticks)
            met.add(wanted)
            if len(slots) == 9:
                self.see(f"fewest for {macroticks}", wanted, evenly.fewest(self.FIGURES, macroticks))
        self.see("how many", True, {None, 2, 3, 4} <= met)

    def test_typed(self):
        """Twelve slots fill a cycle: of two, three and four the evenest stand 6, 4 and 3 apart."""
        figures = {"static_slots": 12, "slot_macroticks": 10, "macroticks_per_cycle": 120}
        for macroticks, slots in (119, [1, 7]), (60, [1, 7]), (59, [1, 5, 9]), (30, [1, 4, 7, 10]):
            self.see(f"{macroticks} macroticks", slots, evenly.chosen(range(1, 13), figures, macroticks))
        self.see("of those that are left", [2, 8], evenly.chosen([2, 3, 8, 12], figures, 70))
        self.see("none", None, evenly.chosen([1, 2, 3], figures, 60))


class LimitsCase(NeedsCase):
    """A test of a cluster of 1023 slots and 64 suppliers, whose wishes need nearly all of them."""

    names = [f"s{number:02}" for number in range(64)]
    cluster = cluster_file({
        **CLUSTER, "static_slots": "1023", "slot_macroticks": "15", "dynamic_macroticks": "595", "macroticks_per_cycle": "15960",
        "suppliers": "{" + ", ".join(f's{number:02} = "supplier{number:02}"' for number in range(64)) + "}",
    }).encode()

    def setUp(self):
        super().setUp()
        self.wished()
        status, told, _ = self.client("needs", "wishes", "--cluster", "cluster.toml", *TABLES, program=False)
        lines = told.splitlines()
        self.see("the cluster has them", (0, True), (status, lines[-1].startswith("the cluster has them; new grants: ")))
        self.see("most slots of A are needed", True, int(lines[-2].split(" ")[2]) > 950)

    def wished(self):
        """Of each supplier 226 wishes; of some the gap is shorter than a cycle."""
        dice, self.wanted = random.Random(1), {}
        for name in ("s1", "s2"):
            (self.folder / f"wishes/{name}.csv").unlink()
        for name in self.names:
            rows = self.wanted[name] = []
            for number in range(226):
                channels = dice.choices(("AB", "A", "B"), (40, 35, 25))[0]
                repetition = dice.choices((2, 4, 8, 16, 32, 64), (2, 8, 20, 30, 24, 16))[0]
                gap = dice.choice(("8400", "6000")) if number == 0 and name < "s08" else ""
                rows.append((f"f{number}", f"n{dice.randrange(2)}", channels, "" if gap else repetition, gap))
            lines = "".join(f"{';'.join(map(str, row))}\n" for row in rows)
            self.has(f"wishes/{name}.csv", f"frame;node;channels;repetition;gap (macroticks)\n{lines}")

    def granted(self):
        """Requests that grant what is to be granted."""
        yield request("integrator1", "open_variant", variant="v1")
        for row in self.text("nodes.csv").splitlines()[1:]:
            yield request("integrator1", "add_node", **dict(zip(("supplier", "node"), row.split(","))))
        for row in self.text("grants.csv").splitlines()[1:]:
            slot, channel, supplier, node = row.split(",")
            yield request("integrator1", "grant", variant="v1", slot=int(slot), channel=channel, supplier=supplier, node=node)

    def files(self, name):
        """The texts of a supplier's files of placements."""
        return [it.read_text() for it in sorted((self.folder / "made" / name).iterdir())]

    def answered(self, more):
        """Grants all, and then asks these requests, each of which has its answer beside it."""
        granted = list(self.granted())
        asked = [(it, {"ok": "done"}) for it in granted] + more
        given = self.cluster + b"---\n" + "".join(line for line, _ in asked).encode()
        answers = ran(["run"], self.folder, given)[1].decode().splitlines()
        self.see("so many answers", len(asked), len(answers))
        for (line, wanted), answer in zip(asked, map(json.loads, answers)):
            self.see(line[:80], wanted, answer)


class Limits(LimitsCase):
    """All is granted, and each supplier's files are taken, row by row."""

    seconds = 20

    def test_limits(self):
        more = []
        for name in self.names:
            for number, body in enumerate(self.files(name)):
                count, key = body.count("\n") - 1, f"supplier{name[1:]}"
                lines = [f"{line:04} 00 done" for line in range(2, count + 2)]
                more.append((request(key, "try", variant="v1", body=body), {"ok": "try", "lines": lines}))
                more.append((request(key, "import", variant="v1", label=f"part{number}", body=body), {"ok": "imported", "rows": count}))
        self.answered(more)


class Proposed(LimitsCase):
    """What is granted is enough for each supplier's proposal, beside its frames of gaps below a cycle: no wish is without room, and each has the
    place that was planned."""

    seconds = 20

    def test_proposals(self):
        more = []
        for name in self.names:
            key, wishes = f"supplier{name[1:]}", [row for row in self.wanted[name] if not row[4]]
            placed = [line for body in self.files(name) for line in body.splitlines()[1:]]
            short = {row[0] for row in self.wanted[name] if row[4]}
            mine = [line for line in placed if line.partition(",")[0] in short]
            rest = [line for line in placed if line.partition(",")[0] not in short]
            if mine:
                body = HEADER + "".join(f"{line}\n" for line in mine)
                more.append((request(key, "import", variant="v1", label="short", body=body), {"ok": "imported", "rows": len(mine)}))
            body = "frame,node,channels,repetition\n" + "".join(f"{','.join(map(str, row[:4]))}\n" for row in wishes)
            lines = [f"{number:04} 00 {line}" for number, line in enumerate(rest, 2)]
            more.append((request(key, "propose", variant="v1", body=body), {"ok": "propose", "lines": lines}))
        self.answered(more)
