"""Registers as scripts, by `slotplan-plans dump`: one typed by hand, and others that are dumped, made anew, and tell all actors the same."""
import json
import os
import random
import signal
import sqlite3
import tomllib
from contextlib import closing
from unittest.mock import patch

from clients.slotplan_plans.dumping import blocks
from clients.slotplan_plans.sources import Server
from tests.drivers.plans_client import ClientCase, asked, questions
from tests.drivers.program import ran
from tests.models import schema1
from tests.models.messages import FIRST
from tests.models.plans import examples
from tests.models.random_scripts import Plan, cluster_file, random_script
from tests.runner.case import WHOLE
from tests.runner.parameters import for_values

DONE = '{"ok":"done"}'
CLUSTER = """\
channels = "AB"
static_slots = 4
slot_macroticks = 10
dynamic_macroticks = 40
symbol_macroticks = 10
idle_macroticks = 10
macroticks_per_cycle = 100
payload_words = 1
integrator = "integrator1"
[suppliers]
s2 = "supplier02"
s1 = "supplier01"
---
"""
V1 = """\
integrator1 {"do":"open_variant","variant":"v1"}
integrator1 {"do":"add_node","supplier":"s2","node":"n1"}
integrator1 {"do":"add_node","supplier":"s1","node":"n2"}
integrator1 {"do":"add_node","supplier":"s1","node":"n1"}
integrator1 {"do":"grant","variant":"v1","slot":3,"channel":"A","supplier":"s2","node":"n1"}
integrator1 {"do":"grant","variant":"v1","slot":1,"channel":"A","supplier":"s1","node":"n1"}
integrator1 {"do":"grant","variant":"v1","slot":1,"channel":"B","supplier":"s1","node":"n1"}
integrator1 {"do":"grant","variant":"v1","slot":2,"channel":"A","supplier":"s1","node":"n2"}
supplier02 {"do":"add_frame","variant":"v1","frame":"f","node":"n1"}
supplier02 {"do":"place","variant":"v1","frame":"f","slot":3,"channels":"A","base":0,"repetition":64}
supplier01 {"do":"add_frame","variant":"v1","frame":"h","node":"n2"}
supplier01 {"do":"add_frame","variant":"v1","frame":"g","node":"n1"}
supplier01 {"do":"place","variant":"v1","frame":"g","slot":1,"channels":"A","base":1,"repetition":2}
supplier01 {"do":"add_frame","variant":"v1","frame":"f","node":"n1"}
supplier01 {"do":"place","variant":"v1","frame":"f","slot":1,"channels":"AB","base":0,"repetition":2}
supplier01 {"do":"add_signal","variant":"v1","frame":"f","signal":"y","start":15,"length":8,"order":"big"}
supplier01 {"do":"add_signal","variant":"v1","frame":"f","signal":"x","start":0,"length":4,"order":"little"}
supplier01 {"do":"add_frame","variant":"v1","frame":"passing","node":"n1"}
supplier01 {"do":"drop_frame","variant":"v1","frame":"passing"}
integrator1 {"do":"release","variant":"v1"}
"""
V2 = """\
integrator1 {"do":"open_variant","variant":"v2","from":"v1"}
supplier01 {"do":"drop_frame","variant":"v2","frame":"g"}
supplier01 {"do":"unplace","variant":"v2","frame":"f","slot":1,"channels":"AB","base":0,"repetition":2}
supplier01 {"do":"place","variant":"v2","frame":"f","slot":1,"channels":"A","base":3,"repetition":4}
supplier01 {"do":"drop_signal","variant":"v2","frame":"f","signal":"x"}
supplier01 {"do":"add_signal","variant":"v2","frame":"f","signal":"x","start":0,"length":5,"order":"little"}
supplier01 {"do":"drop_frame","variant":"v2","frame":"h"}
supplier01 {"do":"add_frame","variant":"v2","frame":"h","node":"n1"}
integrator1 {"do":"revoke","variant":"v2","slot":1,"channel":"B","supplier":"s1"}
integrator1 {"do":"revoke","variant":"v2","slot":2,"channel":"A","supplier":"s1"}
integrator1 {"do":"grant","variant":"v2","slot":2,"channel":"A","supplier":"s2","node":"n1"}
integrator1 {"do":"add_supplier","supplier":"lights","key":"lightsKey1"}
integrator1 {"do":"add_node","supplier":"lights","node":"lamp"}
integrator1 {"do":"grant","variant":"v2","slot":4,"channel":"B","supplier":"lights","node":"lamp"}
lightsKey1 {"do":"add_frame","variant":"v2","frame":"low","node":"lamp"}
integrator1 {"do":"open_variant","variant":"empty"}
integrator1 {"do":"set_key","supplier":"s2","key":"changedKey2"}
"""
DUMPED = """\
channels = "AB"
static_slots = 4
slot_macroticks = 10
dynamic_macroticks = 40
symbol_macroticks = 10
idle_macroticks = 10
macroticks_per_cycle = 100
payload_words = 1
cycles = 64
integrator = "integrator1"

[suppliers]
---
integrator1 {"do":"add_supplier","supplier":"lights","key":"lightsKey1"}
integrator1 {"do":"add_supplier","supplier":"s1","key":"supplier01"}
integrator1 {"do":"add_supplier","supplier":"s2","key":"changedKey2"}

integrator1 {"do":"add_node","supplier":"lights","node":"lamp"}
integrator1 {"do":"add_node","supplier":"s1","node":"n1"}
integrator1 {"do":"add_node","supplier":"s1","node":"n2"}
integrator1 {"do":"add_node","supplier":"s2","node":"n1"}

integrator1 {"do":"open_variant","variant":"empty"}

integrator1 {"do":"open_variant","variant":"v1"}
integrator1 {"do":"grant","variant":"v1","slot":1,"channel":"A","supplier":"s1","node":"n1"}
integrator1 {"do":"grant","variant":"v1","slot":1,"channel":"B","supplier":"s1","node":"n1"}
integrator1 {"do":"grant","variant":"v1","slot":2,"channel":"A","supplier":"s1","node":"n2"}
integrator1 {"do":"grant","variant":"v1","slot":3,"channel":"A","supplier":"s2","node":"n1"}
supplier01 {"do":"add_frame","variant":"v1","frame":"f","node":"n1"}
supplier01 {"do":"place","variant":"v1","frame":"f","slot":1,"channels":"AB","base":0,"repetition":2}
supplier01 {"do":"add_signal","variant":"v1","frame":"f","signal":"x","start":0,"length":4,"order":"little"}
supplier01 {"do":"add_signal","variant":"v1","frame":"f","signal":"y","start":15,"length":8,"order":"big"}
supplier01 {"do":"add_frame","variant":"v1","frame":"g","node":"n1"}
supplier01 {"do":"place","variant":"v1","frame":"g","slot":1,"channels":"A","base":1,"repetition":2}
supplier01 {"do":"add_frame","variant":"v1","frame":"h","node":"n2"}
changedKey2 {"do":"add_frame","variant":"v1","frame":"f","node":"n1"}
changedKey2 {"do":"place","variant":"v1","frame":"f","slot":3,"channels":"A","base":0,"repetition":64}
integrator1 {"do":"release","variant":"v1"}

integrator1 {"do":"open_variant","variant":"v2","from":"v1"}
supplier01 {"do":"drop_frame","variant":"v2","frame":"g"}
supplier01 {"do":"drop_frame","variant":"v2","frame":"h"}
supplier01 {"do":"unplace","variant":"v2","frame":"f","slot":1,"channels":"AB","base":0,"repetition":2}
supplier01 {"do":"drop_signal","variant":"v2","frame":"f","signal":"x"}
integrator1 {"do":"revoke","variant":"v2","slot":1,"channel":"B","supplier":"s1"}
integrator1 {"do":"revoke","variant":"v2","slot":2,"channel":"A","supplier":"s1"}
integrator1 {"do":"grant","variant":"v2","slot":2,"channel":"A","supplier":"s2","node":"n1"}
integrator1 {"do":"grant","variant":"v2","slot":4,"channel":"B","supplier":"lights","node":"lamp"}
lightsKey1 {"do":"add_frame","variant":"v2","frame":"low","node":"lamp"}
supplier01 {"do":"place","variant":"v2","frame":"f","slot":1,"channels":"A","base":3,"repetition":4}
supplier01 {"do":"add_signal","variant":"v2","frame":"f","signal":"x","start":0,"length":5,"order":"little"}
supplier01 {"do":"add_frame","variant":"v2","frame":"h","node":"n1"}

"""
TYPED = CLUSTER + V1 + V2
COUNTS = "suppliers: 3, nodes: 4, variants: 3, requests: 36\n"


class Dumps(ClientCase):
    """What the tests of dumps share."""

    def dump(self, *words, source="car.db", script="car.script"):
        """The script of a register, which the command says that it has written."""
        status, _, said = self.client("dump", source, script, *words)
        self.see(f"{source} is dumped", (0, ""), (status, said))
        return self.text(script)

    def keys_in(self, db="car.db"):
        """The keys that another SQLite finds in the file, the integrator's by an empty name."""
        return {"": self.rows("SELECT integrator FROM cluster2", db)[0][0], **dict(self.rows("SELECT name, key FROM suppliers", db))}

    def makes_again(self, what, db="car.db", *words, keys=None):
        """The script of the register is done, request by request, and a run of it tells all actors what the register tells. Gives the script."""
        own = self.keys_in(db)
        wanted = list(questions(lambda text: self.answers(text, db), own))
        script = self.dump(*words, source=db)
        requests = sum(1 for line in script.partition("---\n")[2].splitlines() if line)
        status, written, said = ran(["run"], self.folder, f"{script}{asked(wanted, keys() if keys else own)}".encode())
        lines = written.decode().splitlines()
        self.see(f"{what}: the run", (0, b""), (status, said))
        self.see(f"{what}: requests that are not done", [], [line for line in lines[:requests] if line != DONE])
        told = self.answers(asked(wanted, own), db)
        self.see(f"{what}: reports that differ", [], [it for it, old, new in zip(wanted, told, lines[requests:], strict=True) if old != new])
        return script


class ByHand(Dumps):
    """A register that was typed by hand has the script that was typed by hand, in whatever order it was planned; small changes are small in
    both."""

    def setUp(self):
        super().setUp()
        answers = self.made_of(TYPED)
        self.see("what was typed is done", {DONE}, set(answers))

    def test_script(self):
        self.writes(COUNTS, "dump", "car.db", "car.script")
        self.see("the script", DUMPED, self.text("car.script"))
        self.see("its mode", 0o600, (self.folder / "car.script").stat().st_mode & 0o777)
        self.makes_again("by hand")

    def test_another_cluster(self):
        """With other figures it makes the register of another cluster; what does not fit there is refused."""
        for slots, cycle, refused in (92, 980, []), (2, 80, ['{"no":6,"refused":"BadSlot"}'] * 3):
            script = self.dump().replace("static_slots = 4", f"static_slots = {slots}")
            script = script.replace("macroticks_per_cycle = 100", f"macroticks_per_cycle = {cycle}")
            status, written, _ = ran(["run"], self.folder, script.encode())
            lines = written.decode().splitlines()
            self.see(f"{slots} slots", (0, 36, refused), (status, len(lines), [line for line in lines if line != DONE]))

    def test_long(self):
        """Of a script that the program does not take at once it says so."""
        with patch("clients.slotplan_plans.dumping.SCRIPT_BYTES", len(DUMPED) - 1):
            said = f"slotplan takes {len(DUMPED) - 1} bytes at once: create the register of the part before ---, and ask it the rest in pieces\n"
            self.writes(COUNTS + said, "dump", "car.db", "car.script")
        with patch("clients.slotplan_plans.dumping.SCRIPT_BYTES", len(DUMPED)):
            self.writes(COUNTS, "dump", "car.db", "car.script")

    def test_files(self):
        """Nothing else is written beside the register, and its bytes stay."""
        before = (self.folder / "car.db").read_bytes()
        self.dump()
        self.see("files", ["car.db", "car.script", "cluster.toml", "of.toml"], sorted(path.name for path in self.folder.iterdir()))
        self.see("the register's bytes", True, before == (self.folder / "car.db").read_bytes())

    def test_again(self):
        """A register that is made of the script has the same script."""
        script = self.dump()
        self.see("it is done", {DONE}, set(self.made_of(script, db="again.db")))
        self.see("its script", script, self.dump(source="again.db", script="again.script"))

    def test_small_changes(self):
        """A row that comes and one that goes are a line each."""
        before = self.dump().splitlines()
        place = 'supplier01 {"do":"place","variant":"v2","frame":"h","slot":1,"channels":"A","base":1,"repetition":4}'
        self.see("a change", [DONE, DONE], self.answers(f'{place}\nlightsKey1 {{"do":"drop_frame","variant":"v2","frame":"low"}}\n'))
        after = self.dump().splitlines()
        self.see("lines that came", [place], [line for line in after if line not in before])
        low = 'lightsKey1 {"do":"add_frame","variant":"v2","frame":"low","node":"lamp"}'
        self.see("lines that went", [low], [line for line in before if line not in after])

    def test_flat(self):
        """A variant that another program wrote with all of its rows, and with a parent, is dumped as one that is laid over it."""
        with closing(sqlite3.connect(self.folder / "car.db")) as file, file:
            file.execute("INSERT INTO frames SELECT 'v2', supplier, name, node FROM frames WHERE variant = 'v1' AND supplier = 's2'")
            columns = "supplier, frame, slot, channels, base, repetition"
            file.execute(f"INSERT INTO placements SELECT 'v2', {columns} FROM placements WHERE variant = 'v1' AND supplier = 's2'")
            file.execute("UPDATE variants SET overlay = 0 WHERE name = 'v2'")
            file.execute("DELETE FROM dropped")
        self.see("the script", DUMPED, self.makes_again("all rows"))


class Keys(Dumps):
    """A script has the register's keys, or made-up ones, which a file keeps."""

    def setUp(self):
        super().setUp()
        self.made_of(TYPED)

    def kept(self):
        told = tomllib.loads(self.text("car.script.keys"))
        return {"": told["integrator"], **told["suppliers"]}

    def test_new(self):
        script = self.makes_again("new keys", "car.db", "--new-keys", keys=self.kept)
        self.see("its keys that the register has", [], [key for key in self.keys_in().values() if key in script])
        self.see("who has a key", ["", "lights", "s1", "s2"], sorted(self.kept()))
        self.see("different ones", 4, len(set(self.kept().values())))
        self.see("the mode of their file", 0o600, (self.folder / "car.script.keys").stat().st_mode & 0o777)
        same = DUMPED
        for name, key in self.keys_in().items():
            same = same.replace(f"{key} ", f"{self.kept()[name]} ").replace(f'"{key}"', f'"{self.kept()[name]}"')
        self.see("all else of the script", same, script)

    def test_kept(self):
        """The same keys come again; a supplier that joins gets one, and a file that is none is left alone."""
        script, keys = self.dump("--new-keys"), self.kept()
        self.see("the same script", script, self.dump("--new-keys"))
        self.answers('integrator1 {"do":"add_supplier","supplier":"doors","key":"doorsKey1"}\n')
        self.dump("--new-keys")
        self.see("the keys that were there", keys, {name: key for name, key in self.kept().items() if name != "doors"})
        short, twice = 'integrator = "short"\n[suppliers]\n', 'integrator = "integrator1"\n[suppliers]\ns1 = "integrator1"\n'
        for wrong in "", "integrator1\n", short, twice, "suppliers = 1":
            self.has("car.script.keys", wrong)
            self.stops("car.script.keys: it is no file of keys; move it away, and dump again", "dump", "car.db", "car.script", "--new-keys")
            self.see("the file", wrong, self.text("car.script.keys"))

    def test_server(self):
        """A server's register has the same script by the same keys; without them there is none. Beside a server the file is not read."""
        script = self.dump("--new-keys")
        self.has("integrator.key", "X-Office-Key: integrator1\n")
        with self.served() as (server, port):
            url = f"http://127.0.0.1:{port}"
            self.see("the server's", script, self.dump("--new-keys", "--key", "integrator.key", source=url))
            said = "a server tells no keys: dump it with --new-keys, or stop it and dump its file"
            self.stops(said, "dump", url, "no.script", "--key", "integrator.key")
            self.stops("car.db: Unavailable: a server or another program has the file", "dump", "car.db", "no.script")
            self.see("no script", False, (self.folder / "no.script").exists())
            server.send_signal(signal.SIGKILL)

    def test_log(self):
        """What a server left in its log when it was killed is in the script."""
        with self.served() as (server, port):
            self.writes(
                "+ NODE door lights\nrevocations: 0, nodes: 1, grants: 0, refused: 0\n",
                "arrange", f"http://127.0.0.1:{port}", "v2", "--nodes", "nodes.csv", "--do", "--key", "-", given=self.nodes(),
            )
            server.send_signal(signal.SIGKILL)
            server.wait()
        self.see("there is a log", True, (self.folder / "car.db-wal").exists())
        self.see("the node is there", 1, self.dump().count('{"do":"add_node","supplier":"lights","node":"door"}'))
        self.sound()

    def nodes(self):
        self.has("nodes.csv", "supplier,node\nlights,door\n")
        return "integrator1\n"


class Faults(Dumps):
    """What cannot be dumped ends in a line, and leaves no script and no file of keys."""

    def none(self, said, *words):
        self.stops(said, "dump", *words)
        self.see("files", [], [path.name for path in self.folder.iterdir() if "script" in path.name])

    def test_sources(self):
        self.made_of(FIRST.decode())
        self.none("none.db: there is no such file", "none.db", "a.script")
        self.has("text.db", "no database, though it is longer than a page of one may be\n" * 100)
        self.none("text.db: file is not a database", "text.db", "a.script")
        schema1.filled(self.folder / "old.db", {})
        self.none("old.db: WrongSchema", "old.db", "a.script")
        self.has("empty.db", "")
        self.none("empty.db: NotARegister", "empty.db", "a.script")
        self.has("car.db-journal", "left")
        self.none("car.db: Unavailable: another SQLite was ended as it changed the file, and left car.db-journal", "car.db", "a.script")

    def test_targets(self):
        self.made_of(FIRST.decode())
        self.none("none/a.script: No such file or directory", "car.db", "none/a.script")
        (self.folder / "taken").mkdir()
        (self.folder / "link").symlink_to("/dev/stdout")
        os.mkfifo(self.folder / "pipe")
        for name in "taken", "link", "pipe":
            self.none(f"{name}: it is there, and is no regular file; nothing is written", "car.db", name)
        before = (self.folder / "car.db").read_bytes()
        self.none("car.db: it is a database, which may be a register; nothing is written", "car.db", "car.db")
        self.see("the register's bytes", True, before == (self.folder / "car.db").read_bytes())
        self.see("the link", True, (self.folder / "link").is_symlink())

    def test_changed(self):
        """A server's nodes or variants may change while it is read. Then there is no script."""
        self.made_of(FIRST.decode())
        self.has("integrator.key", "integrator1\n")

        def between(*given):
            with Server(url, "integrator1").asked() as ask:
                self.see("a node comes", {"ok": "done"}, ask({"do": "add_node", "supplier": "s2", "node": "late"}))
            yield from blocks(*given)

        with self.served() as (_, port), patch("clients.slotplan_plans.dumping.blocks", between):
            url = f"http://127.0.0.1:{port}"
            self.stops(f"{url} was changed while it was read; dump it again", "dump", url, "a.script", "--new-keys", "--key", "integrator.key")
        self.see("no script", False, (self.folder / "a.script").exists())

    def test_locked(self):
        """Another program has the file."""
        self.made_of(FIRST.decode())
        with closing(sqlite3.connect(self.folder / "car.db", isolation_level=None)) as file:
            file.execute("BEGIN IMMEDIATE")
            self.none("car.db: Unavailable: a server or another program has the file", "car.db", "a.script")


class Examples(Dumps):
    """The registers of examples/ are made again by their scripts."""

    seconds = 10

    def test_examples(self):
        for name, cluster, requests in examples():
            self.made_of(f"{cluster}---\n{requests}", db=f"{name}.db")
            self.makes_again(name, f"{name}.db")


class Random(Dumps):
    """Registers that mixtures of requests have made: suppliers join, keys change, variants are opened from others, rows come and go."""

    seconds = 30

    @for_values("joining", "revising", "comparing", "all")
    def test_mixture(self, mix):
        for seed in range(1, 5 if WHOLE else 2):
            self.made_of(random_script(mix, 600, suppliers=3, seed=seed).decode(), db=f"{seed}.db")
            self.makes_again(f"{mix} {seed}", f"{seed}.db")

    def test_chain(self):
        """Variants, each of which was opened from the one before, up to depth 16: each kind of change is met."""
        for cycles in (64, 10) if WHOLE else (64,):
            self.made_of(chain(cycles), db=f"{cycles}.db")
            script = self.makes_again(f"{cycles} cycles", f"{cycles}.db")
            of = lambda do: sum(json.loads(line.split(" ", 1)[1])["do"] == do for line in script.partition("---\n")[2].splitlines() if line)
            for do in "drop_frame", "unplace", "drop_signal", "revoke", "grant", "add_frame", "place", "add_signal":
                self.see(f"{do} is met", True, of(do) > 3)
            self.see("variants", 17, of("open_variant"))


def chain(cycles):
    """A script of sixteen variants, each with changes to what its parent has, and of one beside the last."""
    names = ["s0", "s1", "s2"]
    plan = Plan(names, 1, cycles)
    plan.dice = random.Random(cycles)
    lines = list(plan.opening(1, 6))
    for depth in range(16):
        variant = plan.variants[0]
        kinds = [plan.place, plan.place, plan.add_signal, plan.end, plan.end, lambda *it: plan.add_frame(*it, plan.dice.randrange(4))]
        kinds += [lambda *it: plan.grant(*it, plan.dice.randrange(4)), lambda *it: revoked(plan, *it)]
        lines += [plan.dice.choice(kinds)(variant, plan.dice.choice(names)) for _ in range(40)]
        lines += [plan.release(), plan.open_variant(variant if depth < 15 else plan.parents[variant])]
    return "\n".join(cluster_file(names, cycles) + lines) + "\n"


def revoked(plan, variant, supplier):
    """A grant that the supplier was given there goes, where nothing is sent in it."""
    slot, channel = plan.dice.choice(plan.held[variant, supplier, plan.dice.randrange(4)])
    return plan.line(None, "revoke", variant=variant, slot=slot, channel=channel, supplier=supplier)
