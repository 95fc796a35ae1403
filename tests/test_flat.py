"""Variants that are opened flat: with all rows of another one, without a parent, at depth 1. As requests, over files and over HTTP, and what is promised.

What is wanted was typed by hand from docs/FORMATS.md, is made by its rules, or comes from another register, naive.py; none of it is the program's own
output, but where its reports of two variants are compared with one another."""
import json
from itertools import product

from tests.drivers.invocations import Invocation, InvocationCase, difference
from tests.drivers.program import ran
from tests.drivers.registers import RegisterCase
from tests.models import messages, naive
from tests.models.messages import DONE, command, head, text
from tests.models.messages import refused as refused_bytes
from tests.models.random_scripts import random_script
from tests.models.scripts import DEPTH, LARGE, VARIANTS, answers, done, request, script, suppliers
from tests.runner.parameters import for_values

INTEGRATOR, KEY, OTHER = "integrator1", "supplier01", "supplier02"
IN_V1 = dict(variant="v1")


def opened(variant, parent=None, **fields):
    return request(INTEGRATOR, "open_variant", variant=variant, **({} if parent is None else {"from": parent}), **fields)


def released(variant):
    return request(INTEGRATOR, "release", variant=variant)


# ---- beside another register


class BesideAnotherRegister(InvocationCase):
    """Flat openings are answered as by another register, naive.py."""

    seconds = 20

    def asked(self, name, lines):
        given = script({**LARGE, "suppliers": suppliers(2)}, [(line, None) for line in lines])
        self.ends(Invocation(name, given, naive.answers(given)))

    def chain(self):
        """Variants up to the deepest, all released; and one that is open."""
        for level in range(1, DEPTH + 1):
            yield opened(f"v{level}", f"v{level - 1}" if level > 1 else None)
            yield released(f"v{level}")
        yield opened("open")

    def test_refusals(self):
        """Where several refusals apply the first is answered: of names, of the other variant, of one that is there; never `TooDeep`."""
        others = "1v", "", "nowhere", "open", "v1", "v15", "v16"
        lines = [*self.chain()]
        for who, variant, other, flat in product((INTEGRATOR, KEY, "nobody123"), ("1v", "", "open", "v3"), others, (True, False)):
            lines.append(request(who, "open_variant", variant=variant, **{"from": other}, flat=flat))
        for who, variant, flag in product((INTEGRATOR, KEY), ("1v", "new"), (True, None, 0, 1, "true", "", [], {}, {"flat": True})):
            lines += [request(who, "open_variant", variant=variant, flat=flag), request(who, "open_variant", variant=variant, **{"from": None}, flat=flag)]
            if flag is not True:
                lines.append(request(who, "open_variant", variant=variant, **{"from": "v1"}, flat=flag))
        for do, fields in ("release", {}), ("rows", {}), ("diff", {"from": "v1"}), ("replace", {"body": ""}):
            lines.append(request(INTEGRATOR, do, **IN_V1, **fields, flat=True))
        self.asked("refusals in their order", [*lines, request(KEY, "variants")])

    def test_limit(self):
        """As many variants as there may be, and one more, flat or not; at depth 16 a flat one alone is opened."""
        lines = [*self.chain(), opened("v17", "v16"), opened("v17", "v16", flat=True)]
        lines += [opened(f"v{n}", f"v{n % DEPTH + 1}", flat=True) for n in range(18, VARIANTS + 3)]
        lines += [opened("more", "v16", flat=flat) for flat in (True, False)] + [opened("v1", "v16", flat=True)]
        self.asked("the last variants", [*lines, request(KEY, "variants")])

    def test_variants_one_from_another(self):
        """Rows of each kind come along, own ones and those of each variant below; then they change in the new one alone."""
        lines = [request(INTEGRATOR, "add_node", supplier=supplier, node="n1") for supplier in ("s1", "s2")] + [opened("v1")]
        lines += [request(INTEGRATOR, "grant", **IN_V1, slot=slot, channel="A", supplier=supplier, node="n1") for slot, supplier in ((1, "s1"), (2, "s2"))]
        for level in range(1, 5):
            at = dict(variant=f"v{level}")
            for key, slot in (KEY, 1), (OTHER, 2):
                lines.append(request(key, "add_frame", **at, frame=f"f{level}", node="n1"))
                lines += [request(key, "place", **at, frame=f"f{n}", slot=slot, channels="A", base=8 * n + level, repetition=64) for n in range(1, level + 1)]
                lines.append(request(key, "add_signal", **at, frame=f"f{level}", signal=f"x{level}", start=8 * level, length=8, order=("little", "big")[level % 2]))
            if level > 2:
                lines.append(request(KEY, "drop_frame", **at, frame=f"f{level - 2}"))
            lines += [released(f"v{level}"), opened(f"v{level + 1}", f"v{level}"), opened(f"flat{level}", f"v{level}", flat=True)]
        variants = ["v1", "v2", "v3", "v4", "v5", "flat1", "flat2", "flat3", "flat4"]
        shown = [request(who, "rows", variant=variant) for who in (INTEGRATOR, KEY, OTHER) for variant in variants]
        lines += shown + [request(KEY, "drop_frame", variant=f"flat{level}", frame=f"f{level}") for level in range(1, 5)]
        lines += [request(KEY, "add_frame", variant=f"flat{level}", frame=f"f{level}", node="n1") for level in range(1, 5)]
        lines += [request(INTEGRATOR, "revoke", variant="flat1", slot=1, channel="A", supplier="s1"), *shown]
        lines += [request(who, "diff", variant=new, **{"from": old}) for who in (INTEGRATOR, KEY) for new, old in product(variants[-5:], variants)]
        self.asked("flat variants beside others", lines)


# ---- what is promised


# The mixture's integrator, and two of its suppliers.
KEYS = "integrator1", "keyfors0", "keyfors1"


class SameRows(InvocationCase):
    """Right after a flat opening each report of the new variant is that of the other one, to each who reads it, and nothing differs. So it is of a variant
    that is opened from the flat one."""

    seconds = 30

    def reports(self, variant, other):
        for key in KEYS:
            for do in "rows", "grants", "frames", "schedule", "gaps", "load", "export_frames", "export_placements", "export_signals":
                yield request(key, do, variant=variant, **({"part": 0} if do.startswith("export") else {}))
            yield from (request(key, "layout", variant=variant, frame=f"frame{n}") for n in range(3))
            yield request(key, "diff", variant=variant, **{"from": other})
            yield request(key, "diff", variant=other, **{"from": variant})

    def tried(self, seed):
        cluster, _, requests = random_script("comparing", 1500, 3, seed).partition(b"---\n")
        lines, looks = [], []
        for line in requests.decode().splitlines():
            lines.append(line)
            asked = json.loads(line.partition(" ")[2])
            if asked["do"] == "open_variant" and asked.get("from"):
                asks = [list(self.reports(*both)) for both in ((asked["variant"], asked["from"]), (asked["from"], asked["variant"]))]
                looks.append((len(lines), asked, len(asks[0])))
                lines += asks[0] + asks[1]
        given = cluster + b"---\n" + "".join(f"{line}\n" for line in lines).encode()
        status, written, said = ran(["run"], self.folder, given)
        self.see("how it ends", (0, b"", len(lines)), (status, said, written.count(b"\n")))
        self.see("how another register answers otherwise", [], difference("answers", naive.answers(given), written))
        told = written.splitlines()
        flat = sum(asked.get("flat", False) for _, asked, _ in looks)
        self.see("some are opened flat, others not", True, 1 < flat < len(looks) - 1)
        for at, asked, count in looks:
            self.see(f"{asked}: it is opened", DONE, told[at - 1])
            self.see(f"{asked}: its reports", told[at + count : at + 2 * count], told[at : at + count])

    @for_values(1, 2, 3)
    def test_mixture(self, seed):
        self.tried(seed)


# ---- over a file


PLANNED = [
    done(INTEGRATOR, "open_variant", **IN_V1),
    done(INTEGRATOR, "add_node", supplier="s1", node="n1"),
    done(INTEGRATOR, "grant", **IN_V1, slot=1, channel="A", supplier="s1", node="n1"),
    done(KEY, "add_frame", **IN_V1, frame="f", node="n1"),
    done(KEY, "place", **IN_V1, frame="f", slot=1, channels="A", base=0, repetition=2),
    done(KEY, "add_signal", **IN_V1, frame="f", signal="x", start=0, length=8, order="little"),
    done(INTEGRATOR, "release", **IN_V1),
    done(INTEGRATOR, "open_variant", variant="v2", **{"from": "v1"}),
    done(KEY, "add_frame", variant="v2", frame="g", node="n1"),
    done(INTEGRATOR, "release", variant="v2"),
]
ROWS = b"GRANT 0001 A n1\nFRAME f n1\nFRAME g n1\nAT f 0001 A 00 02\nSIGNAL f 0000 08 little x\nGAP     200 f\nGAP   never g\n"


class FileCase(RegisterCase):
    """A test over a register in which these were asked."""

    def setUp(self):
        super().setUp()
        self.create()
        self.ask("".join(f"{line}\n" for line, _ in PLANNED).encode(), answers(PLANNED))


class InAFile(FileCase):
    """A flat variant's rows are its own in the file, and it stays as it is when the file is opened again."""

    def test_rows_of_tables(self):
        self.ask(opened("w", "v2", flat=True).encode(), DONE + b"\n")
        for table, rows in {
            "variants": [("w", None, 1, 0, 0)], "grants": [("w", 1, "A", "s1", "n1")], "frames": [("w", "s1", "f", "n1"), ("w", "s1", "g", "n1")],
            "placements": [("w", "s1", "f", 1, "A", 0, 2)], "signals": [("w", "s1", "f", "x", 0, 8, 0)], "dropped": [],
        }.items():
            column = "name" if table == "variants" else "variant"
            self.see(f"{table} of the flat variant", rows, sorted(self.rows(f"SELECT * FROM {table} WHERE {column} = 'w'")))
        self.tell(["rows", "car.db", "w", "--supplier", "s1"], ROWS)
        self.tell(["variants", "car.db"], b"v1 - 1 released\nv2 v1 2 released\nw - 1 open\n")
        self.tell(["diff", "car.db", "v2", "w"], b"")
        self.sound()

    def test_picture(self):
        """A picture of it is that of the other one, but for the head: it has no parent."""
        self.ask(opened("flat_one", "v2", flat=True).encode(), DONE + b"\n")
        other = ran(["picture", "car.db", "v2"], self.folder)[1]
        head, flat_head = b"It was opened from v1, and is released.", b"It has no parent, and is open."
        self.see("what the other one's head says", 1, other.count(head))
        self.tell(["picture", "car.db", "flat_one"], other.replace(head, flat_head).replace(b"Variant v2", b"Variant flat_one").replace(b"Plan of v2", b"Plan of flat_one"))

    def test_refused_ones_leave_nothing(self):
        before = self.rows("SELECT * FROM variants")
        for line, refusal in (
            (opened("v1", "v2", flat=True), (19, "Exists")), (opened("w", "v9", flat=True), (10, "NoVariant")), (opened("w", flat=True), (1, "BadText")),
            (opened("w", "v2", flat="true"), (1, "BadText")), (request(KEY, "open_variant", variant="w", **{"from": "v2"}, flat=True), (3, "NotYours")),
        ):
            self.ask(line.encode(), refused_bytes(*refusal) + b"\n")
        self.see("the variants", before, self.rows("SELECT * FROM variants"))

    def test_over_http(self):
        bad_text = messages.json(refused_bytes(1, "BadText"), "400 Bad Request")
        self.in_turn("car.db", [
            (command(INTEGRATOR, b'{"do":"open_variant","variant":"w","from":"v2","flat":true}'), messages.json(DONE)),
            (command(INTEGRATOR, b'{"do":"open_variant","variant":"w","from":"v2","flat":true}'), messages.json(refused_bytes(19, "Exists"), "409 Conflict")),
            (command(INTEGRATOR, b'{"do":"open_variant","variant":"u","flat":true}'), bad_text),
            (command(INTEGRATOR, b'{"do":"open_variant","variant":"u","from":"v2","flat":1}'), bad_text),
            (command(INTEGRATOR, b'{"do":"open_variant","variant":"u","from":"w","flat":true}'), messages.json(refused_bytes(12, "NotReleased"), "409 Conflict")),
            (head("GET", "/v1/variants/w/rows", KEY), text(ROWS)),
            (head("GET", "/v1/variants/w/since/v2", INTEGRATOR), text(b"")),
            (head("GET", "/v1/variants", OTHER), text(b"v1 - 1 released\nv2 v1 2 released\nw - 1 open\n")),
        ])


class Programme(FileCase):
    """A programme of twenty releases: each is opened from the last one, where that is too deep flat, and has its rows and one frame more."""

    def test_twenty_releases(self):
        depth, last, frames = 2, "v2", ["f", "g"]
        for level in range(3, 21):
            variant = f"v{level}"
            deep = depth == DEPTH
            if deep:
                self.ask(opened(variant, last).encode(), refused_bytes(13, "TooDeep") + b"\n")
            depth = 1 if deep else depth + 1
            frame = f"more{level}"
            steps = [opened(variant, last, **({"flat": True} if deep else {})), request(KEY, "add_frame", variant=variant, frame=frame, node="n1"), released(variant)]
            self.ask("".join(f"{line}\n" for line in steps).encode(), (DONE + b"\n") * 3)
            frames.append(frame)
            self.tell(["diff", "car.db", last, variant, "--supplier", "s1"], f"+ FRAME {frame} n1\n+ GAP   never {frame}\n".encode())
            self.tell(["export", "car.db", variant, "frames", "--supplier", "s1"], ("frame,node\n" + "".join(f"{it},n1\n" for it in sorted(frames))).encode())
            last = variant
        listed = ran(["variants", "car.db"], self.folder)[1].decode().splitlines()
        self.see("the flat one, and the one behind it", ["v17 - 1 released", "v18 v17 2 released"], [line for line in listed if line[:4] in ("v17 ", "v18 ")])
        self.tell(["schedule", "car.db", "v20", "--supplier", "s1"], "".join(f"{cycle:02} 0001 A f n1\n" for cycle in range(0, 64, 2)).encode())
        self.sound()
