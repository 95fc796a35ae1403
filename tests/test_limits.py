"""Each report, export, try and picture, a whole replacement and a flat opening, over a register at the limits, once: 64 suppliers with 256 frames each, and a variant of depth 16.

The register is made by python3's SQLite. What is wanted is worked out here by the rules of docs/FORMATS.md."""
import sqlite3
from contextlib import closing
from itertools import zip_longest

from tests.drivers.registers import RegisterCase
from tests.drivers.server import sent
from tests.models.levels import chain
from tests.models.messages import command, csv, head, json, lines, post, put, text
from tests.models.picture import KEY, Page
from tests.models.schema2 import filled
from tests.models.scripts import CYCLES, DEPTH, FRAMES, IMPORT_ROWS, LARGE, NUMBERS, SLOTS, SUPPLIERS, suppliers, suppliers_of

CLUSTER = {**LARGE, "suppliers": suppliers(SUPPLIERS)}
NAMES = [name for name, _ in suppliers_of(CLUSTER)]
KEYS = dict(suppliers_of(CLUSTER))
RING = CYCLES * (SLOTS + 1)  # macroticks
LANES = 2 * SLOTS // SUPPLIERS  # of each supplier in the last variant
FILLED, MOVED_TO = FRAMES // CYCLES, FRAMES // CYCLES  # so many lanes of each are full, and frames are moved to the next
LEVELS = [f"v{level}" for level in range(1, DEPTH + 1)]
TOP_LEVEL, DROPPED_IN, DROPPED = LEVELS[-1], "v9", FRAMES - 1
PARTS = -(-SUPPLIERS * (FRAMES - 1) // IMPORT_ROWS)


# ---- the plan: frame n of each supplier has a cell of its own in one of the first lanes. Variant vn moves frame n, and v9 drops the last frame.


def lane(supplier, nth):
    """The slot and channel of a supplier's lane."""
    at = NAMES.index(supplier) * LANES + nth
    return at // 2 + 1, "AB"[at % 2]


def cell(supplier, frame, moved):
    """The slot, channel and base of a frame."""
    return (*lane(supplier, MOVED_TO if moved else frame // CYCLES), frame % CYCLES)


def is_moved(frame):
    return 2 <= frame <= DEPTH


def rows():
    """Those of each table."""
    for level, variant in enumerate(LEVELS, 1):
        yield "variants", (variant, f"v{level - 1}" if level > 1 else None, level, int(variant != TOP_LEVEL), int(level > 1))
    for name in NAMES:
        yield "nodes", (name, "n1")
        for variant in LEVELS:
            for nth in range(LANES if variant == TOP_LEVEL else MOVED_TO + 1):
                yield "grants", (variant, *lane(name, nth), name, "n1")
        for frame in range(FRAMES):
            yield from of_frame("v1", name, frame, False)
        for level in range(2, DEPTH + 1):
            yield from of_frame(f"v{level}", name, level, True)
        yield "dropped", (DROPPED_IN, name, f"f{DROPPED}")


def of_frame(variant, name, frame, moved):
    slot, channel, base = cell(name, frame, moved)
    yield "frames", (variant, name, f"f{frame}", "n1")
    yield "placements", (variant, name, f"f{frame}", slot, channel, base, CYCLES)
    yield "signals", (variant, name, f"f{frame}", "x", 8, 16, 1)


def register(path):
    filled(path, CLUSTER, pragmas=["synchronous = OFF"])
    with closing(sqlite3.connect(path)) as file, file:
        for table, row in rows():
            file.execute(f"INSERT INTO {table} VALUES ({','.join('?' * len(row))})", row)


# ---- what is wanted of the last variant. Each row is a key by which it is sorted, its line and its supplier.


def shown():
    """The frames that the variant shows: supplier, frame's name, slot, channel, base."""
    for name in sorted(NAMES):
        for frame in sorted(range(FRAMES), key=lambda it: f"f{it}"):
            if frame != DROPPED:
                yield (name, f"f{frame}", *cell(name, frame, is_moved(frame)))


def grants():
    for name in NAMES:
        for nth in range(LANES):
            slot, channel = lane(name, nth)
            yield (slot, channel), f"{slot:04} {channel} n1", name


def frames():
    for name, frame, slot, channel, base in shown():
        yield (name, frame, 0), f"FRAME {frame} n1", name
        yield (name, frame, 1), f"AT {slot:04} {channel} {base:02} {CYCLES}", None


def schedule():
    for name, frame, slot, channel, base in shown():
        yield (base, slot, channel), f"{base:02} {slot:04} {channel} {frame} n1", name


def gaps():
    return (((name, frame), f"GAP {RING:7} {frame}", name) for name, frame, *_ in shown())


def load():
    """Each lane of the cluster; those that no supplier holds are the integrator's to see."""
    used, held = {}, {key: name for key, _, name in grants()}
    for _, _, slot, channel, _ in shown():
        used[slot, channel] = used.get((slot, channel), 0) + 1
    for at in range(2 * SLOTS):
        key = at // 2 + 1, "AB"[at % 2]
        yield key, f"{key[0]:04} {key[1]} {used.get(key, 0):02} {CYCLES} {'n1' if key in held else '-'}", held.get(key, "-")


def layout():
    return ((name, "0008 16 big x", name) for name in NAMES)


def nodes():
    return ((name, "n1", name) for name in NAMES)


def differences():
    """From the first variant to the last: lanes that were granted since, the frame that was dropped, and those that were moved."""
    for key, line, name in grants():
        if key not in {lane(name, nth) for nth in range(MOVED_TO + 1)}:
            yield (0, *key), f"+ GRANT {line}", name
    for name in NAMES:
        slot, channel, base = cell(name, DROPPED, False)
        yield (1, name), f"- FRAME f{DROPPED} n1", name
        yield (2, name, f"f{DROPPED}"), f"- AT f{DROPPED} {slot:04} {channel} {base:02} {CYCLES}", name
        yield (3, name), f"- SIGNAL f{DROPPED} 0008 16 big x", name
        yield (4, name), f"- GAP {RING:7} f{DROPPED}", name
        for frame in filter(is_moved, range(FRAMES)):
            for sign, moved in ("-", False), ("+", True):
                slot, channel, base = cell(name, frame, moved)
                yield (2, name, f"f{frame}", slot, channel, base), f"{sign} AT f{frame} {slot:04} {channel} {base:02} {CYCLES}", name


def seen():
    """All rows of the variant, with the gaps."""
    for key, line, name in grants():
        yield (0, *key), f"GRANT {line}", name
    for name, frame, slot, channel, base in shown():
        yield (1, name, frame), f"FRAME {frame} n1", name
        yield (2, name, frame), f"AT {frame} {slot:04} {channel} {base:02} {CYCLES}", name
        yield (3, name, frame), f"SIGNAL {frame} 0008 16 big x", name
        yield (4, name, frame), f"GAP {RING:7} {frame}", name


def report(found, supplier=None):
    """The report's lines, all with their suppliers or those of one."""
    kept = [row for row in sorted(found, key=lambda row: row[0]) if supplier in (None, row[2])]
    return "".join(f"{line}{f' {name}' if name and not supplier else ''}\n" for _, line, name in kept)


def framed(supplier):
    """The lines of a supplier's frames: those of AT name none."""
    return "".join(f"{line}\n" for (name, *_), line, _ in sorted(frames(), key=lambda row: row[0]) if name == supplier)


def room(supplier):
    """Where one of the supplier's frames can be sent once more, with the longest repetition."""
    used = {}
    for name, _, slot, channel, base in shown():
        used.setdefault((slot, channel), set()).add(base)
    held = {lane(supplier, nth) for nth in range(LANES)}
    for slot in sorted({slot for slot, _ in held}):
        for channels in "A", "AB", "B":
            if all((slot, channel) in held for channel in channels):
                free = [f"{base:02}" for base in range(CYCLES) if not any(base in used.get((slot, channel), ()) for channel in channels)]
                yield f"{slot:04} {channels} {CYCLES} {' '.join(free)}\n" if free else ""


def exports():
    """Of each export its header, and a row for each frame, placement or signal: one of each."""
    yield "frames", "frame,node", [(f"{frame},n1", name) for name, frame, *_ in shown()]
    yield "placements", "frame,node,slot,channels,base,repetition", [
        (f"{frame},n1,{slot},{channel},{base},{CYCLES}", name) for name, frame, slot, channel, base in shown()
    ]
    yield "signals", "frame,signal,start,length,order", [(f"{frame},x,8,16,big", name) for name, frame, *_ in shown()]


def parts(supplier=None):
    """The first part of each export, the last one with rows and the one behind it, each with its route."""
    for what, header, all_rows in exports():
        found = [f"{row}" if supplier else f"{row},{name}" for row, name in all_rows if supplier in (None, name)]
        for part in (0, 1) if supplier else (0, PARTS - 1, PARTS):
            of_part = found[part * IMPORT_ROWS :][:IMPORT_ROWS]
            yield f"exports/{what}/{part}", "".join(f"{line}\n" for line in [header if supplier else f"{header},supplier", *of_part])


def reports(supplier=None):
    """Each report of the variant with its route, to the integrator or to a supplier."""
    found = {"grants": grants, "schedule": schedule, "gaps": gaps, "load": load, "rows": seen, "frames/f0/layout": layout, "since/v1": differences}
    for path, rows_of in found.items():
        yield path, report(rows_of(), supplier)
    yield "frames", framed(supplier) if supplier else report(frames())


def variants():
    below = ["-", *LEVELS]
    return "".join(sorted(f"{name} {below[nth]} {nth + 1} {'open' if name == TOP_LEVEL else 'released'}\n" for nth, name in enumerate(LEVELS)))


def figures(names):
    told = ["channels AB", *(f"{key} {CLUSTER[key]}" for key in NUMBERS), f"cycles {CYCLES}", *(f"supplier {name}" for name in names)]
    return "".join(f"{line}\n" for line in told)


def signals():
    """A file of as many rows as one may have: two more signals for each frame of s1, and one that is there already."""
    rows = [f"f{frame},{signal}" for frame in range(FRAMES - 1) for signal in ("y,32,8,little", "z,48,8,little")]
    return rows + ["f0,a,1000,1,little", "f0,x,1008,1,little"]


def moved_again():
    """A file of as many rows: two cells for each frame of s1, of which it has one already. Each fills the cells of a lane that nobody uses."""
    for nth, frame in enumerate(range(FRAMES)):
        for more in 0, 1:
            slot, channel = lane("s1", MOVED_TO + 1 + (2 * nth + more) // CYCLES)
            yield f"f{frame},n1,{slot},{channel},{(2 * nth + more) % CYCLES},{CYCLES}"


class AtTheLimits(RegisterCase):
    """Each is answered, to the integrator and to a supplier, and none is Unavailable."""

    in_memory = True
    seconds = 60

    def setUp(self):
        super().setUp()
        register(self.folder / "car.db")

    def replies(self, what, data, wanted, **how):
        got = sent(self.port, data, **how)
        other = [pair for pair in zip_longest(wanted.split(b"\n"), got.split(b"\n")) if pair[0] != pair[1]]
        self.see(what, [], other[:2])

    def reads(self, key, path, wanted, kind=text):
        self.replies(f"{path} by {key}", head("GET", f"/v1/{path}", key), kind(wanted.encode()))

    def test_each(self):
        with self.served("--seconds", "600") as (_, self.port):
            for key, supplier in ("integrator1", None), (KEYS["s1"], "s1"):
                self.reads(key, "cluster", figures([supplier] if supplier else sorted(NAMES)))
                self.reads(key, "variants", variants())
                self.reads(key, "nodes", report(nodes(), supplier))
                for path, wanted in reports(supplier):
                    self.reads(key, f"variants/{TOP_LEVEL}/{path}", wanted)
                for path, wanted in parts(supplier):
                    self.reads(key, f"variants/{TOP_LEVEL}/{path}", wanted, csv)
                self.draws(key, supplier)
            self.reads(KEYS["s1"], f"variants/{TOP_LEVEL}/frames/f0/room/{CYCLES}", "".join(room("s1")))
            self.tries()
            self.sends_whole()
            self.opens_flat()

    def tries(self):
        """A try of an import, of which the last row is refused, and one of a replacement, each of 512 rows."""
        path, done = f"/v1/variants/{TOP_LEVEL}/tries", "".join(f"{line:04} 00 done\n" for line in range(2, IMPORT_ROWS + 1))
        body = "".join(f"{row}\n" for row in ["frame,signal,start,length,order", *signals()]).encode()
        self.replies("a try", post(path, KEYS["s1"], body), lines("try", f"{done}{IMPORT_ROWS + 1:04} 19 Exists\n".encode()))
        body = "".join(f"{row}\n" for row in ["frame,node,slot,channels,base,repetition", *moved_again()]).encode()
        self.replies("a try of a replacement", put(path, KEYS["s1"], body), lines("try", f"{done}{IMPORT_ROWS + 1:04} 00 done\n".encode()))

    def sends_whole(self):
        """As many placements as a file may have take the place of all; then a few frames that of all, and the others' rows stay."""
        path, header = f"/v1/variants/{TOP_LEVEL}", "frame,node,slot,channels,base,repetition"
        body = "".join(f"{row}\n" for row in [header, *moved_again()]).encode()
        done = "".join(f"{line:04} 00 done\n" for line in range(2, IMPORT_ROWS + 2)).encode()
        self.replies("a try of a whole replacement", put(f"{path}/tries/whole", KEYS["s1"], body), lines("try", done))
        for _ in range(2):
            self.replies("a whole replacement", put(f"{path}/rows/whole", KEYS["s1"], body), json(b'{"ok":"replaced","rows":%d}' % IMPORT_ROWS))
        sent_rows = sorted(moved_again(), key=lambda row: [int(it) if it.isdigit() else it for it in row.split(",")])
        self.reads(KEYS["s1"], f"variants/{TOP_LEVEL}/exports/placements/0", "".join(f"{row}\n" for row in [header, *sent_rows]), csv)
        self.replies("a few frames", put(f"{path}/rows/whole", KEYS["s1"], b"frame,node\nf1,n1\n"), json(b'{"ok":"replaced","rows":1}'))
        self.reads(KEYS["s1"], f"variants/{TOP_LEVEL}/exports/signals/0", "frame,signal,start,length,order\nf1,x,8,16,big\n", csv)
        self.reads(KEYS["s2"], f"variants/{TOP_LEVEL}/rows", report(seen(), "s2"))

    def opens_flat(self):
        """The variant is released, and another one opened flat from it, which takes half a minute of a processor: nothing differs between the two."""
        for line in f'{{"do":"release","variant":"{TOP_LEVEL}"}}', f'{{"do":"open_variant","variant":"flat","from":"{TOP_LEVEL}","flat":true}}':
            self.replies(line, command("integrator1", line.encode()), json(b'{"ok":"done"}'), seconds=600)
        self.reads("integrator1", f"variants/flat/since/{TOP_LEVEL}", "")
        self.reads(KEYS["s2"], "variants/flat/rows", report(seen(), "s2"))

    def draws(self, key, supplier):
        """A page with a lane for each grant, and as many frames sent as there are."""
        got = sent(self.port, head("GET", f"/v1/variants/{TOP_LEVEL}/picture", key))
        self.see(f"a picture to {key}", True, got.startswith(b"HTTP/1.1 200 OK\r\ncontent-type: text/html; charset=utf-8\r\n") or got[:200])
        page = Page(got.partition(b"\r\n\r\n")[2].decode())
        names = [supplier] if supplier else NAMES
        self.see(f"its suppliers to {key}", sorted(names), [KEY.match(said)[2] for said, _ in page.keys])
        self.see(f"the frames of its last table to {key}", len(names) * (FRAMES - 1), sum(bool(row[0]) for row in page.tables[-1]))


class Deep(RegisterCase):
    """A variant of each depth, up to the last, has its picture, and shows the frame that it adds."""

    def test_pictures(self):
        filled(self.folder / "deep.db", more=chain(DEPTH))
        with self.served("--seconds", "600", db="deep.db") as (_, port):
            for level in range(1, DEPTH + 1):
                for key in "integrator1", "supplier01":
                    got = sent(port, head("GET", f"/v1/variants/v{level}/picture", key))
                    self.see(f"depth {level}: there is a page for {key}", b"HTTP/1.1 200 OK", got.partition(b"\r\n")[0])
                    rows = Page(got.partition(b"\r\n\r\n")[2].decode()).tables[-1]
                    self.see(f"depth {level}: its frames", {f"f{level}", "g"}, {row[2] for row in rows if row[0]})
