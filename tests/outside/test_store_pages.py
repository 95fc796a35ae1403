"""Pages and edits of registers in files, at the limits, by a program over `fr_store` and the SQLite of python3.

The program makes a register in a file, or opens the one that is there, carries edits out, prints what it is asked for, and closes the file. SQLite then
reads each row that the edits are to have made; and it makes the same register, where the program is to find the same pages. What is wanted is made here
by rule."""
from contextlib import closing
from itertools import zip_longest

from tests.drivers.stores import PageCase
from tests.models.formats import overlay_query
from tests.models.levels import LEVELS, SHOWN, chain
from tests.models.schema2 import connected, filled, of_cluster, tables
from tests.models.scripts import DEPTH, FRAMES, LARGE, NODES, PLACEMENTS, SIGNALS, SLOTS, VARIANTS, cluster_file, suppliers

CLUSTER = {**LARGE, "cycles": "48", "suppliers": suppliers(64)}
# The bytes of an import are not read where it is kept.
BODY = "frame,node,slot,channels,base,repetition;" * 1_000
BATCH = 512
ORDERS = "little", "big"


def slot_of(frame):
    return frame // 2 + 1


def node_of(slot):
    return f"n{(slot - 1) % NODES + 1}"


def grants():
    """Slot, channel, supplier and node: all there are, the last 63 slots to a supplier each."""
    for slot in range(1, SLOTS + 1):
        for channel in "AB":
            yield (slot, channel, "s1", node_of(slot)) if slot <= SLOTS - 63 else (slot, channel, f"s{slot - SLOTS + 64}", "n1")


def frames():
    """Two for each of the first 128 slots."""
    for frame in range(FRAMES):
        yield "s1", f"f{frame}", node_of(slot_of(frame))


def placements():
    """The two frames of a slot share it: by channel, or in each third slot by cycles."""
    for frame in range(FRAMES):
        for base in range(PLACEMENTS):
            if slot_of(frame) % 3:
                yield "s1", f"f{frame}", slot_of(frame), "AB"[frame % 2], base, PLACEMENTS
            else:
                yield "s1", f"f{frame}", slot_of(frame), "AB", base + frame % 2 * PLACEMENTS, 2 * PLACEMENTS


def signals():
    """Each in three bytes of its own: a little signal begins in their first bit, a big one at the top of their first byte."""
    for frame in range(FRAMES):
        for at in range(SIGNALS):
            big = (frame + at) % 2
            yield "s1", f"f{frame}", f"x{at}", 24 * at + 7 * big, (frame + at) % 24 + 1, big


def planned():
    """The rows of the register, each variant with all that it shows: `v2` is opened from `v1`, all other variants are empty."""
    rows = of_cluster(CLUSTER)
    rows["nodes"] = [("s1", f"n{at}") for at in range(1, NODES + 1)] + [(f"s{at}", "n1") for at in range(2, 65)]
    rows["variants"] = [("v1", None, 1, 1, 0), ("v2", "v1", 2, 0, 0)] + [(f"v{at}", None, 1, 0, 0) for at in range(3, VARIANTS + 1)]
    for table, made in ("grants", grants), ("frames", frames), ("placements", placements), ("signals", signals):
        rows[table] = [(variant, *row) for variant in ("v1", "v2") for row in made()]
    rows["imports"] = [("s1", "l1", "v1", BODY.encode(), 512)]
    return rows


def batches():
    """The edits that make these rows, in batches."""
    yield [f"node {supplier} {node}" for supplier, node in planned()["nodes"]]
    yield ["variant v1 - 1"]
    lines = [f"grant v1 {supplier} {slot} {channel} {node}" for slot, channel, supplier, node in grants()]
    lines += [f"frame v1 {supplier} {name} {node}" for supplier, name, node in frames()]
    lines += [f"place v1 {' '.join(map(str, row))}" for row in placements()]
    lines += [f"signal v1 {' '.join(map(str, row))} {ORDERS[big]}" for *row, big in signals()]
    for at in range(0, len(lines), BATCH):
        yield lines[at : at + BATCH]
    yield [f"import s1 l1 v1 {BODY} 512", "release v1", "variant v2 v1 2"]
    yield [f"variant v{at} - 1" for at in range(3, VARIANTS + 1)]


# The edits that follow, in one batch, of what was made there.
LATER = [
    "unplace v2 s1 f0 1 A 0 8",
    "end_signal v2 s1 f0 x0",
    "drop v2 s1 f1",
    "revoke v2 s1 960 A",
    "frame v2 s1 g1 n1",
    "place v2 s1 g1 1 A 0 16",
    "signal v2 s1 g1 y 7 64 big",
    "release v2",
]


def followed(rows):
    """The rows after those edits."""
    gone = {
        "placements": lambda row: row[:3] == ("v2", "s1", "f1") or row == ("v2", "s1", "f0", 1, "A", 0, 8),
        "signals": lambda row: row[:3] == ("v2", "s1", "f1") or row[:4] == ("v2", "s1", "f0", "x0"),
        "frames": lambda row: row[:3] == ("v2", "s1", "f1"),
        "grants": lambda row: row[:3] == ("v2", 960, "A"),
        "variants": lambda row: row[0] == "v2",
    }
    new = {
        "frames": [("v2", "s1", "g1", "n1")],
        "placements": [("v2", "s1", "g1", 1, "A", 0, 16)],
        "signals": [("v2", "s1", "g1", "y", 7, 64, 1)],
        "variants": [("v2", "v1", 2, 1, 0)],
    }
    return rows | {table: [row for row in rows[table] if not is_gone(row)] + new.get(table, []) for table, is_gone in gone.items()}


def contents(rows, variant):
    """A variant's frames by supplier and name, each with its node, placements and signals."""
    made = {row[1:3]: ([row[3]], [], []) for row in rows["frames"] if row[0] == variant}
    for at, table in (1, "placements"), (2, "signals"):
        for row in sorted(rows[table]):
            if row[0] == variant:
                made[row[1:3]][at].append(row[3:])
    return made


def laid_over(rows):
    """The same register with `v2` laid over `v1`: only the frames that differ have rows, and what `v1` has more is dropped."""
    below, above = contents(rows, "v2"), contents(rows, "v1")
    same = {frame for frame, content in below.items() if above.get(frame) == content}
    kept = {table: [row for row in rows[table] if row[0] != "v2" or row[1:3] not in same] for table in ("frames", "placements", "signals")}
    variants = [(*row[:4], 1) if row[0] == "v2" else row for row in rows["variants"]]
    return rows | kept | {"variants": variants, "dropped": [("v2", *frame) for frame in above if frame not in below]}


def page(rows, supplier, variant):
    """The lines that show the supplier's page of the variant."""
    released = [row[3] for row in rows["variants"] if row[0] == variant]
    if not released:
        return ["no page"]
    lines = [f"{supplier} {variant} {'true' if released[0] else 'false'}"]
    lines += [f"node {node}" for owner, node in sorted(rows["nodes"]) if owner == supplier]
    lines += [f"grant {slot} {channel} {node}" for at, slot, channel, owner, node in sorted(rows["grants"]) if (at, owner) == (variant, supplier)]
    placed, laid = {}, {}
    for table, of_frame in ("placements", placed), ("signals", laid):
        for at, owner, frame, *rest in rows[table]:
            if (at, owner) == (variant, supplier):
                of_frame.setdefault(frame, []).append(rest)
    for at, owner, frame, node in sorted(rows["frames"]):
        if (at, owner) == (variant, supplier):
            lines.append(f"frame {frame} {node}")
            lines += [f"place {frame} {' '.join(map(str, row))}" for row in sorted(placed.get(frame, []))]
            by_start = sorted(laid.get(frame, []), key=lambda row: row[1])
            lines += [f"signal {frame} {name} {start} {length} {ORDERS[big]}" for name, start, length, big in by_start]
    return lines


def told(rows):
    """What is asked, and the lines that answer it."""
    for supplier, variant in ("s1", "v1"), ("s1", "v2"), ("s1", "v3"), ("s2", "v2"), ("s64", "v1"), ("s1", "v65"):
        yield f"page {supplier} {variant}", page(rows, supplier, variant)
    kinds = [(name, parent or "-", depth, "true" if released else "false") for name, parent, depth, released, _ in rows["variants"]]
    yield "variants", [f"variant {' '.join(map(str, row))}" for row in sorted(kinds)]
    yield "nodes s1", [f"node {node}" for owner, node in sorted(rows["nodes"]) if owner == "s1"]
    yield "holder v2 961 B", ["holder s2 n1"]
    yield "holder v3 961 B", ["no holder"]
    yield "import s1 l1", ["imports 1", f"import v1 512 {len(BODY)}"]
    yield "import s2 l1", ["imports 0", "no import"]


def differing(got, wanted):
    """The first of these lines or rows that differ, if any do."""
    return next(((a, b) for a, b in zip_longest(got, wanted) if a != b), None)


class LimitCase(PageCase):
    """A test of a register at the limits, some 41,000 rows: 48 cycles, 64 suppliers and variants, all grants, and for one supplier 64 nodes and 256 full frames."""

    def tells(self, what, path, rows, edits=()):
        """Carries the edits out, and then all that is asked is answered of these rows."""
        asked = list(told(rows))
        batches = "\n".join("".join(f"{line}\n" for line in batch) for batch in edits)
        given = f"{cluster_file(CLUSTER)}---\n{batches}---\n" + "".join(f"{question}\n" for question, _ in asked)
        printed, *end = self.ran([what, path], given)
        self.see("its end", ["", 0], end)
        answers = dict(block.split("\n", 1) for block in printed.split("> ")[1:])
        for question, lines in asked:
            got = answers.get(question, "").splitlines()
            self.see(f"{question}: the first lines that differ", None, differing(got, lines))

    def holds(self, path, rows):
        """The database is sound, and has these rows and no other."""
        with closing(connected(path)) as conn:
            self.see("integrity", [("ok",)], conn.execute("PRAGMA integrity_check").fetchall())
            self.see("foreign keys", [], conn.execute("PRAGMA foreign_key_check").fetchall())
            for table in tables():
                got, wanted = (sorted(made, key=repr) for made in (conn.execute(f"SELECT * FROM {table}"), rows[table]))
                self.see(f"{table}: the first rows that differ", None, differing(got, wanted))

    def finds(self, path, rows):
        """The query of docs/FORMATS.md finds the frames that the variants show."""
        with closing(connected(path)) as conn:
            for variant in "v1", "v2":
                got = [row[:3] for row in conn.execute(overlay_query(), {"variant": variant})]
                wanted = sorted(row[1:] for row in rows["frames"] if row[0] == variant)
                self.see(f"the frames of {variant} that differ first", None, differing(got, wanted))

    def is_edited(self, path, is_whole=False):
        """Edits that take rows out of it, and a release, change it as they should."""
        later = followed(planned())
        self.tells("open", path, later, [LATER])
        self.holds(path, later if is_whole else laid_over(later))
        self.finds(path, later)


def made_there(path, rows):
    """The register that SQLite makes of these rows, each table's last row first."""
    planned_in = [table for table in ("nodes", "variants", "grants", "frames", "placements", "signals", "imports", "dropped") if rows[table]]
    filled(path, CLUSTER)
    with closing(connected(path)) as conn:
        conn.execute("BEGIN")
        for table in planned_in:
            conn.executemany(f"INSERT INTO {table} VALUES ({','.join('?' * len(rows[table][0]))})", reversed(rows[table]))
        conn.execute("COMMIT")
    return path


class PagesAtTheLimits(LimitCase):
    """A register at the limits tells its pages, and has the rows that it should; made by edits or by SQLite, opened again, and edited."""

    def test_made_by_edits(self):
        path, rows = self.folder / "here.db", planned()
        self.tells("make", path, rows, batches())
        self.holds(path, laid_over(rows))
        self.tells("open", path, rows)
        self.is_edited(path)

    def test_made_by_sqlite(self):
        path = made_there(self.folder / "there.db", laid_over(planned()))
        self.tells("open", path, planned())
        self.is_edited(path)

    def test_made_whole_by_sqlite(self):
        """The variant that is opened from another has all rows that it shows."""
        path = made_there(self.folder / "whole.db", planned())
        self.tells("open", path, planned())
        self.is_edited(path, is_whole=True)


class PagesOfLevels(PageCase):
    """Pages of variants that are laid one over the other are as worked out by hand, over 4 levels and over 16; a 17th is `Unavailable`."""

    def shows(self, path, question, lines):
        self.see(question, ("\n".join([f"> {question}", *lines, ""]), "", 0), self.asked(path, question))

    def test_4_levels(self):
        levels = filled(self.folder / "levels.db", more=LEVELS)
        for question, lines in SHOWN.items():
            self.shows(levels, question, lines)

    def test_16_levels(self):
        deep = filled(self.folder / "deep.db", more=chain(DEPTH))
        for at in 2, DEPTH:
            self.shows(deep, f"page s1 v{at}", [f"s1 v{at} true", "node n1", f"frame f{at} n1", "frame g n1"])

    def test_17_levels(self):
        deeper = filled(self.folder / "deeper.db", more=chain(DEPTH + 1))
        self.refuses("too many levels", deeper, f"page s1 v{DEPTH + 1}")
