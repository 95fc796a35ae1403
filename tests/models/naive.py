"""Answers a script from standard input as `slotplan run` does, by python3's tomllib, json, csv and sqlite3 alone: python3 -m tests.models.naive < SCRIPT

It does the same work in the plainest way: the register's tables in memory, for each request what it asks by SELECT, and its
changes by INSERT and DELETE. It was written from docs/FORMATS.md, and nothing of it is the program's own: tests compare the answers of
both, and `bench/run.py` their time."""
import csv
import io
import json
import re
import sqlite3
import sys
import tomllib
from bisect import insort
from collections import Counter

from tests.models.proposals import Page, Wish, propose

CYCLES = 64  # where the cluster file says nothing else
NAME = re.compile(r"[A-Za-z][A-Za-z0-9_]{0,31}", re.ASCII)
KEY = re.compile(r"[A-Za-z0-9]{8,64}", re.ASCII)
WHOLE = re.compile(rb"[0-9]{1,10}")
NUMBERS = {"slot", "base", "repetition", "start", "length", "part"}
PLACE = ("variant", "frame", "slot", "channels", "base", "repetition")
FIELDS = {
    "open_variant": ("variant", "from", "flat"), "release": ("variant",), "add_supplier": ("supplier", "key"),
    "set_key": ("supplier", "key"), "add_node": ("supplier", "node"),
    "grant": ("variant", "slot", "channel", "supplier", "node"), "revoke": ("variant", "slot", "channel", "supplier"),
    "add_frame": ("variant", "frame", "node"), "drop_frame": ("variant", "frame"), "place": PLACE, "unplace": PLACE,
    "add_signal": ("variant", "frame", "signal", "start", "length", "order"), "drop_signal": ("variant", "frame", "signal"),
    "import": ("variant", "label", "body"), "replace": ("variant", "body", "whole"), "try": ("variant", "body", "replace", "whole"),
    "propose": ("variant", "body", "replace"), "cluster": (),
    "variants": (), "nodes": (), "diff": ("variant", "from"), "grants": ("variant",), "frames": ("variant",), "schedule": ("variant",), "gaps": ("variant",),
    "layout": ("variant", "frame"), "load": ("variant",), "rows": ("variant",), "export_frames": ("variant", "part"), "export_placements": ("variant", "part"),
    "export_signals": ("variant", "part"), "room": ("variant", "frame", "repetition"),
}
# Fields that may be left out, and what they then are.
LEFT_OUT = {
    "open_variant": {"from": None, "flat": False}, "replace": {"whole": False}, "try": {"replace": False, "whole": False}, "propose": {"replace": False},
}
FLAGS = {"flat", "replace", "whole"}
HELD = {"cluster", "variants", "nodes"}
BOTH = HELD | {"diff", "grants", "frames", "schedule", "gaps", "layout", "load", "rows", "export_frames", "export_placements", "export_signals"}
QUERIES = BOTH | {"room"}
# Requests that carry a file, each with what answers it.
FILED = {"import": "import_rows", "replace": "replace_rows", "try": "try_rows", "propose": "propose"}
INTEGRATORS = {"open_variant", "release", "add_supplier", "set_key", "add_node", "grant", "revoke"}
NUMBER_OF = {
    "BadText": 1, "UnknownKey": 2, "NotYours": 3, "BadName": 4, "BadCycles": 5, "BadSlot": 6, "BadChannel": 7, "BadSignal": 8,
    "LabelUsed": 9, "NoVariant": 10, "Released": 11, "NotReleased": 12, "TooDeep": 13, "NoSupplier": 14, "NoNode": 15,
    "NoFrame": 16, "NoSignal": 17, "NoPlacement": 18, "Exists": 19, "NodeDiffers": 20, "NotGranted": 21, "InUse": 22,
    "Limit": 23, "Taken": 24, "CellTaken": 25, "OutOfPayload": 26, "BitTaken": 27, "BadRow": 29, "BadKey": 30, "KeyTaken": 31, "NoRoom": 32,
}
LENGTHS = ("slot_macroticks", "dynamic_macroticks", "symbol_macroticks", "idle_macroticks", "macroticks_per_cycle")
# So many rows a file has at most, and so many records a part of an export.
ROWS = 512
COUNTS = {"static_slots", "payload_words", *LENGTHS}
FIGURES = ("channels", "static_slots", *LENGTHS, "payload_words", "cycles")
KEYS = COUNTS | {"channels", "integrator", "suppliers"}
TABLES = """
CREATE TABLE nodes (supplier TEXT, name TEXT, PRIMARY KEY (supplier, name));
CREATE TABLE variants (name TEXT PRIMARY KEY, parent TEXT, depth INTEGER, released INTEGER);
CREATE TABLE grants (variant TEXT, slot INTEGER, channel TEXT, supplier TEXT, node TEXT, PRIMARY KEY (variant, slot, channel));
CREATE INDEX grants_by_supplier ON grants (variant, supplier);
CREATE TABLE frames (variant TEXT, supplier TEXT, name TEXT, node TEXT, PRIMARY KEY (variant, supplier, name));
CREATE TABLE placements (variant TEXT, supplier TEXT, frame TEXT, slot INTEGER, channels TEXT, base INTEGER, repetition INTEGER,
  PRIMARY KEY (variant, supplier, frame, slot, channels, base, repetition));
CREATE TABLE signals (variant TEXT, supplier TEXT, frame TEXT, name TEXT, start INTEGER, length INTEGER, big INTEGER,
  PRIMARY KEY (variant, supplier, frame, name));
CREATE TABLE imports (supplier TEXT, label TEXT, variant TEXT, body BLOB, rows INTEGER, PRIMARY KEY (supplier, label));
"""


class Refused(Exception):
    def __init__(self, name, **more):
        self.answer = {**more, "no": NUMBER_OF[name], "refused": name}


def see(true, name):
    if not true:
        raise Refused(name)


class Fault(Exception):
    """Why a cluster file is none; its word."""


def must(true, word):
    if not true:
        raise Fault(word)


def is_number(value):
    return type(value) is int and 0 <= value < 1 << 32


def read_cluster(text):
    """What a cluster file says, its faults sought in their order."""
    try:
        cluster = tomllib.loads(text.decode())
    except ValueError:
        raise Fault("BadToml")
    must(set(cluster) - {"cycles"} == KEYS, "BadField")
    cluster.setdefault("cycles", CYCLES)
    must(all(is_number(cluster[key]) for key in (*COUNTS, "cycles")), "BadField")
    must(cluster["channels"] in ("A", "B", "AB") and isinstance(cluster["integrator"], str), "BadField")
    suppliers = cluster["suppliers"]
    must(isinstance(suppliers, dict) and all(isinstance(key, str) for key in suppliers.values()), "BadField")
    check_params(cluster)
    keys = [cluster["integrator"], *suppliers.values()]
    must(len(suppliers) <= 64, "Limit")
    must(all(map(NAME.fullmatch, suppliers)), "BadName")
    must(all(map(KEY.fullmatch, keys)), "BadKey")
    must(len(set(keys)) == len(keys), "KeyTwice")
    return cluster


def check_params(cluster):
    slot, dynamic, symbol, idle, cycle = (cluster[key] for key in LENGTHS)
    must(2 <= cluster["static_slots"] <= 1023, "BadSlots")
    must(cluster["payload_words"] <= 127, "BadPayload")
    must(slot > 0 and idle > 0 and cycle <= 16000, "BadMacroticks")
    must(cluster["static_slots"] * slot + dynamic + symbol + idle == cycle, "BadSum")
    must(8 <= cluster["cycles"] <= 64 and cluster["cycles"] % 2 == 0, "BadCycleCount")


def read_request(text):
    try:
        # A number with a minus sign is none, -0 neither.
        asked = json.loads(text.decode(), parse_int=lambda digits: -1 if digits == "-0" else int(digits))
    except ValueError:
        raise Refused("BadText")
    see(isinstance(asked, dict) and isinstance(asked.get("do"), str) and asked["do"] in FIELDS, "BadText")
    do = asked.pop("do")
    asked = {**LEFT_OUT.get(do, {}), **asked}
    see(set(asked) == set(FIELDS[do]), "BadText")
    for field, value in asked.items():
        if field in NUMBERS:
            see(is_number(value), "BadText")
        elif field in FLAGS:
            see(isinstance(value, bool), "BadText")
        else:
            see(isinstance(value, str) or (do, field, value) == ("open_variant", "from", None), "BadText")
    see(do != "try" or asked["replace"] or not asked["whole"], "BadText")
    see(do != "open_variant" or asked["from"] is not None or not asked["flat"], "BadText")
    return do, asked


def bits_of(start, length, big):
    """The bits of a signal in the payload; from the most significant on where the order is big."""
    bits = [start]
    while len(bits) < length:
        last = bits[-1]
        bits.append(last + 1 if not big else last - 1 if last % 8 else last + 15)
    return bits


def told_as_fate(no, refused, **more):
    """A refusal's number and name, and where the filled cell or the used bit is."""
    where = {"CellTaken": "{cycle:02} {channel} {frame}", "BitTaken": "{bit:04} {signal}"}.get(refused, "")
    return f"{no:02} {refused} {where.format(**more)}".rstrip()


def first_common(count, one, other):
    """The least of so many cycles that two pairs of a base and a repetition select both, or None."""
    return next((c for c in range(count) if c % one[1] == one[0] and c % other[1] == other[0]), None)


class Register:
    def __init__(self, cluster):
        self.cluster = cluster
        self.cycles = cluster["cycles"]
        self.suppliers = sorted(cluster["suppliers"])
        self.keys = {key: name for name, key in cluster["suppliers"].items()}
        self.db = sqlite3.connect(":memory:", isolation_level=None)
        self.db.executescript(TABLES)

    def sql(self, text, *values):
        return self.db.execute(text, values).fetchall()

    def one(self, text, *values):
        return self.db.execute(text, values).fetchone()

    # ---- what the request itself refuses

    def check(self, actor, do, asked):
        if do not in BOTH:
            see((actor is None) == (do in INTEGRATORS), "NotYours")
        texts = ("variant", "from", "supplier", "node", "frame", "signal", "label")
        see(all(NAME.fullmatch(asked[field]) for field in texts if asked.get(field) is not None), "BadName")
        see(KEY.fullmatch(asked.get("key", "anything")), "BadKey")
        self.check_place(asked)
        if "order" in asked:
            see(1 <= asked["length"] <= 64 and asked["order"] in ("little", "big"), "BadSignal")

    def check_place(self, asked):
        if "repetition" in asked:
            see(0 < asked["repetition"] and self.cycles % asked["repetition"] == 0 and asked.get("base", 0) < asked["repetition"], "BadCycles")
        if "slot" in asked:
            see(1 <= asked["slot"] <= self.cluster["static_slots"], "BadSlot")
        channels = asked.get("channels", asked.get("channel"))
        if channels is not None:
            see(channels in ("A", "B", "AB") and not ("channel" in asked and channels == "AB"), "BadChannel")
            see(set(channels) <= set(self.cluster["channels"]), "BadChannel")

    # ---- what the rows refuse, and what changes

    def open_row(self, variant):
        row = self.one("SELECT released FROM variants WHERE name = ?", variant)
        see(row, "NoVariant")
        see(not row[0], "Released")

    def count(self, table, where, *values):
        return self.one(f"SELECT count(*) FROM {table} WHERE {where}", *values)[0]

    def open_variant(self, _, asked):
        variant, other, flat = asked["variant"], asked["from"], asked["flat"]
        parent, depth = None if flat else other, 1
        if other is not None:
            row = self.one("SELECT depth, released FROM variants WHERE name = ?", other)
            see(row, "NoVariant")
            see(row[1], "NotReleased")
            see(flat or row[0] < 16, "TooDeep")
            depth = 1 if flat else row[0] + 1
        see(not self.one("SELECT 1 FROM variants WHERE name = ?", variant), "Exists")
        see(self.count("variants", "1") < 64, "Limit")
        self.sql("INSERT INTO variants VALUES (?, ?, ?, 0)", variant, parent, depth)
        if other is not None:
            for table, columns in (
                ("grants", "slot, channel, supplier, node"), ("frames", "supplier, name, node"),
                ("placements", "supplier, frame, slot, channels, base, repetition"), ("signals", "supplier, frame, name, start, length, big"),
            ):
                self.sql(f"INSERT INTO {table} SELECT ?, {columns} FROM {table} WHERE variant = ?", variant, other)

    def release(self, _, asked):
        self.open_row(asked["variant"])
        self.sql("UPDATE variants SET released = 1 WHERE name = ?", asked["variant"])

    def add_supplier(self, _, asked):
        supplier, key = asked["supplier"], asked["key"]
        see(supplier not in self.suppliers, "Exists")
        self.see_new_key(key)
        see(len(self.suppliers) < 64, "Limit")
        insort(self.suppliers, supplier)
        self.keys[key] = supplier

    def see_new_key(self, key):
        see(key != self.cluster["integrator"] and key not in self.keys, "KeyTaken")

    def set_key(self, _, asked):
        supplier, key = asked["supplier"], asked["key"]
        see(supplier in self.suppliers, "NoSupplier")
        self.see_new_key(key)
        self.keys = {**{old: of for old, of in self.keys.items() if of != supplier}, key: supplier}

    def see_node(self, supplier, node):
        see(self.one("SELECT 1 FROM nodes WHERE supplier = ? AND name = ?", supplier, node), "NoNode")

    def add_node(self, _, asked):
        supplier, node = asked["supplier"], asked["node"]
        see(supplier in self.suppliers, "NoSupplier")
        see(not self.one("SELECT 1 FROM nodes WHERE supplier = ? AND name = ?", supplier, node), "Exists")
        see(self.count("nodes", "supplier = ?", supplier) < 64, "Limit")
        self.sql("INSERT INTO nodes VALUES (?, ?)", supplier, node)

    def holder(self, variant, slot, channel):
        return self.one("SELECT supplier, node FROM grants WHERE variant = ? AND slot = ? AND channel = ?", variant, slot, channel)

    def grant(self, _, asked):
        variant, slot, channel, supplier, node = (asked[field] for field in FIELDS["grant"])
        self.open_row(variant)
        see(supplier in self.suppliers, "NoSupplier")
        self.see_node(supplier, node)
        holder = self.holder(variant, slot, channel)
        see(holder != (supplier, node), "Exists")
        see(holder is None or holder[0] != supplier, "NodeDiffers")
        see(holder is None, "Taken")
        self.sql("INSERT INTO grants VALUES (?, ?, ?, ?, ?)", variant, slot, channel, supplier, node)

    def revoke(self, _, asked):
        variant, slot, channel, supplier = (asked[field] for field in FIELDS["revoke"])
        self.open_row(variant)
        see(supplier in self.suppliers, "NoSupplier")
        holder = self.holder(variant, slot, channel)
        see(holder is not None and holder[0] == supplier, "NotGranted")
        used = self.sql("SELECT channels FROM placements WHERE variant = ? AND supplier = ? AND slot = ?", variant, supplier, slot)
        see(not any(channel in channels for channels, in used), "InUse")
        self.sql("DELETE FROM grants WHERE variant = ? AND slot = ? AND channel = ?", variant, slot, channel)

    def node_of(self, variant, supplier, frame):
        row = self.one("SELECT node FROM frames WHERE variant = ? AND supplier = ? AND name = ?", variant, supplier, frame)
        return row and row[0]

    def new_frame(self, variant, supplier, frame, node):
        see(self.count("frames", "variant = ? AND supplier = ?", variant, supplier) < 256, "Limit")
        self.sql("INSERT INTO frames VALUES (?, ?, ?, ?)", variant, supplier, frame, node)

    def add_frame(self, supplier, asked):
        variant, frame, node = asked["variant"], asked["frame"], asked["node"]
        self.open_row(variant)
        self.see_node(supplier, node)
        see(self.node_of(variant, supplier, frame) is None, "Exists")
        self.new_frame(variant, supplier, frame, node)

    def see_frame(self, supplier, asked):
        self.open_row(asked["variant"])
        node = self.node_of(asked["variant"], supplier, asked["frame"])
        see(node is not None, "NoFrame")
        return node

    def drop_frame(self, supplier, asked):
        self.see_frame(supplier, asked)
        self.end_frame(asked["variant"], supplier, asked["frame"])

    def end_frame(self, *of):
        self.sql("DELETE FROM placements WHERE variant = ? AND supplier = ? AND frame = ?", *of)
        self.sql("DELETE FROM signals WHERE variant = ? AND supplier = ? AND frame = ?", *of)
        self.sql("DELETE FROM frames WHERE variant = ? AND supplier = ? AND name = ?", *of)

    def put_placement(self, supplier, asked, node):
        variant, frame, slot, channels, base, repetition = (asked[field] for field in PLACE)
        for channel in channels:
            see(self.holder(variant, slot, channel) == (supplier, node), "NotGranted")
        see(self.count("placements", "variant = ? AND supplier = ? AND frame = ?", variant, supplier, frame) < 8, "Limit")
        others = self.sql("SELECT frame, channels, base, repetition FROM placements WHERE variant = ? AND supplier = ? AND slot = ?", variant, supplier, slot)
        taken = []
        for other, on, *cycles in others:
            cycle = first_common(self.cycles, (base, repetition), cycles)
            if cycle is not None:
                taken += [(cycle, channel, other) for channel in channels if channel in on]
        if taken:
            cycle, channel, other = min(taken)
            raise Refused("CellTaken", cycle=cycle, channel=channel, frame=other)
        self.sql("INSERT INTO placements VALUES (?, ?, ?, ?, ?, ?, ?)", variant, supplier, frame, slot, channels, base, repetition)

    def place(self, supplier, asked):
        self.put_placement(supplier, asked, self.see_frame(supplier, asked))

    def unplace(self, supplier, asked):
        self.see_frame(supplier, asked)
        gone = self.db.execute(
            "DELETE FROM placements WHERE variant = ? AND supplier = ? AND frame = ? AND slot = ? AND channels = ? AND base = ? AND repetition = ?",
            (asked["variant"], supplier, *(asked[field] for field in PLACE[1:])),
        )
        see(gone.rowcount == 1, "NoPlacement")

    def add_signal(self, supplier, asked):
        variant, frame, signal, start, length, order = (asked[field] for field in FIELDS["add_signal"])
        self.see_frame(supplier, asked)
        there = self.sql("SELECT name, start, length, big FROM signals WHERE variant = ? AND supplier = ? AND frame = ?", variant, supplier, frame)
        see(all(name != signal for name, *_ in there), "Exists")
        see(len(there) < 64, "Limit")
        big = order == "big"
        see(start < 16 * self.cluster["payload_words"], "OutOfPayload")
        bits = bits_of(start, length, big)
        see(max(bits) < 16 * self.cluster["payload_words"], "OutOfPayload")
        used = {bit: name for name, *where in there for bit in bits_of(*where)}
        taken = [bit for bit in bits if bit in used]
        if taken:
            raise Refused("BitTaken", bit=min(taken), signal=used[min(taken)])
        self.sql("INSERT INTO signals VALUES (?, ?, ?, ?, ?, ?, ?)", variant, supplier, frame, signal, start, length, int(big))

    def drop_signal(self, supplier, asked):
        self.see_frame(supplier, asked)
        gone = self.db.execute(
            "DELETE FROM signals WHERE variant = ? AND supplier = ? AND frame = ? AND name = ?", (asked["variant"], supplier, asked["frame"], asked["signal"])
        )
        see(gone.rowcount == 1, "NoSignal")

    # ---- imports, replacements and tries

    def import_rows(self, supplier, asked):
        variant, label, body = asked["variant"], asked["label"], asked["body"].encode()
        kept = self.one("SELECT variant, body, rows FROM imports WHERE supplier = ? AND label = ?", supplier, label)
        if kept:
            see(kept[:2] == (variant, body), "LabelUsed")
            return {"ok": "imported", "rows": kept[2]}
        self.open_row(variant)
        see(len(body) <= 65_536 and self.count("imports", "supplier = ?", supplier) < 1000, "Limit")
        self.db.execute("BEGIN")
        rows, wrong = self.read_rows(body)
        refused = self.refused_row(rows, wrong, lambda row: self.act_row(supplier, variant, *row))
        if refused:
            return refused
        self.sql("INSERT INTO imports VALUES (?, ?, ?, ?, ?)", supplier, label, variant, body, len(rows))
        self.db.execute("COMMIT")
        return {"ok": "imported", "rows": len(rows)}

    def replace_rows(self, supplier, asked):
        variant, body = asked["variant"], asked["body"].encode()
        self.open_row(variant)
        see(len(body) <= 65_536, "Limit")
        self.db.execute("BEGIN")
        rows, wrong = self.read_rows(body)
        self.take_away(supplier, variant, body, asked["whole"])
        refused = self.refused_row(rows, wrong, lambda row: self.put_row(supplier, variant, *row))
        if refused:
            return refused
        self.db.execute("COMMIT")
        return {"ok": "replaced", "rows": len(rows)}

    def take_away(self, supplier, variant, body, whole):
        """What a replacement takes away before its first row. A file without a header takes nothing."""
        (kind, _), (rows, _) = self.records(body), self.read_rows(body)
        named = {(row["frame"], row.get("node")) for _, (_, row) in rows}
        there = self.sql("SELECT name, node FROM frames WHERE variant = ? AND supplier = ?", variant, supplier)
        if kind == "frames":
            for frame, node in there if whole else ():
                if (frame, node) not in named:
                    self.end_frame(variant, supplier, frame)
        elif kind:
            for frame in {frame for frame, _ in (there if whole else named)}:
                self.sql(f"DELETE FROM {kind} WHERE variant = ? AND supplier = ? AND frame = ?", variant, supplier, frame)

    def try_rows(self, supplier, asked):
        """What becomes of each line of a file, on what those before it left; in the end nothing is changed."""
        variant, body, replaces = asked["variant"], asked["body"].encode(), asked["replace"]
        self.open_row(variant)
        see(len(body) <= 65_536, "Limit")
        self.db.execute("BEGIN")
        if replaces:
            self.take_away(supplier, variant, body, asked["whole"])
        act = self.put_row if replaces else self.act_row
        fates = [self.fate(line, row, lambda row: act(supplier, variant, *row)) for line, row in self.each_line(body)]
        self.db.execute("ROLLBACK")
        return {"lines": fates, "ok": "try"}

    def fate(self, line, row, act):
        """What becomes of a line, which is a row or refused by its own text. A refused one changes nothing."""
        self.sql("SAVEPOINT line")
        try:
            if isinstance(row, Refused):
                raise row
            act(row)
        except Refused as refused:
            self.sql("ROLLBACK TO line")
            return f"{line:04} {told_as_fate(**refused.answer)}"
        return f"{line:04} 00 done"

    def propose(self, supplier, asked):
        """A place for each wish of a file, or what refuses it; nothing is changed."""
        variant, body = asked["variant"], asked["body"].encode()
        self.open_row(variant)
        see(len(body) <= 65_536, "Limit")
        reads = list(self.each_line(body, FIELDS_OF_WISH))
        wishes = [Wish(line, **row[1]) for line, row in reads if not isinstance(row, Refused)]
        places, lacks = propose(self.page(variant, supplier), wishes, asked["replace"])
        lines = [self.proposed(line, row, places.get(line)) for line, row in reads]
        return {"lines": lines + [f"LACK {node} {channels} {slots:04}" for node, channels, slots in lacks], "ok": "propose"}

    def proposed(self, line, row, place):
        """What becomes of a wish, by its own text or as it was found."""
        if isinstance(row, Refused):
            return f"{line:04} {told_as_fate(**row.answer)}"
        if isinstance(place, str):
            return f"{line:04} {told_as_fate(NUMBER_OF[place], place)}"
        return f"{line:04} 00 " + ",".join(map(str, (row[1]["frame"], row[1]["node"], *place)))

    def page(self, variant, supplier):
        """The supplier's rows in the variant."""
        grants = self.sql("SELECT slot, channel, node FROM grants WHERE variant = ? AND supplier = ?", variant, supplier)
        frames = self.sql("SELECT name, node FROM frames WHERE variant = ? AND supplier = ?", variant, supplier)
        return Page(
            self.cycles, [node for node, in self.sql("SELECT name FROM nodes WHERE supplier = ?", supplier)],
            {(slot, channel): node for slot, channel, node in grants},
            {frame: (node, self.placements(variant, supplier, frame)) for frame, node in frames})

    def refused_row(self, rows, wrong, act):
        """Acts on each row, and tells the first that is refused, by what it acts on or, behind all, by its own text. Then nothing is changed."""
        line = 1
        try:
            for line, row in rows:
                act(row)
            if wrong:
                line, refused = wrong
                raise refused
        except Refused as refused:
            self.db.execute("ROLLBACK")
            return {"line": line, "no": 29, "refused": "BadRow", "row": refused.answer}

    def read_rows(self, body):
        """The rows of a file, each with its line, up to the first that its own text refuses, and the line and the refusal of that one."""
        rows = []
        for line, row in self.each_line(body):
            if isinstance(row, Refused):
                return rows, (line, row)
            rows.append((line, row))
        return rows, None

    def each_line(self, body, kinds=None):
        """The lines of a file: each with its row, or with the refusal by its own text. One line more than there may be is the last."""
        kinds = kinds or FIELDS_OF_ROW
        kind, records = self.records(body, kinds)
        if kind is None:
            yield 1, Refused("BadText")
            return
        for line, record in zip(range(2, ROWS + 2), records):
            yield line, self.row_or_refused(kind, kinds[kind], record)
        if next(records, None):
            yield ROWS + 2, Refused("Limit")

    def records(self, body, kinds=None):
        """The kind of a file's rows, as its header tells, or None where it has none; and the records behind the header."""
        text = body.removeprefix(b"\xef\xbb\xbf").decode("latin-1")
        records = (record for record in csv.reader(io.StringIO(text, newline="")) if record)
        header = tuple(next(records, ()))
        return next((kind for kind, fields in (kinds or FIELDS_OF_ROW).items() if fields == header), None), records

    def row_or_refused(self, kind, header, record):
        try:
            return kind, self.read_row(header, record)
        except Refused as refused:
            return refused

    def read_row(self, header, record):
        see(len(record) == len(header), "BadText")
        asked = {}
        for field, text in zip(header, record):
            raw = text.encode("latin-1")
            if field in NUMBERS:
                see(WHOLE.fullmatch(raw) and int(raw) < 1 << 32, "BadText")
                asked[field] = int(raw)
            else:
                try:
                    asked[field] = raw.decode()
                except ValueError:
                    raise Refused("BadText")
        self.check("a supplier", "row", asked)
        return asked

    def act_row(self, supplier, variant, kind, asked):
        asked["variant"] = variant
        if kind == "signals":
            self.add_signal(supplier, asked)
            return
        if kind == "frames":
            self.add_frame(supplier, asked)
            return
        self.put_frame(supplier, asked)
        self.put_placement(supplier, asked, asked["node"])

    def put_frame(self, supplier, asked):
        """A frame that is there has to be of this node; else it is added."""
        variant, frame, node = asked["variant"], asked["frame"], asked["node"]
        self.see_node(supplier, node)
        there = self.node_of(variant, supplier, frame)
        see(there is None or there == node, "NodeDiffers")
        if there is None:
            self.new_frame(variant, supplier, frame, node)

    def put_row(self, supplier, variant, kind, asked):
        """A row of a replacement, behind which nothing is left of what it takes the place of."""
        if kind == "frames":
            self.put_frame(supplier, {**asked, "variant": variant})
        else:
            self.act_row(supplier, variant, kind, asked)

    # ---- queries

    def of(self, actor):
        """The suppliers whose rows an actor sees, each with what ends its lines."""
        return [(actor, "")] if actor is not None else [(supplier, f" {supplier}") for supplier in self.suppliers]

    def held(self, do, actor):
        """What the register holds beside the rows of its variants."""
        if do == "cluster":
            return [f"{key} {self.cluster[key]}" for key in FIGURES] + [f"supplier {supplier}" for supplier, _ in self.of(actor)]
        if do == "variants":
            variants = self.sql("SELECT name, parent, depth, released FROM variants ORDER BY name")
            return [f"{name} {parent or '-'} {depth} {'released' if released else 'open'}" for name, parent, depth, released in variants]
        nodes = "SELECT name FROM nodes WHERE supplier = ? ORDER BY name"
        return [f"{node}{end}" for supplier, end in self.of(actor) for node, in self.sql(nodes, supplier)]

    def grants(self, actor, variant):
        rows = [
            (slot, channel, f"{slot:04} {channel} {node}{end}")
            for supplier, end in self.of(actor)
            for slot, channel, node in self.sql("SELECT slot, channel, node FROM grants WHERE variant = ? AND supplier = ?", variant, supplier)
        ]
        return [line for *_, line in sorted(rows)]

    def frames(self, actor, variant):
        for supplier, end in self.of(actor):
            for frame, node in self.sql("SELECT name, node FROM frames WHERE variant = ? AND supplier = ? ORDER BY name", variant, supplier):
                yield f"FRAME {frame} {node}{end}"
                for slot, channels, base, repetition in self.placements(variant, supplier, frame):
                    yield f"AT {slot:04} {channels} {base:02} {repetition:02}"

    def placements(self, variant, supplier, frame):
        """Those of a frame by slot, channels (A, AB, B), base and repetition."""
        of = "SELECT slot, channels, base, repetition FROM placements WHERE variant = ? AND supplier = ? AND frame = ?"
        return sorted(self.sql(of, variant, supplier, frame), key=lambda it: (it[0], ("A", "AB", "B").index(it[1]), *it[2:]))

    def schedule(self, actor, variant):
        lines = []
        for supplier, end in self.of(actor):
            placed = self.sql(
                "SELECT p.frame, f.node, p.slot, p.channels, p.base, p.repetition FROM placements p JOIN frames f"
                " ON f.variant = p.variant AND f.supplier = p.supplier AND f.name = p.frame WHERE p.variant = ? AND p.supplier = ?", variant, supplier)
            for frame, node, slot, channels, base, repetition in placed:
                lines += [(cycle, slot, channel, f"{frame} {node}{end}") for cycle in range(base, self.cycles, repetition) for channel in channels]
        return [f"{cycle:02} {slot:04} {channel} {rest}" for cycle, slot, channel, rest in sorted(lines)]

    def gaps(self, actor, variant):
        for supplier, end in self.of(actor):
            for frame, in self.sql("SELECT name FROM frames WHERE variant = ? AND supplier = ? ORDER BY name", variant, supplier):
                yield f"GAP {self.gap(variant, supplier, frame):>7} {frame}{end}"

    def gap(self, variant, supplier, frame):
        """The frame's greatest, or `never`."""
        ring = self.cycles * self.cluster["macroticks_per_cycle"]
        moments = sorted({
            cycle * self.cluster["macroticks_per_cycle"] + (slot - 1) * self.cluster["slot_macroticks"]
            for slot, _, base, repetition in self.placements(variant, supplier, frame)
            for cycle in range(base, self.cycles, repetition)
        })
        return max(after - moment for moment, after in zip(moments, moments[1:] + [moments[0] + ring])) if moments else "never"

    def signals(self, variant, supplier, frame):
        """Those of a frame by start."""
        of = "SELECT start, length, big, name FROM signals WHERE variant = ? AND supplier = ? AND frame = ? ORDER BY start"
        return [(start, length, ("little", "big")[big], name) for start, length, big, name in self.sql(of, variant, supplier, frame)]

    def layout(self, actor, variant, frame):
        found, lines = False, []
        for supplier, end in self.of(actor):
            if self.node_of(variant, supplier, frame) is not None:
                found = True
                lines += [f"{start:04} {length:02} {order} {name}{end}" for start, length, order, name in self.signals(variant, supplier, frame)]
        see(found, "NoFrame")
        return lines

    def load(self, actor, variant):
        """For each lane how many cycles of it are used; for a supplier for each lane that it holds."""
        used = Counter()
        for supplier, _ in self.of(actor):
            placed = self.sql("SELECT slot, channels, base, repetition FROM placements WHERE variant = ? AND supplier = ?", variant, supplier)
            for slot, channels, base, repetition in placed:
                used.update({(slot, channel): len(range(base, self.cycles, repetition)) for channel in channels})
        grants = self.sql("SELECT slot, channel, supplier, node FROM grants WHERE variant = ?", variant)
        held = {(slot, channel): holder for slot, channel, *holder in grants}
        for slot in range(1, self.cluster["static_slots"] + 1):
            for channel in self.cluster["channels"]:
                supplier, node = held.get((slot, channel), ("-", "-"))
                line = f"{slot:04} {channel} {used[slot, channel]:02} {self.cycles:02} {node}"
                if actor is None:
                    yield f"{line} {supplier}"
                elif actor == supplier:
                    yield line

    def room(self, supplier, variant, frame, repetition):
        """Where the frame can still be placed: each base of which no cell is filled, in the lanes of its node."""
        node = self.see_frame(supplier, {"variant": variant, "frame": frame})
        see(len(self.placements(variant, supplier, frame)) < 8, "Limit")
        free = {
            (slot, channel): set(range(self.cycles))
            for slot, channel in self.sql("SELECT slot, channel FROM grants WHERE variant = ? AND supplier = ? AND node = ?", variant, supplier, node)
        }
        placed = self.sql("SELECT slot, channels, base, repetition FROM placements WHERE variant = ? AND supplier = ?", variant, supplier)
        for slot, channels, base, every in placed:
            for channel in channels:
                free.get((slot, channel), set()).difference_update(range(base, self.cycles, every))
        for slot in sorted({slot for slot, _ in free}):
            for channels in "A", "AB", "B":
                cycles = set.intersection(*(free.get((slot, channel), set()) for channel in channels))
                bases = [base for base in range(repetition) if cycles.issuperset(range(base, self.cycles, repetition))]
                if bases:
                    yield " ".join([f"{slot:04} {channels} {repetition:02}", *(f"{base:02}" for base in bases)])

    # ---- rows and differences

    def seen(self, actor, variant):
        """The rows of the variant that an actor sees: of each its kind and its key, by which they are in order, and its line."""
        grants = "SELECT slot, channel, node FROM grants WHERE variant = ? AND supplier = ?"
        for supplier, end in self.of(actor):
            for slot, channel, node in self.sql(grants, variant, supplier):
                yield (0, slot, channel), f"GRANT {slot:04} {channel} {node}{end}"
            for frame, node in self.sql("SELECT name, node FROM frames WHERE variant = ? AND supplier = ?", variant, supplier):
                yield (1, supplier, frame), f"FRAME {frame} {node}{end}"
                for slot, channels, base, repetition in self.placements(variant, supplier, frame):
                    key = (2, supplier, frame, slot, ("A", "AB", "B").index(channels), base, repetition)
                    yield key, f"AT {frame} {slot:04} {channels} {base:02} {repetition:02}{end}"
                for start, length, order, name in self.signals(variant, supplier, frame):
                    yield (3, supplier, frame, start), f"SIGNAL {frame} {start:04} {length:02} {order} {name}{end}"
                yield (4, supplier, frame), f"GAP {self.gap(variant, supplier, frame):>7} {frame}{end}"

    def rows(self, actor, variant):
        """All of them at one moment, as a difference has them without its sign."""
        return [line for _, line in sorted(self.seen(actor, variant))]

    def diff(self, actor, variant, **other):
        """What the other variant has and this one not, and what this one has and the other not."""
        old, new = (set(self.seen(actor, name)) for name in (other["from"], variant))
        both = [(key, 0, f"- {line}") for key, line in old - new] + [(key, 1, f"+ {line}") for key, line in new - old]
        return [line for *_, line in sorted(both)]

    # ---- exports

    def exported(self, kind, variant, supplier):
        """For each frame of the supplier its records of this kind."""
        for frame, node in self.sql("SELECT name, node FROM frames WHERE variant = ? AND supplier = ? ORDER BY name", variant, supplier):
            if kind == "frames":
                yield [(frame, node)]
            elif kind == "placements":
                yield [(frame, node, *placement) for placement in self.placements(variant, supplier, frame)]
            else:
                yield [(frame, name, start, length, order) for start, length, order, name in self.signals(variant, supplier, frame)]

    def export(self, kind, actor, variant, part):
        """The header, and the records of this part: it takes whole frames, as many as give at most so many records."""
        parts = [[]]
        for supplier, _ in self.of(actor):
            for records in self.exported(kind, variant, supplier):
                if len(parts[-1]) + len(records) > ROWS:
                    parts.append([])
                parts[-1] += [(*record, supplier) for record in records]
        fields = [(*FIELDS_OF_ROW[kind], "supplier"), *(parts[part] if part < len(parts) else [])]
        return [",".join(map(str, record if actor is None else record[:-1])) for record in fields]

    def export_frames(self, actor, variant, part):
        return self.export("frames", actor, variant, part)

    def export_placements(self, actor, variant, part):
        return self.export("placements", actor, variant, part)

    def export_signals(self, actor, variant, part):
        return self.export("signals", actor, variant, part)

    # ---- one line

    def answer(self, line):
        key, space, text = line.partition(b" ")
        see(space, "BadText")
        do, asked = read_request(text)
        key = key.decode("latin-1")
        see(key == self.cluster["integrator"] or key in self.keys, "UnknownKey")
        actor = self.keys.get(key)
        self.check(actor, do, asked)
        if do in HELD:
            return {"lines": self.held(do, actor), "ok": do}
        if do in QUERIES:
            for variant in (asked[field] for field in ("variant", "from") if field in asked):
                see(self.one("SELECT 1 FROM variants WHERE name = ?", variant), "NoVariant")
            return {"lines": list(getattr(self, do)(actor, **asked)), "ok": do}
        if do in FILED:
            return getattr(self, FILED[do])(actor, asked)
        getattr(self, do)(actor, asked)
        return {"ok": "done"}

    def told(self, line):
        """The text of its answer."""
        try:
            answer = self.answer(line)
        except Refused as refused:
            answer = refused.answer
        return json.dumps(answer, separators=(",", ":"), sort_keys=True)


FIELDS_OF_ROW = {
    "frames": ("frame", "node"),
    "placements": ("frame", "node", "slot", "channels", "base", "repetition"),
    "signals": ("frame", "signal", "start", "length", "order"),
}
FIELDS_OF_WISH = {"wishes": ("frame", "node", "channels", "repetition")}


def register_of(script):
    """A register of the script's cluster file, and the lines that it is asked."""
    lines = [line.removesuffix(b"\r") for line in script.split(b"\n")]
    must(b"---" in lines, "NoSeparator")
    end = lines.index(b"---")
    return Register(read_cluster(b"\n".join(lines[:end]))), list(filter(None, lines[end + 1:]))


def answers(script):
    """What a script is answered."""
    register, lines = register_of(script)
    return "".join(f"{register.told(line)}\n" for line in lines).encode()


def main():
    try:
        register, lines = register_of(sys.stdin.buffer.read())
    except Fault as fault:
        sys.exit(f"slotplan: {fault}")
    for line in lines:
        sys.stdout.write(register.told(line) + "\n")


if __name__ == "__main__":
    main()
