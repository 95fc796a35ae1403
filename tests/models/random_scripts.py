"""Scripts of many requests by chance, the same one for the same arguments.

python3 -m tests.models.random_scripts MIX [--lines N] [--suppliers S] [--seed X] [--cycles C] prints one.

MIX is one of
  plan      each command but add_supplier and set_key, as integrator and suppliers plan; few are refused
  refused   requests that are refused, for nearly each reason that there is, over a small plan
  queries   grants, frames, schedules, gaps, layouts, rows and what the register holds, of a small plan, for the integrator and for suppliers
  place     each request is a placement, on a variant that fills up
  imports   files of up to 20 rows, of placements or signals; some come again, some have a row that is refused
  joining   plan, refused and queries, while suppliers join until no more may
  revising  exports, loads, rooms, replacements, of which some are whole, and changed keys, between steps of the plan
  comparing rows and differences of variants, and tries of files, which often come themselves next; variants are released and opened between them
  proposing files of wishes, beside what is there and in place of it, between steps of the plan
  all       plan, refused, queries and imports, mixed line by line
"""
import argparse
import json
import random
import sys

SLOTS = 1023
VARIANTS = 64
NODES = 4
FRAMES = 256
SUPPLIERS = 64
DEPTH = 16
PAYLOAD_BITS = 16 * 16
HELD = ("cluster", "variants", "nodes")
QUERIES = ("grants", "frames", "schedule", "gaps", "layout", "rows")
EXPORTS = ("export_frames", "export_placements", "export_signals")


def cluster_file(suppliers, cycles=None):
    """That of the suppliers; without a count of cycles it has 64."""
    lines = [
        'channels = "AB"',
        f"static_slots = {SLOTS}",
        "slot_macroticks = 10",
        "dynamic_macroticks = 3000",
        "symbol_macroticks = 20",
        "idle_macroticks = 30",
        f"macroticks_per_cycle = {SLOTS * 10 + 3050}",
        "payload_words = 16",
        'integrator = "integrator1"',
        *([f"cycles = {cycles}"] if cycles else []),
        "",
        "[suppliers]",
    ]
    return lines + [f'{name} = "{key_of(name)}"' for name in suppliers] + ["---"]


def key_of(supplier):
    return f"keyfor{supplier}"


class Plan:
    """What was asked so far, so that most requests fit what stands. No answer is foreseen."""

    def __init__(self, suppliers, seed, cycles):
        self.suppliers = suppliers
        self.keys = {}  # of a supplier, its key, where it was changed
        self.cycles = cycles
        # A placement is in a quarter of all cycles at most, one that a row asks for in two or one.
        self.repetitions = [it for it in range(1, cycles + 1) if cycles % it == 0 and 4 * it >= cycles]
        self.dice = random.Random(seed)
        self.named = {}  # of a variant and a supplier, how many frames so far, those dropped too
        self.variants = []  # those that are open
        self.released = []
        self.depth = {}  # of each variant
        self.granted = {}  # of a variant, how many slots and channels
        self.held = {}  # of a variant, a supplier and a node, its slots and channels
        self.frames = {}  # of a variant and a supplier, its frames, each with its node
        self.placed = {}  # of a variant and a supplier, the placements that were asked for
        self.signals = {}  # of a variant and a supplier, the frames and signals that were asked for
        self.imports = {}  # of a supplier, the files that were sent
        self.nodes = []  # the lines by which a supplier that joined is given its nodes
        self.parents = {}  # of a variant that was opened from another, that one
        self.next = []  # lines that come next

    def line(self, actor, do, **fields):
        key = "integrator1" if actor is None else self.keys.get(actor) or key_of(actor)
        return f"{key} {json.dumps({'do': do, **fields}, separators=(',', ':'))}"

    def opening(self, variants, frames):
        """Variants, and in each of them a slot for each node and some frames for each supplier."""
        for _ in range(variants):
            yield self.open_variant()
        for supplier in self.suppliers:
            for n in range(NODES):
                yield self.line(None, "add_node", supplier=supplier, node=f"node{n}")
        for variant in self.variants:
            for supplier in self.suppliers:
                yield from (self.grant(variant, supplier, n) for n in range(NODES))
                yield from (self.add_frame(variant, supplier, n % NODES) for n in range(frames))

    def open_variant(self, parent=None, flat=False):
        """An empty variant, or one that has all that stands in its parent; or in one that is not its parent, where it is opened flat."""
        variant = f"v{len(self.depth)}"
        self.variants.append(variant)
        if parent:
            self.parents[variant] = parent
        self.depth[variant] = 1 if flat else 1 + self.depth.get(parent, 0)
        self.granted[variant] = self.granted.get(parent, 0)
        for rows in (self.held, self.frames, self.placed, self.signals):
            rows.update({(variant, *key[1:]): list(of) for key, of in rows.items() if key[0] == parent})
        self.named.update({(variant, key[1]): named for key, named in self.named.items() if key[0] == parent})
        fields = {"from": parent} if parent else {}
        if flat or self.dice.random() < 0.2:
            fields["flat"] = flat
        return self.line(None, "open_variant", variant=variant, **fields)

    def release(self):
        variant = self.variants.pop(self.dice.randrange(len(self.variants)))
        self.released.append(variant)
        return self.line(None, "release", variant=variant)

    def grant(self, variant, supplier, node):
        at = self.granted[variant]
        self.granted[variant] += 1
        slot, channel = at // 2 + 1, "AB"[at % 2]
        self.held.setdefault((variant, supplier, node), []).append((slot, channel))
        return self.line(None, "grant", variant=variant, slot=slot, channel=channel, supplier=supplier, node=f"node{node}")

    def add_frame(self, variant, supplier, node):
        frames = self.frames.setdefault((variant, supplier), [])
        named = self.named.get((variant, supplier), 0)
        self.named[variant, supplier] = named + 1
        frames.append((f"frame{named}", node))
        return self.line(supplier, "add_frame", variant=variant, frame=frames[-1][0], node=f"node{node}")

    def place(self, variant, supplier):
        frame, node = self.dice.choice(self.frames[variant, supplier])
        slot, channel = self.dice.choice(self.held[variant, supplier, node])
        repetition = self.dice.choice(self.repetitions)
        base = self.dice.randrange(repetition)
        fields = dict(frame=frame, slot=slot, channels=channel, base=base, repetition=repetition)
        self.placed.setdefault((variant, supplier), []).append(fields)
        return self.line(supplier, "place", variant=variant, **fields)

    def add_signal(self, variant, supplier):
        frame, _ = self.dice.choice(self.frames[variant, supplier])
        signal = f"signal{self.dice.randrange(1000)}"
        self.signals.setdefault((variant, supplier), []).append((frame, signal))
        length, order = self.dice.randint(1, 8), self.dice.choice(("little", "big"))
        start = self.dice.randrange(PAYLOAD_BITS)
        return self.line(supplier, "add_signal", variant=variant, frame=frame, signal=signal, start=start, length=length, order=order)

    def frame_row(self, variant, supplier):
        return f"frame{self.dice.randrange(FRAMES)},node{self.dice.randrange(NODES)}"

    def placement_row(self, variant, supplier):
        """A row for a frame that is there or new, in a slot of its node."""
        frame = f"frame{self.dice.randrange(FRAMES)}"
        node = dict(self.frames[variant, supplier]).get(frame, self.dice.randrange(NODES))
        slot, channel = self.dice.choice(self.held[variant, supplier, node])
        repetition = self.dice.choice((self.cycles // 2, self.cycles))
        return f"{frame},node{node},{slot},{channel},{self.dice.randrange(repetition)},{repetition}"

    def signal_row(self, variant, supplier):
        frame, _ = self.dice.choice(self.frames[variant, supplier])
        return f"{frame},signal{self.dice.randrange(1000)},{self.dice.randrange(PAYLOAD_BITS - 8)},{self.dice.randint(1, 4)},little"

    def an_import(self, variant, supplier):
        """A file under a label of its own; or one that was sent before, whole or with a row more."""
        before = self.imports.setdefault(supplier, [])
        if before and self.dice.random() < 0.2:
            fields = self.dice.choice(before)
            more = {"body": fields["body"] + "more\n"} if self.dice.random() < 0.2 else {}
            return self.line(supplier, "import", **{**fields, **more})
        header, row = self.dice.choice((
            ("frame,node", self.frame_row),
            ("frame,node,slot,channels,base,repetition", self.placement_row),
            ("frame,signal,start,length,order", self.signal_row),
        ))
        rows = [row(variant, supplier) for _ in range(self.dice.choice((0, 1, 1, 2, 2, 3, 20)))]
        fields = dict(variant=variant, label=f"label{len(before)}", body="".join(f"{line}\n" for line in [header, *rows]))
        before.append(fields)
        return self.line(supplier, "import", **fields)

    def a_replacement(self, variant, supplier):
        """A file of some frames, each with some rows; now and then with a row at its end that is none, or is another supplier's. Or a whole one."""
        if self.dice.random() < 0.4:
            return self.a_whole_replacement(variant, supplier)
        placements = "frame,node,slot,channels,base,repetition", self.revised_placement
        header, row = self.dice.choice((("frame,node", self.frame_row), placements, placements, ("frame,signal,start,length,order", self.revised_signal)))
        frames = self.dice.sample(self.frames[variant, supplier], min(len(self.frames[variant, supplier]), self.dice.choice((0, 1, 1, 2, 3))))
        rows = [row(variant, supplier, *frame) if row != self.frame_row else row(variant, supplier) for frame in frames for _ in range(self.dice.choice((1, 1, 2, 3)))]
        rows += self.dice.choice(([], [], [], [], ["frame0"], ["nothing,nothing"], [f"{'nothing,' * header.count(',')}0"]))
        return self.line(supplier, "replace", variant=variant, body="".join(f"{line}\n" for line in [header, *rows]))

    def a_whole_replacement(self, variant, supplier):
        """A file that is sent whole: of all frames but some, of which one may be new or another node's; of placements or signals of some frames; or none of
        these. Now and then a row is none."""
        frames = self.frames[variant, supplier]
        header, rows = self.dice.choice((
            lambda: ("frame,node", self.whole_frames(variant, supplier)),
            lambda: ("frame,node,slot,channels,base,repetition", self.whole_placements(variant, supplier)),
            lambda: ("frame,signal,start,length,order", [self.revised_signal(variant, supplier, *it) for it in frames if self.dice.random() < 0.5]),
            lambda: (self.dice.choice(("frame,node", "frame,node,slot,channels,base,repetition", "frame,signal,start,length,order", "frame", "")), []),
        ))()
        if self.dice.random() < 0.15:
            rows.insert(self.dice.randrange(len(rows) + 1), self.dice.choice(("frame0", "nothing,nothing", f"{'nothing,' * header.count(',')}0")))
        return self.line(supplier, "replace", variant=variant, body="".join(f"{line}\n" for line in [header, *rows]), whole=True)

    def whole_frames(self, variant, supplier):
        """Each frame with its node, but one that goes, one that moves to another node, and one that comes, where there are such."""
        frames = self.frames[variant, supplier]
        if self.dice.random() < 0.4:
            frames.pop(self.dice.randrange(len(frames)))
        if frames and self.dice.random() < 0.2:
            frame, _ = frames.pop()
            frames.append((frame, self.dice.randrange(NODES)))
        if not frames or self.dice.random() < 0.3:
            named = self.named.get((variant, supplier), 0)
            self.named[variant, supplier] = named + 1
            frames.append((f"frame{named}", self.dice.randrange(NODES)))
        rows = [f"{frame},node{node}" for frame, node in frames]
        self.dice.shuffle(rows)
        return rows

    def whole_placements(self, variant, supplier):
        """Of some frames; they are then those that were asked for."""
        frames = [it for it in self.frames[variant, supplier] if self.dice.random() < 0.6]
        rows = [self.revised_placement(variant, supplier, *frame) for frame in frames for _ in range(self.dice.choice((1, 1, 2)))]
        of_rows = (dict(zip(("frame", "slot", "channels", "base", "repetition"), (frame, int(slot), channels, int(base), int(repetition))))
                   for frame, _, slot, channels, base, repetition in (row.split(",") for row in rows))
        self.placed[variant, supplier] = list(of_rows)
        return rows

    def revised_placement(self, variant, supplier, frame, node):
        """In a slot of the frame's node, or now and then of another one."""
        node = node if self.dice.random() < 0.97 else self.dice.randrange(NODES)
        slot, channel = self.dice.choice(self.held[variant, supplier, node])
        repetition = self.dice.choice((*self.repetitions, self.cycles, self.cycles))
        return f"{frame},node{node},{slot},{channel},{self.dice.randrange(repetition)},{repetition}"

    def revised_signal(self, variant, supplier, frame, _):
        return f"{frame},signal{self.dice.randrange(1000)},{self.dice.randrange(PAYLOAD_BITS - 8)},{self.dice.randint(1, 8)},{self.dice.choice(('little', 'big'))}"

    def own_placements(self, variant, supplier):
        """A file that is tried as a replacement: placements that were asked for, and among them a row that is none, behind which nothing is freed."""
        nodes, placed = dict(self.frames[variant, supplier]), self.placed[variant, supplier]
        rows = [it for it in self.dice.sample(placed, min(len(placed), 5)) if it["frame"] in nodes]
        lines = [f"{it['frame']},node{nodes[it['frame']]},{it['slot']},{it['channels']},{it['base']},{it['repetition']}" for it in rows]
        lines.insert(self.dice.randrange(len(lines) + 1), "none")
        given = {"whole": self.dice.random() < 0.7} if self.dice.random() < 0.5 else {}
        return self.line(supplier, "try", variant=variant, replace=True, **given, body="\n".join(["frame,node,slot,channels,base,repetition", *lines]))

    def some_file(self, variant, supplier):
        """A file that is tried as an import or as a replacement; often it comes itself next, sometimes with some lines changed."""
        if self.placed.get((variant, supplier)) and self.dice.random() < 0.1:
            return self.own_placements(variant, supplier)
        replaces = self.dice.random() < 0.5
        line = self.a_replacement(variant, supplier) if replaces else self.an_import(variant, supplier)
        fields = json.loads(line.partition(" ")[2])
        if fields["variant"] == variant and self.dice.random() < 0.7:
            self.next.append(line)
        header, *rows = fields["body"].split("\n")
        if self.dice.random() < 0.4:
            more = self.dice.choice(("", "frame0", "nothing,nothing", "0" * 11, header, *rows))
            rows.insert(self.dice.randrange(len(rows)), more)
        given = {"replace": replaces} if replaces or self.dice.random() < 0.5 else {}
        if "whole" in fields or self.dice.random() < 0.1:
            given["whole"] = fields.get("whole", False) if self.dice.random() < 0.95 else True
        return self.line(supplier, "try", variant=variant, **given, body="\n".join([header, *rows]))

    def some_rows(self):
        """Of a variant; now and then of one that is not there."""
        variant = self.dice.choice(list(self.depth)) if self.dice.random() < 0.95 else self.dice.choice(("nowhere", "1v", ""))
        return self.line(self.dice.choice((None, *self.suppliers)), "rows", variant=variant)

    def a_difference(self):
        """Of two variants, of which one was often opened from the other; now and then of one that is not there."""
        new = self.dice.choice((*self.variants, *self.depth))
        old = self.parents.get(new) if self.dice.random() < 0.6 else None
        both = [new, old or self.dice.choice(list(self.depth))]
        if self.dice.random() < 0.05:
            both[self.dice.randrange(2)] = self.dice.choice(("nowhere", "1v", ""))
        self.dice.shuffle(both)
        return self.line(self.dice.choice((None, *self.suppliers)), "diff", **dict(zip(("variant", "from"), both)))

    def comparing(self):
        """Rows, a difference, a try, or the file that was tried; else a variant is released and another one opened from it, or a step of the plan."""
        if self.next:
            return self.next.pop(0)
        kind, variant, supplier = self.dice.random(), self.dice.choice(self.variants), self.dice.choice(self.suppliers)
        if kind < 0.02 and len(self.depth) < VARIANTS:
            self.variants.remove(variant)
            self.released.append(variant)
            self.next.append(self.open_variant(variant, self.depth[variant] == DEPTH or self.dice.random() < 0.25))
            return self.line(None, "release", variant=variant)
        if kind < 0.05:
            return self.some_rows()
        if kind < 0.22:
            return self.a_difference()
        if kind < 0.62 and self.frames.get((variant, supplier)) and all(self.held.get((variant, supplier, node)) for node in range(NODES)):
            return self.some_file(variant, supplier)
        return self.plan()

    def wish_row(self, variant, supplier):
        """A wish of a frame that is there or new; now and then one that is refused."""
        frame = f"frame{self.dice.randrange(FRAMES)}"
        node = dict(self.frames[variant, supplier]).get(frame, self.dice.randrange(NODES))
        if self.dice.random() < 0.05:
            node = self.dice.choice((node + 1, "x"))
        repetition = self.dice.choice((*self.repetitions, self.cycles, self.cycles, 1, 2, 3))
        return f"{frame},node{node},{self.dice.choice(('A', 'B', 'AB', 'A', 'B'))},{repetition}"

    def own_wish_row(self, variant, supplier):
        """A wish of a frame that has such a placement."""
        it = self.dice.choice(self.placed[variant, supplier])
        node = dict(self.frames[variant, supplier]).get(it["frame"], 0)
        return f"{it['frame']},node{node},{it['channels']},{it['repetition']}"

    def wishes(self):
        """A file of wishes; half of them stand in place of what their frames have. Now and then a row is none. Else a step of the plan."""
        variant, supplier = self.dice.choice(self.variants), self.dice.choice(self.suppliers)
        if not self.frames.get((variant, supplier)) or self.dice.random() < 0.5:
            return self.plan()
        kinds = [self.wish_row, self.own_wish_row] if self.placed.get((variant, supplier)) else [self.wish_row]
        rows = [self.dice.choice(kinds)(variant, supplier) for _ in range(self.dice.choice((0, 1, 2, 5, 10, 30)))]
        if self.dice.random() < 0.2:
            rows.insert(self.dice.randrange(len(rows) + 1), self.dice.choice(("frame0", "nothing,nothing,A,2", "frame0,node0,C,2", "frame0,node0,A,0")))
        given = {"replace": self.dice.random() < 0.7} if self.dice.random() < 0.7 else {}
        return self.line(supplier, "propose", variant=variant, **given, body="".join(f"{line}\n" for line in ["frame,node,channels,repetition", *rows]))

    def changed_key(self):
        """A key that nobody has, or one that is refused."""
        supplier, number = self.dice.choice(self.suppliers), self.dice.randrange(1_000_000)
        if self.dice.random() < 0.5:
            self.keys[supplier] = f"newkey{number:06}of{supplier}"
            return self.line(None, "set_key", supplier=supplier, key=self.keys[supplier])
        there = self.dice.choice(self.suppliers)
        changes = ({"key": self.keys.get(there) or key_of(there)}, {"key": "integrator1"}, {"key": "short"}, {"supplier": "1s"}, {"supplier": "nobody"})
        return self.line(None, "set_key", **{"supplier": supplier, "key": f"newkey{number:06}", **self.dice.choice(changes)})

    def revising(self):
        """An export, a load, a room, a replacement or another key; else a step of the plan, or a report."""
        kind, variant, supplier = self.dice.random(), self.dice.choice(self.variants), self.dice.choice(self.suppliers)
        actor = self.dice.choice((None, supplier, supplier))
        if kind < 0.2:
            return self.line(actor, self.dice.choice(EXPORTS), variant=self.dice.choice((variant, *self.released[-1:])), part=self.dice.choice((0, 0, 0, 0, 1, 7)))
        if kind < 0.22:
            return self.line(actor, "load", variant=variant)
        if kind < 0.25:
            return self.changed_key()
        frames = self.frames.get((variant, supplier))
        if kind < 0.35 and frames:
            frame, _ = self.dice.choice((*frames, ("nothing", 0)))
            repetition = self.dice.choice((*self.repetitions, 1, 2, 3, self.cycles))
            return self.line(supplier if self.dice.random() < 0.95 else None, "room", variant=variant, frame=frame, repetition=repetition)
        if kind < 0.65 and frames and all(self.held.get((variant, supplier, node)) for node in range(NODES)):
            return self.a_replacement(variant, supplier)
        return self.query() if kind < 0.7 else self.plan()

    def taken(self, rows, key):
        """One of these rows, which then is among them no more; None where there is none."""
        of = rows.get(key)
        return of.pop(self.dice.randrange(len(of))) if of else None

    def end(self, variant, supplier):
        """Takes back a placement, a signal, a frame or a grant; asks to see the grants where there is none."""
        kind, node = self.dice.random(), self.dice.randrange(NODES)
        if kind < 0.5 and (placement := self.taken(self.placed, (variant, supplier))):
            return self.line(supplier, "unplace", variant=variant, **placement)
        if kind < 0.9 and (signal := self.taken(self.signals, (variant, supplier))):
            return self.line(supplier, "drop_signal", variant=variant, frame=signal[0], signal=signal[1])
        if kind < 0.95 and (frame := self.taken(self.frames, (variant, supplier))):
            return self.line(supplier, "drop_frame", variant=variant, frame=frame[0])
        if len(self.held.get((variant, supplier, node), ())) > 1:
            slot, channel = self.held[variant, supplier, node].pop()
            return self.line(None, "revoke", variant=variant, slot=slot, channel=channel, supplier=supplier)
        return self.line(supplier, "grants", variant=variant)

    def plan(self):
        kind = self.dice.random()
        variant, supplier, node = self.dice.choice(self.variants), self.dice.choice(self.suppliers), self.dice.randrange(NODES)
        frames = self.frames.get((variant, supplier), ())
        if kind < 0.005 and len(self.variants) > 2:
            return self.release()
        if kind < 0.015 and len(self.depth) < VARIANTS:
            parent = self.dice.choice([None, *self.released[-1:]])
            return self.open_variant(parent, bool(parent) and (self.depth[parent] == DEPTH or self.dice.random() < 0.3))
        if (variant, supplier, node) not in self.held or (kind < 0.1 and self.granted[variant] < 2 * SLOTS):
            return self.grant(variant, supplier, node)
        if not frames or (kind < 0.3 and len(frames) < FRAMES):
            return self.add_frame(variant, supplier, node)
        if kind < 0.5:
            return self.add_signal(variant, supplier)
        if kind < 0.6:
            return self.end(variant, supplier)
        return self.place(variant, supplier)

    def some_import(self):
        """Into an open variant in which the supplier has frames, and each node a slot; else a step of the plan."""
        variant, supplier = self.dice.choice(self.variants), self.dice.choice(self.suppliers)
        ready = self.frames.get((variant, supplier)) and all(self.held.get((variant, supplier, node)) for node in range(NODES))
        return self.an_import(variant, supplier) if ready else self.plan()

    def joining(self):
        """A supplier joins, and has its nodes next; or one is refused, or asks before it joined; else a step of the plan."""
        if self.nodes:
            return self.nodes.pop()
        kind, there, new = self.dice.random(), self.dice.choice(self.suppliers), f"s{len(self.suppliers)}"
        if kind < 0.25:
            return self.join(new)
        if kind < 0.35:
            return self.line(new, "grants", variant=self.variants[0])
        if kind < 0.55:
            joins = dict(supplier=new, key=key_of(new))
            changes = ({"key": key_of(there)}, {"key": "integrator1"}, {"key": "short"}, {"supplier": "1s"}, {"supplier": there})
            return self.line(None, "add_supplier", **{**joins, **self.dice.choice(changes)})
        return self.plan()

    def join(self, supplier):
        """Where no more may join the request is refused, and the supplier is none of those that plan."""
        if len(self.suppliers) < SUPPLIERS:
            self.suppliers.append(supplier)
            self.nodes = [self.line(None, "add_node", supplier=supplier, node=f"node{n}") for n in range(NODES)]
        return self.line(None, "add_supplier", supplier=supplier, key=key_of(supplier))

    def refused(self):
        supplier, variant = self.dice.choice(self.suppliers), self.variants[0]
        place = dict(variant=variant, frame="frame0", slot=1, channels="A", base=0, repetition=self.cycles)
        grant = dict(variant=variant, slot=1, channel="A", supplier=supplier, node="node0")
        signal = dict(variant=variant, frame="frame0", signal="signal0", start=PAYLOAD_BITS, length=1, order="little")
        return self.dice.choice((
            lambda: "line",
            lambda: key_of(supplier) + ' {"do":"place"',
            lambda: self.line(supplier, "place", **{**place, "slot": 1.0}),
            lambda: self.line(supplier, "place", **place, more=1),
            lambda: self.line(supplier, "nothing", variant=variant),
            lambda: self.line(supplier, "nodes", variant=variant),
            lambda: 'nobody12 {"do":"schedule","variant":"v0"}',
            lambda: self.line(supplier, "open_variant", variant="other"),
            lambda: self.line(None, "place", **place),
            lambda: self.line(supplier, "place", **{**place, "variant": "1v"}),
            lambda: self.line(supplier, "place", **{**place, "base": self.cycles}),
            lambda: self.line(supplier, "place", **{**place, "slot": SLOTS + 1}),
            lambda: self.line(supplier, "place", **{**place, "channels": "BA"}),
            lambda: self.line(supplier, "place", **{**place, "variant": "nowhere"}),
            lambda: self.line(supplier, "place", **{**place, "frame": "nothing"}),
            lambda: self.line(supplier, "place", **{**place, "slot": SLOTS}),
            lambda: self.line(supplier, "add_frame", variant=variant, frame="frame0", node="node0"),
            lambda: self.line(supplier, "add_frame", variant=variant, frame="other", node="nothing"),
            lambda: self.line(None, "open_variant", variant=variant),
            lambda: self.line(None, "add_node", supplier="nobody", node="node0"),
            lambda: self.line(None, "add_node", supplier=supplier, node="node0"),
            lambda: self.line(None, "grant", **{**grant, "node": "node3"}),
            lambda: self.line(None, "open_variant", **{"variant": "other", "from": variant}),
            lambda: self.line(None, "open_variant", **{"variant": "other", "from": variant}, flat=True),
            lambda: self.line(None, "open_variant", variant="other", flat=True),
            lambda: self.line(None, "open_variant", variant="other", flat=0),
            lambda: self.line(None, "revoke", variant=variant, slot=SLOTS, channel="B", supplier=supplier),
            lambda: self.line(supplier, "unplace", **{**place, "base": self.cycles - 1}),
            lambda: self.line(supplier, "drop_frame", variant=variant, frame="nothing"),
            lambda: self.line(supplier, "add_signal", **signal),
            lambda: self.line(supplier, "add_signal", **{**signal, "length": 65}),
            lambda: self.line(supplier, "add_signal", **{**signal, "order": "middle"}),
            lambda: self.line(supplier, "drop_signal", variant=variant, frame="frame0", signal="nothing"),
            lambda: self.line(supplier, "layout", variant=variant, frame="nothing"),
        ))()

    def query(self):
        """A report of the first variant; now and then what the register holds."""
        actor, query = self.dice.choice([None, *self.suppliers]), self.dice.choice(QUERIES)
        if self.dice.random() < 0.1:
            return self.line(actor, self.dice.choice(HELD))
        fields = {"frame": "frame0"} if query == "layout" else {}
        return self.line(actor, query, variant=self.variants[0], **fields)


def lines_of(mix, lines, suppliers, seed, cycles=None):
    names = [f"s{n}" for n in range(suppliers)]
    plan = Plan(list(names), seed, cycles or 64)
    variants, frames = {"plan": (4, 4), "place": (1, 60), "joining": (4, 4), "revising": (3, 4), "comparing": (3, 4), "proposing": (2, 4), "all": (4, 4)}.get(mix, (1, 4))
    opening = list(plan.opening(variants, frames))
    if mix == "queries":
        opening += [asked("v0", name) for name in names for asked in (plan.place, plan.add_signal)]
    kinds = {
        "plan": [plan.plan],
        "refused": [plan.refused],
        "queries": [plan.query],
        "place": [lambda: plan.place("v0", plan.dice.choice(names))],
        "imports": [lambda: plan.an_import("v0", plan.dice.choice(names))],
        "joining": [plan.joining, plan.joining, plan.plan, plan.refused, plan.query],
        "revising": [plan.revising],
        "comparing": [plan.comparing],
        "proposing": [plan.wishes],
        "all": [plan.plan, plan.plan, plan.plan, plan.refused, plan.query, plan.some_import],
    }[mix]
    more = (plan.dice.choice(kinds)() for _ in range(max(0, lines - len(opening))))
    return cluster_file(names, cycles) + opening[:lines] + list(more)


def random_script(mix, lines, suppliers=8, seed=1, cycles=None):
    """A script of so many lines."""
    return ("\n".join(lines_of(mix, lines, suppliers, seed, cycles)) + "\n").encode()


def main():
    words = argparse.ArgumentParser(description=__doc__, formatter_class=argparse.RawDescriptionHelpFormatter)
    words.add_argument("mix", choices=("plan", "refused", "queries", "place", "imports", "joining", "revising", "comparing", "proposing", "all"))
    words.add_argument("--lines", type=int, default=10_000)
    words.add_argument("--suppliers", type=int, default=8, choices=range(1, 65), metavar="1..64")
    words.add_argument("--seed", type=int, default=1)
    words.add_argument("--cycles", type=int, choices=range(8, 65, 2), metavar="8..64")
    given = words.parse_args()
    sys.stdout.buffer.write(random_script(given.mix, given.lines, given.suppliers, given.seed, given.cycles))


if __name__ == "__main__":
    main()
