"""Scripts that are made by rule, each a cluster file and pairs of a request and its answer.

The rules are those of docs/FORMATS.md, written once more here; no answer is the program's own."""
import json
import re

CYCLES = 64
SLOTS = 1023
NODES = 64
FRAMES = 256
SUPPLIERS = 64
PLACEMENTS = 8
SIGNALS = 64
VARIANTS = 64
DEPTH = 16
IMPORTS = 1000
IMPORT_ROWS = 512
IMPORT_BYTES = 65_536

CLUSTER = {
    "channels": '"AB"',
    "static_slots": "4",
    "slot_macroticks": "10",
    "dynamic_macroticks": "40",
    "symbol_macroticks": "10",
    "idle_macroticks": "10",
    "macroticks_per_cycle": "100",
    "payload_words": "1",
    "integrator": '"integrator1"',
    "suppliers": '{s1 = "supplier01", s2 = "supplier02"}',
}

NUMBERS = ("static_slots", "slot_macroticks", "dynamic_macroticks", "symbol_macroticks", "idle_macroticks", "macroticks_per_cycle", "payload_words")

LARGE = {
    **CLUSTER,
    "static_slots": str(SLOTS),
    "slot_macroticks": "1",
    "dynamic_macroticks": "0",
    "symbol_macroticks": "0",
    "idle_macroticks": "1",
    "macroticks_per_cycle": str(SLOTS + 1),
    "payload_words": "127",
}

DONE = '{"ok":"done"}'


def cluster_file(keys):
    return "".join(f"{key} = {value}\n" for key, value in keys.items() if value is not None)


def suppliers(count):
    """A table of so many suppliers, each with a key of its own."""
    return "{" + ", ".join(f's{n} = "supplier{n:02}"' for n in range(1, count + 1)) + "}"


def suppliers_of(cluster):
    """The suppliers' names with their keys."""
    return re.findall(r'(\w+) = "(\w+)"', cluster["suppliers"])


def cluster_numbers(cluster):
    """Those that each schema keeps, in the order of their columns."""
    return [int(cluster[key]) for key in NUMBERS]


def figures(cluster):
    """Each of a cluster file's figures with its key; where the file does not have it there are 64 cycles."""
    figures = {"channels": cluster["channels"].strip('"'), **{key: cluster[key] for key in NUMBERS}, "cycles": cluster.get("cycles", str(CYCLES))}
    return [f"{key} {value}" for key, value in figures.items()]


def script(cluster, pairs):
    return (cluster_file(cluster) + "---\n" + "".join(f"{asked}\n" for asked, _ in pairs)).encode()


def answers(pairs):
    return "".join(f"{answer}\n" for _, answer in pairs).encode()


def request(who, do, **fields):
    return f"{who} {json.dumps({'do': do, **fields}, separators=(',', ':'))}"


def refused(number, name):
    return f'{{"no":{number},"refused":"{name}"}}'


def refused_row(line, number, name):
    return f'{{"line":{line},"no":29,"refused":"BadRow","row":{refused(number, name)}}}'


def imported(rows):
    return f'{{"ok":"imported","rows":{rows}}}'


def replaced(rows):
    return f'{{"ok":"replaced","rows":{rows}}}'


def done(who, do, **fields):
    return request(who, do, **fields), DONE


def limit(who, do, **fields):
    return request(who, do, **fields), refused(23, "Limit")


def told(who, do, lines, **fields):
    """A query, and the lines that answer it."""
    return request(who, do, **fields), json.dumps({"lines": lines, "ok": do}, separators=(",", ":"))


# What the supplier s1 has at the limits: each slot on both channels, by turns of its nodes; frames that fill the first half of
# the slots, four to a slot, each in every fourth cycle; and two frames full of signals, in the one order and in the other.
NODE = [f"n{n:02}" for n in range(NODES)]
GRANT = [(slot, channel, NODE[slot % NODES]) for slot in range(1, SLOTS + 1) for channel in "AB"]
FRAME = [f"f{n:03}" for n in range(FRAMES)]
LITTLE = [(f"l{n:02}", 31 * n, 64 if n == SIGNALS - 1 else 31) for n in range(SIGNALS)]
BIG = [(f"b{n:02}", 7 + 24 * n, 24) for n in range(SIGNALS)]
SIGNAL = [(FRAME[0], "little", LITTLE), (FRAME[1], "big", BIG)]


def node_of(frame):
    return NODE[frame % NODES]


def slots_of(frame):
    """Those of the frame's placements, which are among its node's."""
    return [(frame % NODES or NODES) + NODES * n for n in range(PLACEMENTS)]


def base_of(frame):
    """That of all the frame's placements."""
    return frame // NODES


def placements_of(frame):
    return [dict(frame=FRAME[frame], slot=slot, channels="AB", base=base_of(frame), repetition=4) for slot in slots_of(frame)]


def sent(frame):
    """The cycles and slots in which the frame is sent, on both channels."""
    return [(cycle, slot) for cycle in range(base_of(frame), CYCLES, 4) for slot in slots_of(frame)]


def schedule():
    cells = sorted((cycle, slot, channel, frame) for frame in range(FRAMES) for cycle, slot in sent(frame) for channel in "AB")
    return [f"{cycle:02} {slot:04} {channel} {FRAME[frame]} {node_of(frame)}" for cycle, slot, channel, frame in cells]


def frames():
    for frame, name in enumerate(FRAME):
        yield f"FRAME {name} {node_of(frame)}"
        yield from (f"AT {slot:04} AB {base_of(frame):02} 04" for slot in slots_of(frame))


def gaps():
    cycle_length = SLOTS + 1
    for frame, name in enumerate(FRAME):
        moments = sorted(cycle * cycle_length + slot - 1 for cycle, slot in sent(frame))
        nexts = moments[1:] + [moments[0] + CYCLES * cycle_length]
        yield f"GAP {max(after - moment for moment, after in zip(moments, nexts)):7} {name}"


def load():
    """The first half of the slots is full."""
    return [f"{slot:04} {channel} {CYCLES if slot <= SLOTS // 2 + 1 else 0:02} {CYCLES} {node}" for slot, channel, node in GRANT]


def room(frame):
    """Where a frame can be sent once in all cycles that lacks the last of its placements: in that slot, and in its node's in the other half."""
    last = slots_of(frame)[-1]
    for slot in range(last, SLOTS + 1, NODES):
        bases = range(base_of(frame), CYCLES, 4) if slot == last else range(CYCLES)
        yield from (" ".join([f"{slot:04} {channels} {CYCLES}", *(f"{base:02}" for base in bases)]) for channels in ("A", "AB", "B"))


def placement_rows():
    for frame in range(FRAMES):
        yield from (f"{FRAME[frame]},{node_of(frame)},{slot},AB,{base_of(frame)},4" for slot in slots_of(frame))


def exported(key, variant, behind):
    """Each part of the placements has as many as may be, of 64 frames; and the one behind them."""
    end = behind.replace(" ", ",")
    rows = [f"{row}{end}" for row in placement_rows()]
    for part in range(len(rows) // IMPORT_ROWS + 1):
        header = PLACEMENTS_FILE.strip() + (",supplier" if end else "")
        yield told(key, "export_placements", [header, *rows[IMPORT_ROWS * part :][:IMPORT_ROWS]], variant=variant, part=part)


def sent_whole(key, variant):
    """All frames of s1, and in place of all placements as many as a file may have; then the others come back, part by part. One more is refused."""
    parts = [list(placement_rows())[part : part + IMPORT_ROWS] for part in range(0, FRAMES * PLACEMENTS, IMPORT_ROWS)]
    bodies = [PLACEMENTS_FILE + "".join(f"{row}\n" for row in rows) for rows in parts]
    names = "frame,node\n" + "".join(f"{name},{node_of(frame)}\n" for frame, name in enumerate(FRAME))
    yield request(key, "replace", variant=variant, body=names, whole=True), replaced(FRAMES)
    yield request(key, "replace", variant=variant, body=bodies[1] + f"{parts[0][0]}\n", whole=True), refused_row(IMPORT_ROWS + 2, 23, "Limit")
    yield told(key, "try", [f"{line:04} 00 done" for line in range(2, IMPORT_ROWS + 2)], variant=variant, body=bodies[1], replace=True, whole=True)
    yield request(key, "replace", variant=variant, body=bodies[1], whole=True), replaced(IMPORT_ROWS)
    yield told(key, "export_placements", [PLACEMENTS_FILE.strip(), *parts[1]], variant=variant, part=0)
    yield request(key, "replace", variant=variant, body=names, whole=True), replaced(FRAMES)
    for body in bodies:
        yield request(key, "replace", variant=variant, body=body), replaced(IMPORT_ROWS)


def differences(sign, behind):
    """All that s1 has at the limits, as rows that one variant has and another has not."""
    yield from (f"{sign} GRANT {slot:04} {channel} {node}{behind}" for slot, channel, node in GRANT)
    yield from (f"{sign} FRAME {name} {node_of(frame)}{behind}" for frame, name in enumerate(FRAME))
    for frame, name in enumerate(FRAME):
        yield from (f"{sign} AT {name} {slot:04} AB {base_of(frame):02} 04{behind}" for slot in slots_of(frame))
    for name, order, signals in SIGNAL:
        yield from (f"{sign} SIGNAL {name} {start:04} {length:02} {order} {signal}{behind}" for signal, start, length in signals)
    yield from (f"{sign} {gap}{behind}" for gap in gaps())


def queries(key, variant, behind):
    """Each query of a variant in which s1 is at the limits; `behind` follows each line but the placements of a frame."""
    grants = (f"{slot:04} {channel} {node}" for slot, channel, node in GRANT)
    reports = [("grants", {}, grants), ("frames", {}, frames()), ("schedule", {}, schedule()), ("gaps", {}, gaps()), ("load", {}, load())]
    for frame, order, signals in SIGNAL:
        rows = [f"{start:04} {length:02} {order} {signal}" for signal, start, length in signals]
        reports.append(("layout", dict(frame=frame), rows))
    for name, fields, rows in reports:
        yield told(key, name, [row if row.startswith("AT") else row + behind for row in rows], variant=variant, **fields)
    yield told(key, "rows", [row.strip() for row in differences("", behind)], variant=variant)
    yield from exported(key, variant, behind)


def at_the_limits():
    """A supplier gets all that it may have, and one more of each, in a variant and in those opened one from another."""
    integrator, key, in_v1 = "integrator1", "supplier01", dict(variant="v1")

    yield done(integrator, "open_variant", **in_v1)
    for node in NODE:
        yield done(integrator, "add_node", supplier="s1", node=node)
    yield limit(integrator, "add_node", supplier="s1", node="more")
    yield done(integrator, "add_node", supplier="s2", node="more")
    yield told(key, "nodes", NODE)
    yield told(integrator, "nodes", [*(f"{node} s1" for node in NODE), "more s2"])
    yield limit(integrator, "add_supplier", supplier="more", key="suppliermore")
    for slot, channel, node in GRANT:
        yield done(integrator, "grant", **in_v1, slot=slot, channel=channel, supplier="s1", node=node)
    more = dict(**in_v1, supplier="s2", node="more")
    yield request(integrator, "grant", **more, slot=SLOTS, channel="B"), refused(24, "Taken")
    yield request(integrator, "grant", **more, slot=SLOTS + 1, channel="A"), refused(6, "BadSlot")

    for frame, name in enumerate(FRAME):
        yield done(key, "add_frame", **in_v1, frame=name, node=node_of(frame))
        for placement in placements_of(frame):
            yield done(key, "place", **in_v1, **placement)
    yield limit(key, "add_frame", **in_v1, frame="more", node=NODE[0])
    ninth = dict(**in_v1, frame=FRAME[0], channels="A", base=0, repetition=64)
    yield limit(key, "place", **ninth, slot=NODES * (PLACEMENTS + 1))
    yield request(key, "place", **ninth, slot=1), refused(21, "NotGranted")
    yield limit(key, "room", **in_v1, frame=FRAME[0], repetition=CYCLES)

    for frame, order, signals in SIGNAL:
        for signal, start, length in signals:
            yield done(key, "add_signal", **in_v1, frame=frame, signal=signal, start=start, length=length, order=order)
        yield limit(key, "add_signal", **in_v1, frame=frame, signal="more", start=0, length=1, order=order)
    last = dict(**in_v1, frame=FRAME[2], signal="last", length=1, order="little")
    yield request(key, "add_signal", **last, start=2032), refused(26, "OutOfPayload")
    yield done(key, "add_signal", **last, start=2031)
    yield done(key, "drop_signal", **in_v1, frame=FRAME[2], signal="last")

    yield from queries(key, "v1", "")
    yield from queries(integrator, "v1", " s1")

    for depth in range(1, DEPTH):
        yield done(integrator, "release", variant=f"v{depth}")
        yield done(integrator, "open_variant", variant=f"v{depth + 1}", **{"from": f"v{depth}"})
    deepest = f"v{DEPTH}"
    yield from queries(key, deepest, "")
    again = dict(variant=deepest, **placements_of(FRAMES - 1)[-1])
    yield done(key, "unplace", **again)
    yield told(key, "room", list(room(FRAMES - 1)), variant=deepest, frame=FRAME[-1], repetition=CYCLES)
    yield done(key, "place", **again)
    for part in range(FRAMES * PLACEMENTS // IMPORT_ROWS):
        body = PLACEMENTS_FILE + "".join(f"{row}\n" for row in list(placement_rows())[IMPORT_ROWS * part :][:IMPORT_ROWS])
        for replaces, fate in (False, "23 Limit"), (True, "00 done"):
            yield told(key, "try", [f"{line:04} {fate}" for line in range(2, IMPORT_ROWS + 2)], variant=deepest, body=body, replace=replaces)
        yield request(key, "replace", variant=deepest, body=body), replaced(IMPORT_ROWS)
    yield from exported(key, deepest, "")
    yield from sent_whole(key, deepest)
    yield from exported(key, deepest, "")
    for who in key, integrator:
        yield told(who, "diff", [], variant=deepest, **{"from": "v1"})
    yield done(integrator, "release", variant=deepest)
    yield request(integrator, "open_variant", variant="more", **{"from": deepest}), refused(13, "TooDeep")
    for n in range(DEPTH + 1, VARIANTS):
        yield done(integrator, "open_variant", variant=f"v{n}")
    yield done(integrator, "open_variant", variant=f"v{VARIANTS}", **{"from": deepest}, flat=True)
    yield limit(integrator, "open_variant", variant="more")
    yield limit(integrator, "open_variant", variant="more", **{"from": "v1"})
    yield limit(integrator, "open_variant", variant="more", **{"from": "v1"}, flat=True)
    yield from queries(key, f"v{VARIANTS}", "")
    yield told(integrator, "diff", [], variant=f"v{VARIANTS}", **{"from": deepest})
    for who, behind in (key, ""), (integrator, " s1"):
        yield told(who, "diff", list(differences("+", behind)), variant=deepest, **{"from": f"v{DEPTH + 1}"})
        yield told(who, "diff", list(differences("-", behind)), variant=f"v{DEPTH + 1}", **{"from": deepest})
    yield told(key, "variants", sorted(map(variant_line, range(1, VARIANTS + 1))))


def variant_line(n):
    """What is told of the variant `vN`: the first ones are opened one from another and released, the others empty or flat."""
    if n > DEPTH:
        return f"v{n} - 1 open"
    return f"v{n} {f'v{n - 1}' if n > 1 else '-'} {n} released"


def with_a_stranger(first):
    """The first script with another supplier's node, grant and 257 frames between its lines, whose answers stay."""
    of_s2 = dict(variant="v1", node="n2")
    stranger = [
        done("integrator1", "add_node", supplier="s2", node="n2"),
        done("integrator1", "grant", **of_s2, slot=1, channel="B", supplier="s2"),
        *(done("supplier02", "add_frame", **of_s2, frame=f"f{n}") for n in range(1, FRAMES + 1)),
        limit("supplier02", "add_frame", **of_s2, frame="f257"),
    ]
    return [*first[:1], *stranger[:1], *first[1:3], *stranger[1:100], *first[3:5], *stranger[100:], *first[5:]]


def suppliers_that_join():
    """As many suppliers join as there may be, and one more, which is refused; the first and the last of them plan."""
    integrator, in_v1 = "integrator1", dict(variant="v1")
    more = dict(supplier="more", key="suppliermore")

    yield done(integrator, "open_variant", **in_v1)
    for n in range(SUPPLIERS, 0, -1):
        yield done(integrator, "add_supplier", supplier=f"s{n}", key=f"supplier{n:02}")
    yield limit(integrator, "add_supplier", **more)
    yield request(integrator, "add_supplier", **{**more, "key": "supplier07"}), refused(31, "KeyTaken")
    yield request(integrator, "add_supplier", **{**more, "supplier": "s7"}), refused(19, "Exists")
    yield request(integrator, "add_supplier", **{**more, "key": "short"}), refused(30, "BadKey")
    yield request("suppliermore", "frames", **in_v1), refused(2, "UnknownKey")
    yield done(integrator, "set_key", supplier="s7", key="suppliermore")
    yield request("supplier07", "frames", **in_v1), refused(2, "UnknownKey")
    yield told("suppliermore", "frames", [], **in_v1)
    yield request(integrator, "set_key", supplier="s7", key="supplier64"), refused(31, "KeyTaken")
    yield request(integrator, "set_key", supplier="more", key="supplier07"), refused(14, "NoSupplier")
    yield done(integrator, "set_key", supplier="s7", key="supplier07")
    there = sorted(f"supplier s{n}" for n in range(1, SUPPLIERS + 1))
    yield told(integrator, "cluster", [*figures(CLUSTER), *there])
    yield told("supplier64", "cluster", [*figures(CLUSTER), "supplier s64"])
    for n in 1, SUPPLIERS:
        yield done(integrator, "add_node", supplier=f"s{n}", node="n1")
        yield done(f"supplier{n:02}", "add_frame", **in_v1, frame="f1", node="n1")
    yield told("supplier64", "frames", ["FRAME f1 n1"], **in_v1)
    yield told("supplier07", "frames", [], **in_v1)
    yield told(integrator, "frames", ["FRAME f1 n1 s1", "FRAME f1 n1 s64"], **in_v1)
    yield told("supplier07", "nodes", [])
    yield told(integrator, "nodes", ["n1 s1", "n1 s64"])


PLACEMENTS_FILE = "frame,node,slot,channels,base,repetition\n"


def imports_of_rows():
    """An import of as many rows as a file may have, after one with a row more: each of 64 frames in all slots of a cycle of its own."""
    integrator, key, in_v1 = "integrator1", "supplier01", dict(variant="v1")
    cells = [(slot, channel) for slot in range(1, 5) for channel in "AB"]
    rows = [f"f{frame},n1,{slot},{channel},{frame},64\n" for frame in range(CYCLES) for slot, channel in cells]

    yield done(integrator, "open_variant", **in_v1)
    yield done(integrator, "add_node", supplier="s1", node="n1")
    for slot, channel in cells:
        yield done(integrator, "grant", **in_v1, slot=slot, channel=channel, supplier="s1", node="n1")
    file = dict(**in_v1, label="a", body=PLACEMENTS_FILE + "".join(rows))
    more = dict(**in_v1, label="a", body=PLACEMENTS_FILE + "".join(rows) + "x\n")
    yield request(key, "import", **more), refused_row(IMPORT_ROWS + 2, 23, "Limit")
    yield request(key, "frames", **in_v1), '{"lines":[],"ok":"frames"}'
    yield request(key, "import", **file), imported(IMPORT_ROWS)
    yield request(key, "import", **file), imported(IMPORT_ROWS)
    yield request(key, "import", **more), refused(9, "LabelUsed")
    sent = [f"{cycle:02} {slot:04} {channel} f{cycle} n1" for cycle in range(CYCLES) for slot, channel in cells]
    yield request(key, "schedule", **in_v1), json.dumps({"lines": sent, "ok": "schedule"}, separators=(",", ":"))


def imports_that_are_kept():
    """As many imports as a supplier may keep, and one more; files as long as they may be, and longer ones."""
    integrator, key, in_v1 = "integrator1", "supplier01", dict(variant="v1")
    kept = dict(**in_v1, label="a", body=PLACEMENTS_FILE + "f1,n1,1,A,0,2\nf2,n1,1,A,1,4\nf3,n1,1,A,3,4")
    longest = PLACEMENTS_FILE + "\n" * (IMPORT_BYTES - len(PLACEMENTS_FILE))
    too_long = longest + "\n"

    yield done(integrator, "open_variant", **in_v1)
    yield done(integrator, "add_node", supplier="s1", node="n1")
    yield done(integrator, "grant", **in_v1, slot=1, channel="A", supplier="s1", node="n1")
    yield request(key, "import", **kept), imported(3)
    yield request(key, "import", **in_v1, label="a", body=too_long), refused(9, "LabelUsed")
    yield limit(key, "import", **in_v1, label="b", body=too_long)
    yield limit(key, "import", **in_v1, label="b", body="\u00e4" * (IMPORT_BYTES // 2) + "x")
    yield request(key, "import", variant="v9", label="a", body=kept["body"]), refused(9, "LabelUsed")
    yield request(key, "import", variant="v9", label="b", body=too_long), refused(10, "NoVariant")
    yield request(key, "import", **in_v1, label="longest", body=longest), imported(0)
    for n in range(2, IMPORTS):
        yield request(key, "import", **in_v1, label=f"l{n}", body=PLACEMENTS_FILE), imported(0)
    yield limit(key, "import", **in_v1, label="more", body=PLACEMENTS_FILE)
    yield limit(key, "import", **in_v1, label="more", body="")
    yield request(key, "import", **kept), imported(3)
    yield request(key, "import", **in_v1, label=f"l{IMPORTS - 1}", body=PLACEMENTS_FILE), imported(0)
    yield request("supplier02", "import", **in_v1, label="more", body=PLACEMENTS_FILE), imported(0)
    yield done(integrator, "release", **in_v1)
    yield request(key, "import", **in_v1, label="more", body=too_long), refused(11, "Released")
    yield request(key, "import", **kept), imported(3)
