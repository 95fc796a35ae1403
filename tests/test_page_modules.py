"""Modules of the planners' page, without a browser: what they make of reports and of files is what models/naive.py and python3's csv tell, or what
was typed from the formats."""
import base64
import csv
import io
import json
import random
import zipfile
from math import gcd

from tests.drivers.modules import ModulesCase
from tests.models import naive
from tests.models.plans import examples

# Of each plan its cells, its lanes, the gaps and the bits of its frames; and of the cells what is told of them, and how its lanes stand side by side.
PLANS = """
    return given.map(({cluster, rows, me}) => {
        const plan = new Plan(readCluster(cluster), readRows(rows, me)), {cycles} = plan, cells = [], lanes = [], told = [];
        const {channels} = plan.cluster, sheet = new Sheet(plan, {channels, width: 10, rowHeight: 10, isShown: () => true});
        const desk = {plan, sheet, room: null, isIntegrator: me === null, times: new Times(), look: {marks: false}, difference: null};
        plan.grants.forEach((grant, lane) => {
            if (grant) lanes.push([slotOf(lane), channelOf(lane), plan.load[lane], cycles, grant.node, grant.supplier]);
            for (let cycle = 0; cycle < cycles; cycle += 1) {
                const placement = plan.at(lane, cycle), {frame} = placement ?? {};
                if (!placement) continue;
                cells.push([cycle, slotOf(lane), channelOf(lane), frame.name, frame.node, frame.supplier]);
                told.push(described(desk, cellAt({desk, sheet}, slotOf(lane) - 1, channels.indexOf(channelOf(lane)), cycle)).split(", sent by")[0]);
            }
        });
        const gaps = plan.frames.map(({gap, name, supplier}) => [String(gap === Infinity ? "never" : gap), name, supplier]);
        const layouts = plan.frames.flatMap(({name, supplier, signals}) => signals.map(one => [supplier, name, one.name, bitsOf(one)]));
        const places = [...channels].map(channel => sheet.stretch(2, channel).x), [first] = sheet.columns;
        return {cells, lanes, told, gaps, layouts, places, isInOrder: sheet.lanes(first).map(({channel}) => channel).join("") === channels};
    });"""
OF_PLANS = {
    "plan": "Plan, slotOf, channelOf", "reports": "readCluster, readRows", "bits": "bitsOf", "sheet": "Sheet", "cells": "cellAt, described", "times": "Times",
}
CLUSTER = {"channels": "AB", "static_slots": 4, "slot_macroticks": 10, "macroticks_per_cycle": 100, "cycles": 64, "payload_words": 4, "suppliers": ["s1", "s2"]}


def told_plans():
    """Each example's plans as the plain register tells them: whose plan it is, and its reports as lines."""
    for name, cluster, requests in examples():
        register, lines = naive.register_of(f"{cluster}---\n{requests}".encode())
        for line in lines:
            register.told(line)

        def ask(key, do, **asked):
            return json.loads(register.told(f"{key} {json.dumps({'do': do, **asked})}".encode()))["lines"]

        for key, me in [(register.cluster["integrator"], None), *register.keys.items()]:
            for variant in [line.split()[0] for line in ask(key, "variants")]:
                told = {do: ask(key, do, variant=variant) for do in ("rows", "schedule", "load", "gaps")}
                yield f"{name}, {variant} of {me or 'all'}", me, {"cluster": ask(key, "cluster"), **told}


def text(lines):
    return "".join(f"{line}\n" for line in lines)


def typed(words, me):
    """A line's words with the numbers in it as numbers, and whose it is, which a supplier's report does not say."""
    return [int(word) if word.isdecimal() else word for word in words] + ([me] if me else [])


class Plans(ModulesCase):
    """The plans of the examples: what the page makes of `rows` is what `schedule`, `load` and `gaps` tell of it."""

    def test_each(self):
        plans = list(told_plans())
        got = self.run_script(OF_PLANS, PLANS, [{"cluster": text(told["cluster"]), "rows": text(told["rows"]), "me": me} for _, me, told in plans])
        self.see("there are plans of both", True, len(plans) > 20 and any(me for _, me, _ in plans))
        for (what, me, told), plan in zip(plans, got):
            cells = [typed(line.split(), me) for line in told["schedule"]]
            self.see(f"{what}: cells", sorted(cells), sorted(plan["cells"]))
            self.see(f"{what}: what is told of them", sorted(f"Cycle {c}, slot {s} {on}: {frame}" for c, s, on, frame, *_ in cells), sorted(plan["told"]))
            lanes = [typed(line.split(), me) for line in told["load"] if line.split()[4] != "-"]
            self.see(f"{what}: lanes", lanes, plan["lanes"])
            gaps = [[gap, frame, *owner] + ([me] if me else []) for _, gap, frame, *owner in map(str.split, told["gaps"])]
            self.see(f"{what}: gaps", sorted(gaps), sorted(plan["gaps"]))
            bits = [(me or owner[0], frame, name, naive.bits_of(int(start), int(length), order == "big"))
                    for kind, frame, start, length, order, name, *owner in (line.split() for line in told["rows"] if line.startswith("SIGNAL"))]
            self.see(f"{what}: bits", sorted(bits), sorted(map(tuple, plan["layouts"])))
            self.see(f"{what}: A stands left of B", (True, True), (plan["places"] == sorted(plan["places"]), plan["isInOrder"]))

    def test_rows_that_no_plan_has(self):
        good = ["GRANT 0001 A n1", "FRAME f n1", "AT f 0001 A 00 02", "GAP     200 f"]
        script = """return given.map(rows => { try { new Plan(readCluster(CLUSTER), readRows(rows, "s1")); return "a plan"; } catch (fault) {
            return fault instanceof Strange ? fault.message : "not told: " + fault; } });"""
        told = text([f"{key} {value}" for key, value in CLUSTER.items() if key != "suppliers"] + ["dynamic_macroticks 40", "symbol_macroticks 10", "idle_macroticks 10", "supplier s1"])
        cases = [
            ("a plan", good), ("not hold slot 1 on B", [good[0], good[1], "AT f 0001 AB 00 02", good[3]]), ("not hold slot 2 on A", [good[0], good[1], "AT f 0002 A 00 02", good[3]]),
            ("Two frames are sent in cycle 2, slot 1 on A", [*good[:3], "FRAME g n1", "AT g 0001 A 02 04", "GAP     400 g", good[3]]),
            ("is not that of its placements", [*good[:3], "GAP     100 f"]), ("without its gap", good[:3]), ("without its frame", [good[0], *good[2:]]),
            ("was sent twice", [*good, good[1]]), ("no slot 5", ["GRANT 0005 A n1", *good[1:]]), ("no slot 0", ["GRANT 0000 A n1", *good[1:]]),
            ("without cycles", [*good[:2], "AT f 0001 A 00 03", good[3]]), ("without cycles", [*good[:2], "AT f 0001 A 02 02", good[3]]),
            ("a line that no report has", ["GRANT 0001 C n1", *good[1:]]), ("a line that no report has", [*good, "<b>"]), ("for somebody else", [good[0] + " s2", *good[1:]]),
        ]
        imports = {"plan": "Plan", "reports": "readCluster, readRows", "faults": "Strange"}
        got = self.run_script(imports, script.replace("CLUSTER", json.dumps(told)), [text(rows) for _, rows in cases])
        for (wanted, rows), said in zip(cases, got):
            self.see(rows, True, wanted in said or said)


# The lines that the report `room` has, of what the page finds by itself.
ROOM = """
    return given.map(({cluster, rows, me, asked}) => {
        const plan = new Plan(readCluster(cluster), readRows(rows, me)), pad = number => String(number).padStart(2, "0");
        return asked.map(([name, repetition]) => [...roomOf(plan, plan.frameNamed(me, name), repetition)]
            .map(([key, bases]) => [key.replace(/\\D+/, "").padStart(4, "0"), key.replace(/\\d+/, ""), pad(repetition), ...[...bases].map(pad)].join(" ")));
    });"""


class Room(ModulesCase):
    """Where a frame fits the page finds by its own rows: it is what the report `room` tells."""

    def test_each(self):
        given, wanted = [], []
        for name, cluster, requests in examples():
            register, lines = naive.register_of(f"{cluster}---\n{requests}".encode())
            for line in lines:
                register.told(line)
            for key, me in register.keys.items():
                ask = lambda do, **more: json.loads(register.told(f"{key} {json.dumps({'do': do, **more})}".encode()))
                for variant in [line.split()[0] for line in ask("variants")["lines"] if line.endswith(" open")]:
                    rows = ask("rows", variant=variant)["lines"]
                    frames = [line.split()[1] for line in rows if line.startswith("FRAME")]
                    divisors = [number for number in range(1, register.cycles + 1) if register.cycles % number == 0]
                    asked = [(frame, repetition) for frame in frames for repetition in divisors[::2]]
                    given.append({"cluster": text(ask("cluster")["lines"]), "rows": text(rows), "me": me, "asked": asked})
                    wanted.append([ask("room", variant=variant, frame=frame, repetition=repetition).get("lines", []) for frame, repetition in asked])
        got = self.run_script({"plan": "Plan", "reports": "readCluster, readRows", "room": "roomOf"}, ROOM, given)
        for plan, lines, found in zip(given, wanted, got):
            self.see(f"room of {plan['me']}", lines, found)
        self.see("there is room", True, sum(map(len, wanted)) > 100)


class Cycles(ModulesCase):
    """Cycles, gaps and bits, by the rules of the formats."""

    def test_cycles_and_divisors(self):
        counts = [8, 10, 12, 30, 48, 64]
        cases = [(base, repetition, count) for count in counts for repetition in range(1, count + 1) if count % repetition == 0 for base in range(repetition)]
        got = self.run_script({"cycles": "divisors, cyclesOf"}, """return {all: given.counts.map(divisors),
            cycles: given.cases.map(([base, repetition, count]) => cyclesOf({base, repetition}, count))};""", {"counts": counts, "cases": cases})
        self.see("divisors", [[number for number in range(1, count + 1) if count % number == 0] for count in counts], got["all"])
        self.see("cycles", [[cycle for cycle in range(count) if cycle % repetition == base] for base, repetition, count in cases], got["cycles"])

    def test_gaps(self):
        """Of random placements, and of two slots in one cycle."""
        turn, cases = random.Random(5), []
        for count in 8, 10, 64:
            for _ in range(40):
                repetitions = [number for number in range(1, count + 1) if count % number == 0]
                placements = [{"slot": turn.randint(1, 4), "channels": turn.choice(["A", "B", "AB"]), "repetition": r, "base": turn.randrange(r)}
                              for r in (turn.choice(repetitions) for _ in range(turn.randint(0, 5)))]
                cases.append((count, placements))
        got = self.run_script({"cycles": "gapOf"}, "return given.cases.map(([cycles, placements]) => gapOf(placements, {...given.cluster, cycles}));",
                              {"cluster": CLUSTER, "cases": cases})
        for (count, placements), gap in zip(cases, got):
            moments = sorted({c * 100 + (p["slot"] - 1) * 10 for p in placements for c in range(count) if c % p["repetition"] == p["base"]})
            steps = [(after - before) % (count * 100) or count * 100 for before, after in zip(moments, moments[1:] + moments[:1])]
            self.see(placements, max(steps, default="never"), gap)

    def test_bits(self):
        cases = [(start, length, order) for start in range(0, 40, 3) for length in (1, 5, 8, 12, 24) for order in ("little", "big")]
        got = self.run_script({"bits": "bitsOf"}, "return given.map(([start, length, order]) => bitsOf({start, length, order}));", cases)
        self.see("bits", [naive.bits_of(start, length, order == "big") for start, length, order in cases], got)

    def test_common_cycles_are_found(self):
        """Of two placements in one lane a plan refuses exactly those that share a cycle."""
        script = """return given.cases.map(places => { try {
            new Plan(given.cluster, [{kind: "grant", slot: 1, channels: "A", node: "n", supplier: "s1"}, ...places.flatMap(([base, repetition], at) => [
                {kind: "frame", frame: "f" + at, node: "n", supplier: "s1"}, {kind: "placement", frame: "f" + at, supplier: "s1", slot: 1, channels: "A", base, repetition},
                {kind: "gap", frame: "f" + at, supplier: "s1", gap: repetition * 100}])]);
            return false; } catch { return true; } });"""
        pairs = [(base, r) for r in (1, 2, 4, 8, 16) for base in range(r)]
        cases = [(one, other) for one in pairs for other in pairs]
        got = self.run_script({"plan": "Plan"}, script, {"cluster": CLUSTER, "cases": cases})
        self.see("shared", [(one[0] - other[0]) % gcd(one[1], other[1]) == 0 for one, other in cases], got)


class Lanes(ModulesCase):
    """Lanes by slot and channel, and their words."""

    def test_lanes(self):
        got = self.run_script({"plan": "laneOf, slotOf, channelOf, laneText"}, """return given.map(([slot, channel]) => {
            const lane = laneOf(slot, channel); return [slotOf(lane), channelOf(lane), laneText(lane)]; });""", [(s, on) for s in (1, 2, 1023) for on in "AB"])
        self.see("lanes", [[s, on, f"{s} {on}"] for s in (1, 2, 1023) for on in "AB"], got)

    def test_words(self):
        place = {"slot": 7, "channels": "AB", "base": 3, "repetition": 16}
        got = self.run_script({"words": "grouped, plural, placeText, shortPlaceText, longPlaceText, cyclesText, bitsText, firstOf", "times": "Times"}, """
            const times = new Times(), said = [times.text(6400), times.text(Infinity)];
            times.microseconds = 1.5;
            return [grouped(1234567), plural(1, "row"), plural(1000, "row"), placeText(given), shortPlaceText(given), longPlaceText(given), cyclesText(given),
                bitsText({name: "x", start: 4, length: 1, order: "big"}), firstOf(["a", "b", "c"], 2), ...said, times.text(6400), times.number(2000)];""", place)
        self.see("words", ["1,234,567", "1 row", "1,000 rows", "slot 7 AB 3/16", "7 AB 3/16", "slot 7 AB, base 3, repetition 16", "3/16", "x: 1 bit from bit 4, big",
                           "a, b and 1 more", "6,400 macroticks", "never", "9.6 ms", "3"], got)

    def test_grants_that_are_wanted(self):
        """Of lanes over which was drawn: the free ones are granted, those of the node revoked, and others' stay."""
        script = """const plan = new Plan(given, [[1, "A", "n1", "s1"], [2, "B", "n1", "s2"], [3, "B", "n1", "s1"]].map(([slot, channels, node, supplier]) =>
                ({kind: "grant", slot, channels, node, supplier})));
            const desk = {plan, nodes: [{node: "n1", supplier: "s1"}], grantTo: 0}, {grants, revokes, others} = wantedOf(desk, [0, 1, 2, 3, 4, 5]);
            return [grants.map(changeText), revokes.map(changeText), others];"""
        got = self.run_script({"plan": "Plan", "granting": "wantedOf, changeText"}, script, CLUSTER)
        self.see("wanted", [[f"Slot {lane} is granted to n1 of s1." for lane in ("1 B", "2 A", "3 A")],
                            [f"Slot {lane} is no longer granted to n1 of s1." for lane in ("1 A", "3 B")], 1], got)


class Files(ModulesCase):
    """Files: their records are those that python3 reads, and what spreadsheets make of them is mended."""

    def test_records(self):
        turn = random.Random(11)
        fields = ["f1", "", "a b", 'say "x"', "1,2", "two\nlines", "cr\rlf\r\n", '"', ",", "\u00e4"]
        tables = [[[turn.choice(fields) or "x", *(turn.choice(fields) for _ in range(turn.randint(0, 4)))] for _ in range(turn.randint(1, 6))] for _ in range(60)]
        written = []
        for table in tables:
            out = io.StringIO()
            csv.writer(out, lineterminator=turn.choice(["\n", "\r\n"])).writerows(table)
            written.append(out.getvalue())
        got = self.run_script({"csv": "recordsOf, fileOf"}, "return given.map(text => [recordsOf(text), new TextDecoder().decode(fileOf(recordsOf(text)))]);", written)
        for table, (records, again) in zip(tables, got):
            self.see("records", table, records)
            self.see("records of what is written of them", table, list(csv.reader(io.StringIO(again, newline=""))))

    def test_parts(self):
        """Parts have whole frames, at most 512 rows and 65,536 bytes each, and all rows together."""
        head = ["frame", "node", "slot", "channels", "base", "repetition"]
        rows = [[f"frame{at % 300}", "n1", str(at), "A", "0", "64"] for at in range(1200)]
        got = self.run_script({"csv": "partsOf, fileOf"}, "return partsOf(given).map(part => [part, fileOf(part).length]);", [head, *rows])
        self.see("all rows", sorted(rows), sorted(row for (_, *part), _ in got for row in part))
        self.see("heads", [head] * len(got), [part[0] for part, _ in got])
        self.see("none is too long", True, all(len(part) <= 513 and size <= 65536 for part, size in got))
        frames = [{row[0] for row in part[1:]} for part, _ in got]
        self.see("no frame stands in two", 300, sum(map(len, frames)))

    def test_what_spreadsheets_make(self):
        script = """const said = [];
            for (const text of given) {
                const file = await looked("plan.csv", new TextEncoder().encode(text));
                said.push([file.kind, file.fault === "", file.mend ? new TextDecoder().decode(mended(file).bytes) : null]);
            }
            return said;"""
        good, right = "frame,node\nf1,n1\n", "frame,node\nf1,n1\n"
        cases = [
            (good, ["frames", True, None]), ("frame;node\r\nf1;n1\r\n", [None, False, right]), ("frame\tnode\nf1\tn1\n", [None, False, right]),
            ("Frame, Node\nf1 , n1\n", [None, False, right]), ("sep=;\nframe;node\nf1;n1\n", [None, False, right]), ("node,frame\nn1,f1\n", [None, False, right]),
            ("frame,node,,\nf1,n1,,\n", [None, False, right]), ("Column1,Column2\nframe,node\nf1,n1\n", [None, False, right]),
            ("frame,node\n,\nf1,n1\n", [None, False, right]), ("frame,nodes\nf1,n1\n", [None, False, None]), ("", [None, False, None]),
        ]
        got = self.run_script({"looking": "looked, mended"}, script, [text for text, _ in cases])
        for (given, wanted), said in zip(cases, got):
            kind, is_fine, mend = said
            self.see(given, wanted, [kind if is_fine else None, is_fine, mend])

    def test_what_would_be_gone(self):
        rows = text(["FRAME f n1", "FRAME g n1", "AT f 0001 A 00 02", "AT g 0001 A 01 04", "SIGNAL f 0000 04 little x", "GAP     200 f", "GAP     400 g"])
        script = """return Promise.all(given.cases.map(async ([kind, shown, isWhole]) => {
            const desk = {me: "s1", path: rest => rest, register: {read: async () => given.rows}};
            return (await rowsGone(desk, {kind, shown}, isWhole)).map(({text}) => text); }));"""
        placements = ["frame", "node", "slot", "channels", "base", "repetition"]
        cases = [
            (["frames", [["frame", "node"], ["f", "n1"]], True], ["g, sent by n1", "g in slot 1 A, base 1, repetition 4"]),
            (["frames", [["frame", "node"], ["f", "n1"]], False], []),
            (["frames", [["frame", "node"], ["f", "n2"], ["g", "n1"]], True], ["f, sent by n1", "f in slot 1 A, base 0, repetition 2", "f, x: 4 bits from bit 0, little"]),
            (["placements", [placements, ["f", "n1", "01", "A", "00", "2"]], False], []),
            (["placements", [placements, ["f", "n1", "1", "B", "0", "2"]], False], ["f in slot 1 A, base 0, repetition 2"]),
            (["placements", [placements], True], ["f in slot 1 A, base 0, repetition 2", "g in slot 1 A, base 1, repetition 4"]),
            (["signals", [["frame", "signal", "start", "length", "order"]], True], ["f, x: 4 bits from bit 0, little"]),
        ]
        got = self.run_script({"gone": "rowsGone"}, script, {"rows": rows, "cases": [case for case, _ in cases]})
        for (case, wanted), said in zip(cases, got):
            self.see(case, wanted, said)


class Reports(ModulesCase):
    """Reports and answers: each has its form, and a line that has not is refused."""

    def test_forms(self):
        cases = {
            "readVariants": [("v1 - 1 open\nv2 v1 2 released\n", [{"name": "v1", "parent": None, "depth": 1, "isReleased": False},
                                                                  {"name": "v2", "parent": "v1", "depth": 2, "isReleased": True}]),
                             ("v1 - 1 shut\n", None), ("v1 - one open\n", None), ("<img> - 1 open\n", None)],
            "readNodes": [("n1\nn2\n", [{"node": "n1", "supplier": "s1"}, {"node": "n2", "supplier": "s1"}]), ("n1 s2\n", None), ("1n\n", None)],
            "readFates": [({"lines": ["0002 00 done", "0003 25 CellTaken 07 B g"]}, [[2, 0, None], [3, 25, "B"]]), ({"lines": ["0002 25 done"]}, None),
                          ({"lines": ["0002 25 CellTaken"]}, None), ({"lines": "x"}, None), ({"lines": ["0002 29 BadRow"]}, None)],
        }
        script = """const reads = {readVariants, readNodes: text => readNodes(text, "s1"), readFates: answer => readFates(answer).map(({record, no, channel}) => [record, no, channel ?? null])};
            return given.map(([name, told]) => { try { return reads[name](told); } catch (fault) { if (fault instanceof Strange) return null; throw fault; } });"""
        listed = [(name, told, wanted) for name, some in cases.items() for told, wanted in some]
        got = self.run_script({"reports": "readVariants, readNodes, readFates", "faults": "Strange"}, script, [(name, told) for name, told, _ in listed])
        for (name, told, wanted), said in zip(listed, got):
            self.see(f"{name} of {told!r}", wanted, said)

    def test_refusals(self):
        script = "return given.map(answer => isRefusal(answer) && explained(answer));"
        cases = [
            ({"no": 25, "refused": "CellTaken", "cycle": 3, "channel": "B", "frame": "g"}, "In cycle 3 on channel B the frame g is sent already."),
            ({"no": 27, "refused": "BitTaken", "bit": 12, "signal": "x"}, "Bit 12 is used by the signal x."),
            ({"no": 29, "refused": "BadRow", "line": 4, "row": {"no": 16, "refused": "NoFrame"}}, "Line 4 of the file"), ({"no": 3, "refused": "NotYours"}, "NotYours (3)."),
            ({"no": 25, "refused": "CellTaken"}, False), ({"no": 3, "refused": "Exists"}, False), ({"no": 99, "refused": "NotYours"}, False), (None, False), ([], False),
        ]
        for (answer, wanted), said in zip(cases, self.run_script({"refusals": "isRefusal, explained"}, script, [answer for answer, _ in cases])):
            self.see(answer, True, said == wanted if wanted is False else wanted in said)

    def test_requests(self):
        """What is sent: the method, the address relative to the page, the key in its field alone."""
        script = """const sent = [];
            globalThis.fetch = async (path, {method, body, headers}) => {
                sent.push([method, path, headers, body ?? null]);
                return {status: 200, text: async () => '{"ok":"done","rows":1}'};
            };
            const register = new Register("key00001"), quiet = promise => promise.catch(() => {});
            await register.read("nodes");
            await register.command({do: "release", variant: "v1"});
            await quiet(register.tried("v1", "x", {replaces: false}));
            await quiet(register.tried("v1", "x", {replaces: true, isWhole: true}));
            await quiet(register.imported("v1", "week1", "x"));
            await quiet(register.replaced("v1", "x", false));
            await quiet(register.replaced("v1", "x", true));
            return sent;"""
        key = {"X-Office-Key": "key00001"}
        self.see("requests", [
            ["GET", "v1/nodes", key, None], ["POST", "v1/commands", key, '{"do":"release","variant":"v1"}'], ["POST", "v1/variants/v1/tries", key, "x"],
            ["PUT", "v1/variants/v1/tries/whole", key, "x"], ["POST", "v1/variants/v1/imports/week1", key, "x"], ["PUT", "v1/variants/v1/rows", key, "x"],
            ["PUT", "v1/variants/v1/rows/whole", key, "x"]], self.run_script({"register": "Register"}, script))


class Meanwhile(ModulesCase):
    """What somebody else changed between two readings."""

    def test_words(self):
        rows = [["GRANT 0001 A n1", "GRANT 0001 B n1"], ["FRAME f n1", "FRAME g n1"], ["AT f 0001 A 00 02"], ["SIGNAL f 0000 04 little x"], ["GAP     200 f", "GAP   never g"]]
        script = """const planOf = rows => new Plan(given.cluster, readRows(rows, "s1")), before = planOf(given.before);
            return given.cases.map(([rows, own]) => meanwhile(before, planOf(rows), one => one === own || one?.name === own));"""
        before = text(sum(rows, []))
        placed = before.replace("AT f 0001 A 00 02", "AT f 0001 A 00 02\nAT g 0001 B 00 02").replace("GAP   never g", "GAP     200 g")
        cases = [
            (before, None, ""), (placed, None, "1 frame (g)"), (placed, "g", ""), (before.replace("GRANT 0001 B n1\n", ""), None, "1 lane (1 B)"),
            (before.replace("GRANT 0001 B n1\n", ""), 1, ""), (before.replace("04 little x", "05 little x"), None, "1 signal (x of f)"),
            (text(["GRANT 0001 A n1", "GRANT 0001 B n1"]), None, "2 frames (f, g)"),
            (placed.replace("GRANT 0001 A n1\n", "GRANT 0001 A n1\nGRANT 0002 A n1\n"), None, "1 frame (g) and 1 lane (2 A)"),
        ]
        got = self.run_script({"plan": "Plan", "reports": "readRows", "meanwhile": "meanwhile"}, script,
                              {"cluster": CLUSTER, "before": before, "cases": [(rows, own) for rows, own, _ in cases]})
        for (rows, own, wanted), said in zip(cases, got):
            self.see(f"{rows} but {own}", wanted, said)


# Requests as the plain register takes them.
ROWS_OF = """return given.map(([now, then, others]) => requestsBetween(new Map(Object.entries(now)), new Map(Object.entries(then)), others)
    .map(({command, file, isWhole}) => command ? {command} : {file: new TextDecoder().decode(file), isWhole}));"""


class Changes(ModulesCase):
    """The requests that lead from one state of frames to another: the plain register carries them out, and then it has that state."""

    NODES, LANES = ["n1", "n2"], [(slot, channel) for slot in (1, 2, 3) for channel in "AB"]

    def register(self):
        """A register in which each node of a supplier holds both channels of slots of its own."""
        cluster = {"channels": "AB", "static_slots": 6, "slot_macroticks": 10, "dynamic_macroticks": 20, "symbol_macroticks": 10, "idle_macroticks": 10,
                   "macroticks_per_cycle": 100, "payload_words": 8, "cycles": 16, "integrator": "integrator1", "suppliers": {"s1": "supplier01"}}
        register = naive.Register(cluster)
        ask = lambda key, **request: self.assertIn("done", register.told(f"{key} {json.dumps(request)}".encode()))
        ask("integrator1", do="open_variant", variant="v1", **{"from": None})
        for at, node in enumerate(self.NODES):
            ask("integrator1", do="add_node", supplier="s1", node=node)
            for slot in range(1 + 3 * at, 4 + 3 * at):
                for channel in "AB":
                    ask("integrator1", do="grant", variant="v1", slot=slot, channel=channel, supplier="s1", node=node)
        return register

    def state(self, turn, free, bits):
        """A frame's state, of cells that are free; or none."""
        if turn.random() < 0.3:
            return None
        node = turn.choice(self.NODES)
        placements, signals = [], []
        for _ in range(turn.randint(0, 3)):
            slot, channels, repetition = turn.randint(1, 3) + 3 * self.NODES.index(node), turn.choice(["A", "B", "AB"]), turn.choice([2, 4, 8])
            base = turn.randrange(repetition)
            cells = {(cycle, slot, channel) for cycle in range(base, 16, repetition) for channel in channels}
            if cells <= free:
                free -= cells
                placements.append({"slot": slot, "channels": channels, "base": base, "repetition": repetition})
        for at in turn.sample(range(bits), turn.randint(0, 3)):
            signals.append({"name": f"x{at}", "start": 8 * at, "length": turn.choice([4, 8]), "order": "little"})
        return {"node": node, "placements": placements, "signals": signals}

    def states(self, turn, names):
        free = {(cycle, slot, channel) for cycle in range(16) for slot in range(1, 7) for channel in "AB"}
        return {name: self.state(turn, free, 6) for name in names}

    def carried(self, register, requests):
        for request in requests:
            if "command" in request:
                told = register.told(f"supplier01 {json.dumps({'variant': 'v1', **request['command']})}".encode())
            else:
                told = register.told(f"supplier01 {json.dumps({'do': 'replace', 'variant': 'v1', 'body': request['file'], 'whole': request['isWhole']})}".encode())
            if '"ok"' not in told:
                return told
        return ""

    def rows(self, register):
        lines = json.loads(register.told(b'supplier01 {"do":"rows","variant":"v1"}'))["lines"]
        return sorted(line for line in lines if not line.startswith(("GRANT", "GAP")))

    def wanted(self, states):
        rows = []
        for name, state in states.items():
            if state:
                rows.append(f"FRAME {name} {state['node']}")
                rows += [f"AT {name} {p['slot']:04} {p['channels']} {p['base']:02} {p['repetition']:02}" for p in state["placements"]]
                rows += [f"SIGNAL {name} {s['start']:04} {s['length']:02} {s['order']} {s['name']}" for s in state["signals"]]
        return sorted(rows)

    def test_random_states(self):
        turn, names = random.Random(3), ["f", "g", "h", "k"]
        chains = [[self.states(turn, names) for _ in range(4)] for _ in range(30)]
        beside = {"other": {"node": "n1", "placements": [], "signals": [{"name": "own", "start": 0, "length": 8, "order": "little"}]}}
        pairs = [(one, other) for chain in chains for one, other in zip([dict.fromkeys(names), *chain], chain)]
        made = iter(self.run_script({"changes": "requestsBetween"}, ROWS_OF, [(one, other, [["other", "n1"]]) for one, other in pairs]))
        for chain in chains:
            register = self.register()
            self.carried(register, [{"command": {"do": "add_frame", "frame": "other", "node": "n1"}},
                                    {"command": {"do": "add_signal", "frame": "other", "signal": "own", "start": 0, "length": 8, "order": "little"}}])
            for state in chain:
                refused = self.carried(register, next(made))
                self.see(f"{state}", ("", self.wanted({**beside, **state})), (refused, self.rows(register)))

    def test_one_request_of_each_step(self):
        place = lambda base, repetition=4, slot=1: {"slot": slot, "channels": "A", "base": base, "repetition": repetition}
        signal = lambda name, start=0: {"name": name, "start": start, "length": 8, "order": "little"}
        frame = lambda *placements, signals=(): {"node": "n1", "placements": list(placements), "signals": list(signals)}
        cases = [
            ("nothing", frame(place(0)), frame(place(0)), []), ("an order of its own", frame(place(0), place(1)), frame(place(1), place(0)), []),
            ("a placement", frame(), frame(place(0)), ["place"]), ("one more", frame(place(0)), frame(place(0), place(1)), ["place"]),
            ("one less", frame(place(0), place(1)), frame(place(0)), ["unplace"]), ("the last one", frame(place(0)), frame(), ["unplace"]),
            ("a move", frame(place(0)), frame(place(0, slot=2)), ["replace"]), ("another repetition", frame(place(0, 4), place(1, 4)), frame(place(0, 2), place(1, 4)), ["replace"]),
            ("a new frame", None, frame(), ["add_frame"]), ("a frame with a placement", None, frame(place(0)), ["replace"]),
            ("a dropped frame", frame(place(0), signals=[signal("x")]), None, ["drop_frame"]), ("a signal", frame(), frame(signals=[signal("x")]), ["add_signal"]),
            ("no signal", frame(signals=[signal("x")]), frame(), ["drop_signal"]), ("a signal that moves", frame(signals=[signal("x")]), frame(signals=[signal("x", 8)]), ["replace"]),
        ]
        got = self.run_script({"changes": "requestsBetween"}, ROWS_OF, [({"f": now}, {"f": then}, []) for _, now, then, _ in cases])
        for (what, *_, wanted), requests in zip(cases, got):
            self.see(what, wanted, [request["command"]["do"] if "command" in request else "replace" for request in requests])


# A desk before a register of the test's own, which keeps what it is asked and answers as it is told.
DESK = """
    const rows = [...given.rows], sent = [];
    const register = {
        read: async path => { if (path.endsWith("/rows")) return rows.length > 1 ? rows.shift() : rows[0]; throw new Error(path); },
        command: async request => { sent.push(request); if (given.refused === sent.length) throw new Refused({no: 25, refused: "CellTaken", cycle: 1, channel: "A", frame: "g"}); },
        replaced: async (variant, file, isWhole) => { sent.push([variant, new TextDecoder().decode(file), isWhole]); return {rows: 1}; },
    };
    const desk = new Desk(), planOf = text => new Plan(given.cluster, readRows(text, "s1"));
    Object.assign(desk, {register, me: "s1", cluster: given.cluster, variant: "v1", variants: [{name: "v1", isReleased: false}], plan: planOf(rows.shift())});
    const said = () => byId("message").children.map(child => child.text()).filter(text => !["Close", "Undo", "Redo"].includes(text)).join("");
    const frame = name => desk.plan.frameNamed("s1", name);"""
OF_DESK = {"desk": "Desk", "plan": "Plan", "reports": "readRows", "dom": "byId", "faults": "Refused", "steps": "place, unplace, addFrame, dropFrame, addSignal, dropSignal",
           "turning": "undo, redo"}


class Steps(ModulesCase):
    """Steps, and the history by which they are taken back and done again."""

    def rows(self, *placements, frames=("f",), signals=()):
        names = [f"FRAME {name} n1" for name in frames]
        gaps = [f"GAP {'never' if not any(p.split()[0] == name for p in placements) else 400:>7} {name}" for name in frames]
        return text(["GRANT 0001 A n1", "GRANT 0001 B n1", *names, *(f"AT {it}" for it in placements), *(f"SIGNAL {it}" for it in signals), *gaps])

    def tried(self, script, rows, refused=0):
        return self.run_script(OF_DESK, DESK + script, {"cluster": CLUSTER, "rows": rows, "refused": refused})

    def test_three_steps_and_back(self):
        """Three placements, taken back one after another, and done again."""
        frames = "f", "g", "h"
        at = ["f 0001 A 00 04", "g 0001 A 01 04", "h 0001 A 02 04"]
        states = [self.rows(*at[:count], frames=frames) for count in (0, 1, 2, 3, 2, 1, 0, 1, 2, 3)]
        got = self.tried("""
            for (const [base, name] of ["f", "g", "h"].entries()) await place(desk, frame(name), {slot: 1, channels: "A", base, repetition: 4});
            const history = desk.history(), counts = [[history.done.length, history.undone.length]], told = [];
            for (const turn of [undo, undo, undo, undo, redo, redo, redo, redo]) { await turn(desk); counts.push([history.done.length, history.undone.length]); told.push(said()); }
            return {sent: sent.map(one => [one.do, one.frame, one.base]), counts, told: [told[0], told[4]]};""", states)
        out = [["place", name, base] for base, name in enumerate(frames)]
        back = [["unplace", name, base] for base, name in reversed(list(enumerate(frames)))]
        self.see("what is sent", out + back + out, got["sent"])
        self.see("the history", [[3, 0], [2, 1], [1, 2], [0, 3], [0, 3], [1, 2], [2, 1], [3, 0], [3, 0]], got["counts"])
        self.see("what is said", ["Taken back: h placed in slot 1 A 2/4.", "Done again: f placed in slot 1 A 0/4."], got["told"])

    def test_a_new_step_forgets_what_was_taken_back(self):
        at = "f 0001 A 00 04", "f 0001 A 01 04"
        got = self.tried("""await place(desk, frame("f"), {slot: 1, channels: "A", base: 0, repetition: 4});
            await undo(desk);
            await place(desk, frame("f"), {slot: 1, channels: "A", base: 1, repetition: 4});
            return [desk.history().done.map(({label}) => label), desk.history().undone.length];""", [self.rows(), self.rows(at[0]), self.rows(), self.rows(at[1])])
        self.see("the history", [["f placed in slot 1 A 1/4"], 0], got)

    def test_a_frame_that_was_dropped(self):
        """It comes back with its placements and its signals."""
        rows = self.rows("f 0001 A 00 04", "f 0001 B 00 04", signals=["f 0000 08 little x", "f 0008 08 big y"])
        got = self.tried("""await dropFrame(desk, "f"); await undo(desk); return [sent, desk.history().undone.length, said()];""", [rows, self.rows(frames=()), self.rows(frames=()), rows])
        self.see("what is sent", [
            {"do": "drop_frame", "frame": "f", "variant": "v1"},
            ["v1", "frame,node,slot,channels,base,repetition\nf,n1,1,A,0,4\nf,n1,1,B,0,4\n", False],
            ["v1", "frame,signal,start,length,order\nf,x,0,8,little\nf,y,8,8,big\n", False]], got[0])
        self.see("it is said", [1, "Taken back: f dropped."], got[1:])

    def test_what_was_changed_meanwhile_stays(self):
        """A colleague placed the frame that was added: it is not dropped again."""
        got = self.tried("""await addFrame(desk, "g", "n1"); await undo(desk); return [sent.length, desk.history().done.length, said()];""",
                         [self.rows(), self.rows(frames=("f", "g")), self.rows("g 0001 A 00 04", frames=("f", "g"))])
        self.see("nothing is sent", [1, 1, "This step cannot be taken back now, and stays in the list. Somebody else changed what it needs: g."], got)

    def test_what_is_refused_stays(self):
        """The cell from which a frame was taken is another's now."""
        was, without = self.rows("f 0001 A 00 04"), self.rows()
        got = self.tried("""await unplace(desk, frame("f"), frame("f").placements[0]); await undo(desk); return [sent.map(one => one.do), desk.history().done.length, said()];""",
                         [was, without], refused=2)
        self.see("it is said", (["unplace", "place"], 1, True), (*got[:2], got[2].startswith("Refused: ") and "cannot be taken back now, and stays" in got[2] and "the frame g is sent" in got[2] or got[2]))

    def test_signals(self):
        one, none = self.rows(signals=["f 0000 08 little x"]), self.rows()
        got = self.tried("""await addSignal(desk, frame("f"), {name: "x", start: 0, length: 8, order: "little"}); await undo(desk); await redo(desk);
            return sent.map(one => [one.do, one.signal]);""", [none, one, one, none, one])
        self.see("what is sent", [["add_signal", "x"], ["drop_signal", "x"], ["add_signal", "x"]], got)


class Grants(ModulesCase):
    """Grants are sent one by one, as they are shown, and taken back the other way round."""

    SCRIPT = """
        const sent = [], planOf = held => new Plan(given.cluster, held.map(([slot, channels]) => ({kind: "grant", slot, channels, node: "n1", supplier: "s1"})));
        let held = given.held;
        const register = {
            read: async () => held.map(([slot, channel]) => `GRANT 000${slot} ${channel} n1 s1\\n`).join(""),
            command: async ({do: word, slot, channel, supplier, node}) => {
                sent.push([word, slot, channel, supplier, node ?? ""]);
                if (sent.length === given.refused) throw new Refused({no: 22, refused: "InUse"});
                held = word === "grant" ? [...held, [slot, channel]] : held.filter(one => String(one) !== String([slot, channel]));
            },
        };
        const desk = new Desk();
        Object.assign(desk, {register, me: null, isIntegrator: true, cluster: given.cluster, variant: "v1", variants: [{name: "v1", isReleased: false}], plan: planOf(held),
            nodes: [{node: "n1", supplier: "s1"}], grantTo: 0});
        await send(desk, wantedOf(desk, given.lanes.map(([slot, channel]) => laneOf(slot, channel))).grants);
        const history = desk.history(), counts = () => [history.done.map(({changes}) => changes.length), history.undone.map(({changes}) => changes.length)];
        const first = counts();
        await undo(desk);
        const second = counts();
        await redo(desk);
        return {sent, counts: [first, second, counts()], held};"""

    def tried(self, **given):
        imports = {"desk": "Desk", "plan": "Plan, laneOf", "faults": "Refused", "granting": "send, wantedOf", "turning": "undo, redo"}
        return self.run_script(imports, self.SCRIPT, {"cluster": CLUSTER, "held": [], "refused": 0, **given})

    def test_to_and_fro(self):
        lanes = [[1, "A"], [1, "B"], [3, "B"]]
        got = self.tried(lanes=lanes)
        grants, revokes = [["grant", *lane, "s1", "n1"] for lane in lanes], [["revoke", *lane, "s1", ""] for lane in reversed(lanes)]
        self.see("what is sent", grants + revokes + grants, got["sent"])
        self.see("the history", [[[3], []], [[], [3]], [[3], []]], got["counts"])
        self.see("what is held", lanes, got["held"])

    def test_refused_midway(self):
        """Of three grants two are taken back before one is in use: these two are a step of their own, and done again."""
        lanes = [[1, "A"], [1, "B"], [3, "B"]]
        got = self.tried(lanes=lanes, refused=6)
        self.see("the history", [[[3], []], [[1], [2]], [[1, 2], []]], got["counts"])
        self.see("what is held", sorted(lanes), sorted(got["held"]))


class Wishes(ModulesCase):
    """Wishes as they are typed and pasted: their repetitions by gaps, and what was proposed in a sentence."""

    CLUSTER = {**CLUSTER, "macroticks_per_cycle": 5000, "cycles": 64}
    SCRIPT = """return given.texts.map(([text, microseconds]) => {
            const frame = {name: "f", supplier: "s1", node: "n7", placements: []}, times = new Times();
            times.microseconds = microseconds;
            const desk = {cluster: given.cluster, times, me: "s1", plan: {frameNamed: (_, name) => name === "f" ? frame : null}};
            const {wishes, fault} = wishesIn(text, desk);
            return [wishes.map(({frame, node, channels, repetition, fault}) => [frame, node, channels, repetition, fault]), fault];
        });"""

    def test_texts(self):
        def wish(*fields, fault=""):
            return [*fields, fault]

        cases = [
            ("frame,node,channels,repetition\nf,n1,A,64\n", 0, [wish("f", "n1", "A", 64)]),
            ("frame\tnode\tchannels\trepetition\r\ng\tn1\tA+B\t2\r\n\r\n", 0, [wish("g", "n1", "AB", 2)]),
            # A cycle is 5,000 macroticks; with 1 microsecond each it is 5 ms.
            ("Frame;Node;Channel;Cycle time (ms)\ng;n1;a;10\ng;n1;A;12.5\ng;n1;A;5\ng;n1;A;400\n", 1,
             [wish("g", "n1", "A", 2), wish("g", "n1", "A", 2), wish("g", "n1", "A", 1), wish("g", "n1", "A", 64)]),
            ("frame\tnode\tchannels\tgap\ng\tn1\tB\t40 ms\ng\tn1\tB\t20,000 macroticks\n".replace("20,000", "20000"), 1, [wish("g", "n1", "B", 8), wish("g", "n1", "B", 4)]),
            ("frame\tnode\tchannels\tgap\ng\tn1\tB\t3 cycles\ng\tn1\tB\t19999 MT\n", 0, [wish("g", "n1", "B", 2), wish("g", "n1", "B", 2)]),
            ("frame\tchannels\tgap macroticks\nf\tA\t5000\n", 0, [wish("f", "n7", "A", 1)]),
            ("frame\tnode\tchannels\tperiod ms\ng\tn1\tA\t2\n", 1, [wish("g", "n1", "A", None, fault="It is shorter than a cycle, so it needs 3 slots in each: ask for 3 placements of repetition 1.")]),
            ("frame\tnode\tchannels\tperiod ms\ng\tn1\tA\t2\n", 0, [wish("g", "n1", "A", None, fault="Choose milliseconds above, and say how long a macrotick is.")]),
            ("frame\tnode\tchannels\tgap\ng\tn1\tA\tsoon\ng\tn1\tA\t7\n", 0, [wish("g", "n1", "A", None, fault='"soon" is no gap.'), wish("g", "n1", "A", None, fault="7 has no unit: ms, macroticks or cycles.")]),
            ("frame,node,channels,repetition\ng,n1,A,often\n", 0, [wish("g", "n1", "A", None, fault='"often" is no repetition.')]),
        ]
        imports = {"wishes": "wishesIn", "times": "Times"}
        got = self.run_script(imports, self.SCRIPT, {"cluster": self.CLUSTER, "texts": [(text, microseconds) for text, microseconds, _ in cases]})
        for (what, _, wanted), (wishes, fault) in zip(cases, got):
            self.see(what, (wanted, ""), (wishes, fault))
        faulty = ["", "frame,node\nf,n1\n", "frame,node,slot,channels,base,repetition\nf,n1,1,A,0,1\n", "hello"]
        for text_, (wishes, fault) in zip(faulty, self.run_script(imports, self.SCRIPT, {"cluster": self.CLUSTER, "texts": [(one, 0) for one in faulty]})):
            self.see(f"{text_!r} is none", ([], True), (wishes, fault.startswith("The first line names the columns")))

    def test_answers(self):
        """The worked rows of proposals as they are answered."""
        script = """return given.map(lines => { try {
            const told = readProposal({lines}), plan = {frames: [{name: "a", supplier: "s1", placements: [{slot: 1, channels: "A", base: 7, repetition: 8}]}]};
            return [proposalText(told, plan, "s1", false), proposalText(told, plan, "s1", true), new TextDecoder().decode(placementsFile(told.rows)), lackMail(told.lacks, {variant: "v1", me: "s1"})];
        } catch (fault) { if (fault instanceof Strange) return null; throw fault; } });"""
        head = "frame,node,slot,channels,base,repetition\n"
        good = ["0002 00 a,n1,1,A,7,8", "0003 00 b,n1,1,A,1,4", "0004 00 f,n1,1,A,2,4"]
        cases = [
            (good, ["All 3 fit.", "All 3 fit. 1 stays where it is.", head + "a,n1,1,A,7,8\nb,n1,1,A,1,4\nf,n1,1,A,2,4\n"]),
            ([*good, "0005 32 NoRoom", "0006 32 NoRoom", "LACK n1 A 0001"], ["3 of 5 fit. Node n1 needs 1 slot more on A.", "3 of 5 fit. Node n1 needs 1 slot more on A. 1 stays where it is.",
                                                                            head + "a,n1,1,A,7,8\nb,n1,1,A,1,4\nf,n1,1,A,2,4\n"]),
            (["0002 00 h,n1,1,AB,0,2", "LACK n1 AB 0003"], ["It fits.", "It fits. 0 stay where they are.", head + "h,n1,1,AB,0,2\n"]),
            (["0002 20 NodeDiffers"], ["0 of 1 fit.", "0 of 1 fit. 0 stay where they are.", head]),
        ]
        got = self.run_script({"reports": "readProposal", "wishes": "proposalText, placementsFile, lackMail", "faults": "Strange"}, script, [lines for lines, _ in cases])
        for (lines, wanted), told in zip(cases, got):
            self.see(lines, wanted, told[:3])
        self.see("a mail", True, "- 1 slot, empty in all cycles, on A, for node n1" in got[1][3] and "for v1" in got[1][3])
        bad = [["0002 00 NoRoom"], ["0002 32 a,n1,1,A,7,8"], ["0002 31 NoRoom"], ["LACK n1 C 0001"], ["0002 00 a,n1,1,AC,7,8"], "x"]
        self.see("lines that no proposal has", [None] * len(bad), self.run_script({"reports": "readProposal", "wishes": "proposalText, placementsFile, lackMail", "faults": "Strange"}, script, bad))


class Bounds(ModulesCase):
    """Files that are no plan are told so at once, however they are made."""

    SECONDS = 20
    SCRIPT = """const said = [];
        for (const [name, text] of given) {
            const begun = performance.now(), file = await looked(name, Uint8Array.from(atob(text), letter => letter.charCodeAt(0)));
            said.push([file.kind, file.fault, file.records.length, (performance.now() - begun) / 1000]);
        }
        return said;"""

    def looked_at(self, files):
        given = [(name, base64.b64encode(content).decode()) for name, content in files]
        return self.run_script({"looking": "looked"}, self.SCRIPT, given)

    def packed(self, parts):
        out = io.BytesIO()
        with zipfile.ZipFile(out, "w", zipfile.ZIP_DEFLATED) as packed:
            for path, content in parts.items():
                packed.writestr(path, content)
        return out.getvalue()

    def excel(self, sheet):
        rels = '<Relationships><Relationship Id="r1" Target="worksheets/one.xml"/></Relationships>'
        named = '<workbook><sheets><sheet name="one" r:id="r1"/></sheets></workbook>'
        return self.packed({"xl/workbook.xml": named, "xl/_rels/workbook.xml.rels": rels, "xl/worksheets/one.xml": sheet})

    def test_files(self):
        row = '<row><c r="{}1" t="inlineStr"><is><t>x</t></is></c></row>'
        text = "<table:table-cell{}><text:p>x</text:p></table:table-cell>"
        open_sheet = "<table:table><table:table-row{}>{}</table:table-row></table:table>"
        columns, rows = ' table:number-columns-repeated="1000"', ' table:number-rows-repeated="4000000"'
        cases = [
            ("rows without an end", "a.xlsx", self.excel("<sheetData>" + "<row>" * 1_500_000), "an element of it has no end"),
            ("cells without an end", "a.xlsx", self.excel("<sheetData><row>" + "<c " * 2_000_000 + "</row>"), ""),
            ("a cell at ZZZ", "a.xlsx", self.excel(row.format("ZZZ") * 2000), "more than 256 columns"),
            ("65,536 columns", "a.xlsx", self.excel("<row>" + "<c><v>1</v></c>" * 65_536 + "</row>"), "more than 256 columns"),
            ("many rows", "a.xlsx", self.excel("<row><c><v>1</v></c></row>" * 30_000), "more than 20,000 rows"),
            ("a head without an end", "a.xlsx", self.excel("<row " + "a" * 3_000_000 + ">"), "an element of it has no end"),
            ("notes without an end", "a.xlsx", self.excel('<row><c t="inlineStr"><is>' + "<rPh>" * 500_000 + "</is></c></row>"), "an element of it has no end"),
            ("columns repeated", "a.ods", self.packed({"content.xml": open_sheet.format("", text.format(columns) * 500)}), "more than 256 columns"),
            ("rows repeated", "a.ods", self.packed({"content.xml": open_sheet.format(rows, text.format(""))}), "more than 20,000 rows"),
            ("a long field", "a.csv", b"frame,node\n" + b"f" * 3_900_000 + b",n1\n", "Row 2 has a field of 3,900,000 letters"),
            ("a long quoted field", "a.csv", b'frame,node\n"' + b'""' * 1_900_000 + b'",n1\n', "Row 2 has a field of 1,900,000 letters"),
            ("210,000 rows of a frame", "a.csv", b"frame,node\n" + b"f,n1\n" * 210_000, "It has 210,000 rows"),
            ("a row of many fields", "a.csv", b"frame,node\n" + b"," * 3_000_000 + b"\n", "Row 2 has 3,000,001 fields"),
        ]
        for (what, *_, wanted), (kind, fault, _, seconds) in zip(cases, self.looked_at([(name, content) for _, name, content, _ in cases])):
            self.see(f"{what}: it is told", True, (kind is None and fault != "" and wanted in fault) or fault)
            self.see(f"{what}: soon", True, seconds < self.SECONDS or seconds)

    def test_good_ones_are_read(self):
        sheet = ('<sheetData><row r="1"><c r="A1" t="inlineStr"><is><t>frame</t></is></c><c r="B1" t="inlineStr"><is><t>no<rPh sb="0"><t>gone</t></rPh>de</t></is></c></row>'
                 '<row/><row r="3"><c r="A3" t="inlineStr"><is><t>f1</t></is></c><c r="B3" t="inlineStr"><is><t>n1</t></is></c><c r="ZZZ3" s="1"/></row></sheetData>')
        (kind, fault, *_), = self.looked_at([("a.xlsx", self.excel(sheet.replace("no<rPh", "node</t><rPh").replace("</rPh>de</t>", "</rPh>")))])
        self.see("it is read", True, "Its sheet one has rows that the register reads" in fault or fault)
