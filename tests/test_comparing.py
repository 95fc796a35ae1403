"""Rows and differences of variants, and tries of files: as requests, by commands and over HTTP, and what is promised of them.

What is wanted was typed by hand from docs/FORMATS.md and docs/HTTP.md, is made by their rules, or comes from another register, naive.py; none of it is the
program's own output, but where its answers are compared with one another."""
import json
from collections import Counter
from itertools import product

from tests.drivers.connections import each_line
from tests.drivers.invocations import Invocation, InvocationCase, answered, difference
from tests.drivers.program import ran
from tests.drivers.registers import RegisterCase
from tests.drivers.server import sent
from tests.models import messages, naive
from tests.models.messages import CONTINUE, DONE, UNKNOWN, command, engine, head, post, put, text
from tests.models.messages import refused as refused_bytes
from tests.models.random_scripts import random_script
from tests.models.scripts import CLUSTER, IMPORT_BYTES, IMPORT_ROWS, LARGE, answers, done, refused, request, script, suppliers, told
from tests.runner.parameters import for_values

INTEGRATOR, KEY, OTHER = "integrator1", "supplier01", "supplier02"
IN_V1, IN_V2, SINCE_V1 = dict(variant="v1"), dict(variant="v2"), dict(variant="v2", **{"from": "v1"})
BAD_TEXT = refused(1, "BadText")
PLACEMENTS, SIGNALS = "frame,node,slot,channels,base,repetition", "frame,signal,start,length,order"

# v2 was opened from v1. There f of s1 is sent half as often, and f of s2 has a signal.
PLANNED = [
    done(INTEGRATOR, "open_variant", **IN_V1),
    *(done(INTEGRATOR, "add_node", supplier=supplier, node="n1") for supplier in ("s1", "s2")),
    done(INTEGRATOR, "grant", **IN_V1, slot=1, channel="A", supplier="s1", node="n1"),
    done(INTEGRATOR, "grant", **IN_V1, slot=2, channel="A", supplier="s2", node="n1"),
    *(done(KEY, "add_frame", **IN_V1, frame=frame, node="n1") for frame in "fg"),
    done(KEY, "place", **IN_V1, frame="f", slot=1, channels="A", base=0, repetition=2),
    done(KEY, "place", **IN_V1, frame="g", slot=1, channels="A", base=1, repetition=4),
    done(KEY, "add_signal", **IN_V1, frame="f", signal="x", start=0, length=8, order="little"),
    done(OTHER, "add_frame", **IN_V1, frame="f", node="n1"),
    done(OTHER, "place", **IN_V1, frame="f", slot=2, channels="A", base=0, repetition=64),
    done(INTEGRATOR, "release", **IN_V1),
    done(INTEGRATOR, "open_variant", **SINCE_V1),
    done(KEY, "unplace", **IN_V2, frame="f", slot=1, channels="A", base=0, repetition=2),
    done(KEY, "place", **IN_V2, frame="f", slot=1, channels="A", base=0, repetition=4),
    done(OTHER, "add_signal", **IN_V2, frame="f", signal="y", start=7, length=8, order="big"),
]
DIFFERENCES = {
    None: b"- AT f 0001 A 00 02 s1\n+ AT f 0001 A 00 04 s1\n+ SIGNAL f 0007 08 big y s2\n- GAP     200 f s1\n+ GAP     400 f s1\n",
    "s1": b"- AT f 0001 A 00 02\n+ AT f 0001 A 00 04\n- GAP     200 f\n+ GAP     400 f\n",
    "s2": b"+ SIGNAL f 0007 08 big y\n",
}
TURNED_ROUND = {
    None: b"+ AT f 0001 A 00 02 s1\n- AT f 0001 A 00 04 s1\n- SIGNAL f 0007 08 big y s2\n- GAP     400 f s1\n+ GAP     200 f s1\n",
    "s1": b"+ AT f 0001 A 00 02\n- AT f 0001 A 00 04\n- GAP     400 f\n+ GAP     200 f\n",
    "s2": b"- SIGNAL f 0007 08 big y\n",
}
ROWS = {
    None: b"""\
GRANT 0001 A n1 s1
GRANT 0002 A n1 s2
FRAME f n1 s1
FRAME g n1 s1
FRAME f n1 s2
AT f 0001 A 00 04 s1
AT g 0001 A 01 04 s1
AT f 0002 A 00 64 s2
SIGNAL f 0000 08 little x s1
SIGNAL f 0007 08 big y s2
GAP     400 f s1
GAP     400 g s1
GAP    6400 f s2
""",
    "s1": b"GRANT 0001 A n1\nFRAME f n1\nFRAME g n1\nAT f 0001 A 00 04\nAT g 0001 A 01 04\nSIGNAL f 0000 08 little x\nGAP     400 f\nGAP     400 g\n",
    "s2": b"GRANT 0002 A n1\nFRAME f n1\nAT f 0002 A 00 64\nSIGNAL f 0007 08 big y\nGAP    6400 f\n",
}
ROWS_BEFORE = ROWS["s1"].replace(b"AT f 0001 A 00 04", b"AT f 0001 A 00 02").replace(b"GAP     400 f", b"GAP     200 f")
# Files for v2, each with what becomes of its lines: as an import, and as a replacement.
MIXED = b"frame,node,slot,channels,base,repetition\nf,n1,1,A,2,4\nh,n1,1,A,1,2\nh,n1,2,A,0,1\nh,n1,1,A,3,4\nf,n1,1\n"
FATES = b"0002 00 done\n0003 25 CellTaken 01 A g\n0004 21 NotGranted\n0005 00 done\n0006 01 BadText\n"
AGAIN = b"frame,node,slot,channels,base,repetition\nf,n1,1,A,0,2\n"
AGAIN_FATES = b"0002 25 CellTaken 00 A f\n", b"0002 00 done\n"
SIGNALS_AGAIN = b"frame,signal,start,length,order\nf,z,4,4,little\nf,w,15,8,big\n"
SIGNALS_FATES = b"0002 27 BitTaken 0004 x\n0003 00 done\n", b"0002 00 done\n0003 00 done\n"
GOOD, GOOD_FATES = b"frame,node\nk,n1\nl,n1\n", b"0002 00 done\n0003 00 done\n"
FRAMES = b"FRAME f n1\nAT 0001 A 00 04\nFRAME g n1\nAT 0001 A 01 04\n"


def lines_of(report):
    return report.decode().splitlines()


# ---- requests whose text is none

WHOLE = {"rows": IN_V2, "diff": SINCE_V1, "try": dict(**IN_V2, body="frame,node\n", replace=True)}
WORDS = (
    "row", "Rows", "rows ", "all_rows", "diffs", "Diff", "DIFF", "diff ", "difference", "differences", "since", "tries", "Try", "TRY", "try ", "trial", "fates", "try_replace", "try_import", "",
)
TEXTS = None, 7, 7.5, True, False, [], ["v1"], {}, {"v1": "v1"}
NO_FLAGS = None, 0, 1, -1, 0.0, 1.0, "true", "false", "", "yes", [], [True], {}


def misformed():
    """Requests of which one field is missing, has another name, is one too many or is of another kind, and words that name no request."""
    for do, fields in WHOLE.items():
        for field in fields:
            if field != "replace":
                yield request(KEY, do, **{name: value for name, value in fields.items() if name != field})
            yield request(KEY, do, **{(name.capitalize() if name == field else name): value for name, value in fields.items()})
            for other in NO_FLAGS if field == "replace" else TEXTS:
                yield request(KEY, do, **{**fields, field: other})
        for more in "more", "label", "slot", "part", "frame", "to":
            yield request(KEY, do, **fields, **{more: 0})
        yield request(KEY, do)
    yield request(KEY, "diff", **SINCE_V1, replace=False)
    yield request(KEY, "diff", **SINCE_V1, body="")
    yield request(KEY, "try", **IN_V2, body="", **{"from": "v1"})
    for do in "import", "replace":
        yield request(KEY, do, **IN_V2, body="frame,node\n", replace=True, **({"label": "a"} if do == "import" else {}))
    for word in WORDS:
        yield request(KEY, word, **SINCE_V1)
        yield request(KEY, word, **IN_V2, body="")
    for form in "True", "FALSE", "tru", "truee", "'true'", "yes", "\u0074", "true false":
        yield f'{KEY} {{"do":"try","variant":"v2","body":"","replace":{form}}}'


class Misformed(InvocationCase):
    """Of a request each field of another kind is `BadText`, whoever asks, and so is a word that names none; nothing changes."""

    def test_fields(self):
        lines = list(misformed())
        others = [line.replace(KEY, who, 1) for who in ("nobody123", INTEGRATOR) for line in lines]
        shown = told(KEY, "frames", lines_of(FRAMES), **IN_V2)
        self.ends(answered("fields of another kind", CLUSTER, [*PLANNED, *((line, BAD_TEXT) for line in [*lines, *others]), shown]))

    def test_whole(self):
        """Without a fault each is answered, its fields in any order, and the last of a name counts; `replace` is false where it is left out."""
        before, behind = (lines_of(fates) for fates in AGAIN_FATES)
        file = dict(**IN_V2, body=AGAIN.decode())
        body = json.dumps(AGAIN.decode())
        pairs = [
            told(KEY, "rows", lines_of(ROWS["s1"]), **IN_V2),
            told(INTEGRATOR, "rows", lines_of(ROWS[None]), **IN_V2),
            told(KEY, "diff", lines_of(DIFFERENCES["s1"]), **SINCE_V1),
            told(KEY, "diff", lines_of(DIFFERENCES["s1"]), **dict(reversed(SINCE_V1.items()))),
            told(KEY, "try", before, **file),
            told(KEY, "try", before, **file, replace=False),
            told(KEY, "try", behind, **file, replace=True),
            told(KEY, "try", behind, replace=True, **dict(reversed(file.items()))),
            (f'{KEY} {{"replace":true,"variant":"v9","body":"","do":"try","body":{body},"replace":false,"variant":"v2"}}', told(KEY, "try", before)[1]),
            (f'{KEY} {{"replace":false, "variant" : "\\u0076\\u0032","body":{body},"do":"try","replace" :\t true }}', told(KEY, "try", behind)[1]),
            told(KEY, "frames", lines_of(FRAMES), **IN_V2),
        ]
        self.ends(answered("whole requests", CLUSTER, [*PLANNED, *pairs]))


# ---- refusals, in their order, and limits

BODIES = "", "frame,node\nx,n9\n", "x" * (IMPORT_BYTES + 1), "frame,node\n1f,n1\nk,n1\n", f"{SIGNALS}\nf,y,3,8,big\nf,x,4,8,little\n", AGAIN.decode(), MIXED.decode()


def combined():
    """Each request with each mixture of what refuses it, of the integrator, a supplier, another one, and nobody."""
    owners = INTEGRATOR, KEY, OTHER, "supplier03", "nobody123"
    variants = "1v", "v" * 33, "", "v9", "v1", "v2", "v3"
    for who, variant in product(owners, variants):
        yield request(who, "rows", variant=variant)
    for who, variant, other in product(owners, variants, variants):
        yield request(who, "diff", variant=variant, **{"from": other})
    for who, variant, body in product(owners, variants, BODIES):
        for replaces in {}, {"replace": False}, {"replace": True}:
            yield request(who, "try", variant=variant, body=body, **replaces)
    yield request(INTEGRATOR, "diff", **SINCE_V1)


class BesideAnotherRegister(InvocationCase):
    """Differences and tries are answered as by another register, naive.py: where several refusals apply, at the limits, and where a file is cut."""

    seconds = 20

    def asked(self, name, cluster, lines):
        given = script(cluster, [(line, None) for line in lines])
        self.ends(Invocation(name, given, naive.answers(given)))

    def test_combined(self):
        lines = [line for line, _ in PLANNED] + [request(INTEGRATOR, "open_variant", variant="v3"), *combined()]
        self.asked("refusals in their order", {**CLUSTER, "suppliers": suppliers(3)}, lines)

    def test_rows_and_bytes(self):
        """As many rows and bytes as a file may have, and one more, whatever they hold."""
        lines = [line for line, _ in PLANNED]
        rows = [f"k{n % 300},n1" for n in range(IMPORT_ROWS + 2)]
        bodies = ["\n".join([header, *(row or rows[n] for n, row in enumerate([filler] * count))]) for header, filler, count in (
            ("frame,node", "", IMPORT_ROWS), ("frame,node", "", IMPORT_ROWS + 1), ("frame,node", "", IMPORT_ROWS + 2), ("frame,node", "x", IMPORT_ROWS + 2),
            (PLACEMENTS, "f,n1,1,A,2,4", IMPORT_ROWS + 1), (SIGNALS, "f,z,8,1,big", IMPORT_ROWS + 1), (PLACEMENTS, "h,n1,2,A,0,1", IMPORT_ROWS),
        )]
        for longest in "frame,node".ljust(IMPORT_BYTES, "\n"), "\u00e4" * (IMPORT_BYTES // 2):
            bodies += [longest, longest + "\n"]
        for body, replaces in product(bodies, (False, True)):
            lines.append(request(KEY, "try", **IN_V2, body=body, replace=replaces))
        self.asked("rows and bytes", CLUSTER, [*lines, request(KEY, "frames", **IN_V2)])

    def test_limits_of_rows(self):
        """A row that is refused takes no frame's place: of 256 frames, of eight placements and of 64 signals of a frame."""
        lines = [line for line, _ in PLANNED] + [request(INTEGRATOR, "grant", **IN_V2, slot=slot, channel="B", supplier="s1", node="n1") for slot in (1, 2)]
        eight = [f"f,n1,1,B,{base},16" for base in range(8)]
        frames = [f"k{n},n1" for n in range(254)]
        for kind, rows in (
            ("frame,node", [*frames, "more,n1", "f,n1"]),
            ("frame,node", [*frames[:253], "more,n9", "1f,n1", "last,n1", "more,n1"]),
            (PLACEMENTS, [f"{frame},1,B,{n % 64},64" for n, frame in enumerate(frames[:64])] + [f"more{n},n1,3,B,0,1" for n in range(200)] + ["last,n1,2,B,0,64"]),
            (PLACEMENTS, [*eight, "f,n1,1,B,8,16", "f,n1,2,B,0,64", "g,n1,2,B,0,64"]),
            (PLACEMENTS, [*eight[:4], "f,n1,1,A,0,1", "f,n1,3,B,0,1", *eight[4:], "f,n1,1,B,8,16"]),
            (SIGNALS, [f"f,z{n},{n + 16},1,little" for n in range(70)]),
            (SIGNALS, [f"g,z{n},{n // 2},1,little" for n in range(140)]),
        ):
            for replaces in False, True:
                lines.append(request(KEY, "try", **IN_V2, body="\n".join([kind, *rows]), replace=replaces))
        self.asked("limits of rows", {**CLUSTER, "payload_words": "127"}, [*lines, request(KEY, "export_placements", **IN_V2, part=0)])

    @for_values(
        '\ufeff"frame","node"\r\nf,n1\r\n"k",n1\r\n\r\nk,"n1"',
        '\ufeffframe,node,slot,channels,base,repetition\r\nf,n1,1,"A",2,4\r"g",n1,0001,A,1,2\n\nk,n1,1,A,3,64\nf,n1,1,A,0,32\n',
        'frame,"signal",start,length,order\nf,y,4,10,little\r\n"f",x,0,4,little\rg,"x",0,8,little\n',
    )
    def test_cut_at_each_byte(self, whole):
        """A file that is cut anywhere is another file."""
        lines = [line for line, _ in PLANNED]
        lines += [request(KEY, "try", **IN_V2, body=whole[:end], replace=replaces) for end in range(len(whole) + 1) for replaces in (False, True)]
        self.asked("a file that is cut", {**LARGE, "suppliers": suppliers(2)}, [*lines, request(KEY, "frames", **IN_V2)])

    def test_parents(self):
        """Of variants that were opened one from another, each a little different, and of one that was opened empty, any two."""
        lines, variants = [line for line, _ in PLANNED], ["v1", "v2", "v3", "v4", "v5"]
        lines += [request(INTEGRATOR, "release", **IN_V2), request(INTEGRATOR, "open_variant", variant="v3", **{"from": "v2"})]
        lines += [request(KEY, "drop_frame", variant="v3", frame="g"), request(OTHER, "drop_frame", variant="v3", frame="f")]
        lines += [request(INTEGRATOR, "release", variant="v3"), request(INTEGRATOR, "open_variant", variant="v4", **{"from": "v3"})]
        lines.append(request(KEY, "add_frame", variant="v4", frame="g", node="n1"))
        lines.append(request(KEY, "place", variant="v4", frame="g", slot=1, channels="A", base=1, repetition=4))
        lines += [request(INTEGRATOR, "revoke", variant="v4", slot=2, channel="A", supplier="s2"), request(INTEGRATOR, "open_variant", variant="v5")]
        lines += [request(who, "rows", variant=variant) for who, variant in product((INTEGRATOR, KEY, OTHER), variants)]
        lines += [request(who, "diff", variant=new, **{"from": old}) for who in (INTEGRATOR, KEY, OTHER) for new, old in product(variants, variants)]
        self.asked("any two variants", CLUSTER, lines)


# ---- what is promised


def run_on(case, lines, cluster):
    """What each of these lines is answered, by the program and by naive.py."""
    given = cluster + b"---\n" + b"".join(line + b"\n" for line in lines)
    status, written, said = ran(["run"], case.folder, given)
    case.see("how it ends", (0, b"", len(lines)), (status, said, written.count(b"\n")))
    case.see("how another register answers otherwise", [], difference("answers", naive.answers(given), written))
    return [json.loads(answer) for answer in written.splitlines()]


def fields_of(line):
    return json.loads(line.partition(b" ")[2])


def line_of(key, do, **fields):
    return request(key.decode(), do, **fields).encode()


# Those of the integrator and the three suppliers of a mixture.
KEYS = [b"integrator1", *(b"keyfors%d" % n for n in range(3))]


def diff_of(key, old, new):
    return line_of(key, "diff", variant=new, **{"from": old})


class Differences(InvocationCase):
    """Rows are what the other reports tell of a variant. A difference is just what the rows of two variants tell apart. Turned round it has the other signs. It is empty right after one was opened from the
    other, and stays as it is where both are released."""

    seconds = 20

    def seen(self, grants, frames, signals, gaps):
        """The rows that these reports tell."""
        rows, placed, frame, end = [], [], "", ""
        for line in frames:
            if line.startswith("AT "):
                placed.append(f"AT {frame} {line[3:]}{end}")
            else:
                rows.append(line)
                _, frame, _, *end = line.split()
                end = "".join(f" {supplier}" for supplier in end)
        records = (record.split(",") for record in signals)
        signals = [" ".join(["SIGNAL", frame, f"{int(start):04}", f"{int(length):02}", order, signal, *end]) for frame, signal, start, length, order, *end in records]
        return [*(f"GRANT {line}" for line in grants), *rows, *placed, *signals, *gaps]

    def reports(self, key, variant):
        for report in "grants", "frames":
            yield line_of(key, report, variant=variant)
        for part in range(6):
            yield line_of(key, "export_signals", variant=variant, part=part)
        yield line_of(key, "gaps", variant=variant)
        yield line_of(key, "rows", variant=variant)

    def with_differences(self, plain):
        """These lines, and behind them differences: of a variant that was just opened, and of one that was just released, from its parent."""
        lines, opened, released, parents = [], {}, {}, {}
        for line in plain:
            lines.append(line)
            asked = fields_of(line)
            variant = asked.get("variant")
            if asked["do"] == "open_variant":
                parents[variant] = asked.get("from")
            if asked["do"] not in ("open_variant", "release") or not parents.get(variant):
                continue
            for key, (old, new) in product(KEYS, ((parents[variant], variant), (variant, parents[variant]))):
                (opened if asked["do"] == "open_variant" else released)[len(lines)] = key, old, new
                lines.append(diff_of(key, old, new))
        return lines, opened, released, list(parents)

    def tried(self, seed):
        cluster, _, requests = random_script("comparing", 700, 3, seed).partition(b"---\n")
        lines, opened, released, variants = self.with_differences(requests.splitlines())
        variants = variants[:2] + variants[-6:]
        asks = [line for key in KEYS for variant in variants for line in self.reports(key, variant)]
        pairs = list(product(KEYS, variants, variants))
        answers = run_on(self, [*lines, *asks, *(diff_of(*it) for it in [*pairs, *released.values()])], cluster)
        self.see("variants were opened from others, and some of them released", (True, True), (len(opened) > 20, len(released) > 8))
        for at in opened:
            self.see(f"{lines[at]!r} right after it was opened", {"lines": [], "ok": "diff"}, answers[at])
        told = iter(answers[len(lines):])
        seen = {}
        for key, variant in product(KEYS, variants):
            grants, frames, *signals, gaps, rows = [next(told)["lines"] for _ in self.reports(key, variant)]
            self.see(f"{key.decode()}: rows of {variant}", self.seen(grants, frames, [record for part in signals for record in part[1:]], gaps), rows)
            seen[key, variant] = rows
        found = {it: next(told)["lines"] for it in pairs}
        self.see("some differ", True, sum(map(bool, found.values())) > len(found) // 3)
        for (key, old, new), rows in found.items():
            self.compared(f"{key.decode()}: {old} to {new}", seen[key, old], seen[key, new], rows)
            signs = {"-": "+", "+": "-"}
            self.see(f"{key.decode()}: {new} to {old}", sorted(rows), sorted(signs[row[0]] + row[1:] for row in found[key, new, old]))
        for at in released:
            self.see(f"{lines[at]!r} right after it was released, and later", answers[at], next(told))
        self.see("all answers are read", None, next(told, None))

    def compared(self, what, old, new, rows):
        gone, come = ([row[2:] for row in rows if row.startswith(sign)] for sign in ("- ", "+ "))
        self.see(f"{what}: signs", len(rows), len(gone) + len(come))
        self.see(f"{what}: rows that are gone, in order", [row for row in old if row not in set(new)], gone)
        self.see(f"{what}: rows that are new, in order", [row for row in new if row not in set(old)], come)
        self.see(f"{what}: rows that are both", set(), set(gone) & set(come))
        left = Counter(old) - Counter(gone) + Counter(come)
        self.see(f"{what}: what is had without the ones and with the others", sorted(new), sorted(left.elements()))
        kinds = ["GRANT", "FRAME", "AT", "SIGNAL", "GAP"]
        order = [kinds.index(row.split()[1]) for row in rows]
        self.see(f"{what}: kinds in order", sorted(order), order)

    @for_values(1, 2, 3)
    def test_mixture(self, seed):
        self.tried(seed)


def refusal_of(fate):
    """The refusal that the fate of a line tells."""
    _, number, name, *where = fate.split()
    more = {}
    if name == "CellTaken":
        more = {"cycle": int(where[0]), "channel": where[1], "frame": where[2]}
    if name == "BitTaken":
        more = {"bit": int(where[0]), "signal": where[1]}
    return {"no": int(number), "refused": name, **more}


def told_by(fates, word):
    """What a file is answered of which this became, as its word says: imported or replaced."""
    for fate in fates:
        if not fate.endswith(" 00 done"):
            return {"line": int(fate[:4]), "no": 29, "refused": "BadRow", "row": refusal_of(fate)}
    return {"ok": word, "rows": len(fates)}


class Tries(InvocationCase):
    """A file is answered as the try before it tells, by the first line that is not `done`; and no other answer changes where each file is tried first."""

    seconds = 20

    def tried(self, given):
        cluster, _, requests = given.partition(b"---\n")
        plain, lines, tries = requests.splitlines(), [], {}
        for line in plain:
            try:
                asked = fields_of(line)
            except ValueError:
                asked = {}
            if asked.get("do") in ("import", "replace"):
                tries[len(lines) + 1] = len(lines)
                whole = {"whole": asked["whole"]} if "whole" in asked else {}
                lines.append(line_of(line.partition(b" ")[0], "try", variant=asked["variant"], body=asked["body"], replace=asked["do"] == "replace", **whole))
            lines.append(line)
        before, behind = run_on(self, plain, cluster), run_on(self, lines, cluster)
        self.see("answers beside tries", before, [answer for at, answer in enumerate(behind) if at not in tries.values()])
        kept, compared = set(), Counter()
        for at, of_try in tries.items():
            asked, key, answer, fates = fields_of(lines[at]), lines[at].partition(b" ")[0], behind[at], behind[of_try]
            if (key, asked.get("label")) in kept:
                continue
            if answer.get("ok") == "imported":
                kept.add((key, asked["label"]))
            word = {"import": "imported", "replace": "replaced"}[asked["do"]]
            self.see(f"{lines[at][:200]!r}", told_by(fates["lines"], word) if "lines" in fates else fates, answer)
            compared[answer.get("ok", "refused")] += 1
        self.see("files were carried out, and others refused", True, min(compared["refused"], compared["imported"] + compared["replaced"]) > 15)

    @for_values("imports", "all", "revising", "comparing")
    def test_mixture(self, mix):
        self.tried(random_script(mix, 1500, 4, seed=9))


# ---- over files: commands and a server


class ComparingCase(RegisterCase):
    """A test over a register in which these were asked."""

    def setUp(self):
        super().setUp()
        self.create()
        self.ask("".join(f"{line}\n" for line, _ in PLANNED).encode(), answers(PLANNED))

    def stays(self, before):
        self.see("the file", before, (self.folder / "car.db").read_bytes())
        self.tell(["frames", "car.db", "v2", "--supplier", "s1"], FRAMES)


class Commands(ComparingCase):
    """`rows`, `diff` and `try` print what the requests answer, and change nothing; `try` ends with status 1 where a line is not `done`."""

    def test_rows(self):
        before = (self.folder / "car.db").read_bytes()
        for supplier in None, "s1", "s2":
            of = [] if supplier is None else ["--supplier", supplier]
            self.tell(["rows", "car.db", "v2", *of], ROWS[supplier])
            self.tell(["rows", *of, "car.db", "v2"], ROWS[supplier])
        self.tell(["rows", "car.db", "v1", "--supplier", "s1"], ROWS_BEFORE)
        self.turned_down(["rows", "car.db", "v9"], refused_bytes(10, "NoVariant"))
        for variant in "1v", "", "v 1":
            self.turned_down(["rows", "car.db", variant, "--supplier", "s1"], refused_bytes(4, "BadName"))
        for supplier in "s3", "S1", "no name", "":
            self.turned_down(["rows", "car.db", "1v", "--supplier", supplier], refused_bytes(14, "NoSupplier"))
        self.fault(["rows", "none.db", "v2"], "NotARegister")
        self.stays(before)

    def test_diff(self):
        before = (self.folder / "car.db").read_bytes()
        for supplier in None, "s1", "s2":
            of = [] if supplier is None else ["--supplier", supplier]
            self.tell(["diff", "car.db", "v1", "v2", *of], DIFFERENCES[supplier])
            self.tell(["diff", *of, "car.db", "v2", "v1"], TURNED_ROUND[supplier])
            for variant in "v1", "v2":
                self.tell(["diff", "car.db", variant, variant, *of], b"")
        self.stays(before)

    def test_diff_refused(self):
        for both in ["v1", "v9"], ["v9", "v1"], ["v9", "v9"]:
            self.turned_down(["diff", "car.db", *both], refused_bytes(10, "NoVariant"))
        for both in ["v1", "1v"], ["1v", "v2"], ["v9", ""], ["v 1", "v9"]:
            self.turned_down(["diff", "car.db", *both, "--supplier", "s1"], refused_bytes(4, "BadName"))
        for supplier in "s3", "S1", "no name", "":
            self.turned_down(["diff", "car.db", "v1", "1v", "--supplier", supplier], refused_bytes(14, "NoSupplier"))
        self.fault(["diff", "none.db", "v1", "v2"], "NotARegister")

    def tries(self, words, status, fates):
        self.tell(["try", "car.db", *words], fates, status=status)

    def test_try(self):
        before = (self.folder / "car.db").read_bytes()
        files = {"mixed": MIXED, "again": AGAIN, "signals": SIGNALS_AGAIN, "good": GOOD, "empty": b"", "header": b"frame,node\n"}
        for name, data in files.items():
            (self.folder / f"{name}.csv").write_bytes(data)
        for more in [], ["--replace"]:
            self.tries([KEY, "v2", "mixed.csv", *more], 1, FATES)
            self.tries([KEY, "v2", "good.csv", *more], 0, GOOD_FATES)
            self.tries([KEY, "v2", "empty.csv", *more], 1, b"0001 01 BadText\n")
            self.tries([KEY, "v2", "header.csv", *more], 0, b"")
            self.tries([OTHER, "v2", "good.csv", *more], 0, GOOD_FATES)
        self.tries([KEY, "v2", "again.csv"], 1, AGAIN_FATES[0])
        self.tries(["--replace", KEY, "v2", "again.csv"], 0, AGAIN_FATES[1])
        self.tries([KEY, "v2", "signals.csv"], 1, SIGNALS_FATES[0])
        self.tries([KEY, "v2", "signals.csv", "--replace"], 0, SIGNALS_FATES[1])
        self.tell(["try", "car.db", "-", "v2", "again.csv"], AGAIN_FATES[0], status=1, given=b"supplier01\nmore\n")
        self.tell(["try", "car.db", "-", "v2", "again.csv", "--replace"], AGAIN_FATES[1], given=b"supplier01")
        self.see("no import is kept", [], self.rows("SELECT * FROM imports"))
        self.stays(before)
        self.sound()

    def test_try_refused(self):
        longest = GOOD + b"\n" * (IMPORT_BYTES - len(GOOD))
        for name, data in ("good.csv", GOOD), ("longest.csv", longest), ("long.csv", longest + b"\n"), ("latin.csv", b"frame,node\n\xff,n1\nk,n1\n"):
            (self.folder / name).write_bytes(data)
        for more in [], ["--replace"]:
            for words, refusal in (
                (["nobody123", "v2", "good.csv"], (2, "UnknownKey")),
                ([INTEGRATOR, "v2", "good.csv"], (3, "NotYours")), ([INTEGRATOR, "1v", "good.csv"], (3, "NotYours")),
                ([KEY, "1v", "good.csv"], (4, "BadName")), ([KEY, "v9", "long.csv"], (10, "NoVariant")), ([KEY, "v1", "long.csv"], (11, "Released")),
                ([KEY, "v2", "long.csv"], (23, "Limit")),
            ):
                self.turned_down(["try", "car.db", *words, *more], refused_bytes(*refusal))
            self.tries([KEY, "v2", "longest.csv", *more], 0, GOOD_FATES)
            self.tries([KEY, "v2", "latin.csv", *more], 1, b"0002 01 BadText\n0003 00 done\n")
            self.fault(["try", "car.db", KEY, "v2", "none.csv", *more], "CannotOpen")
            self.fault(["try", "car.db", KEY, "v2", ".", *more], "CannotOpen")
            self.fault(["try", "none.db", KEY, "v2", "good.csv", *more], "NotARegister")

    def test_words_that_name_no_job(self):
        (self.folder / "good.csv").write_bytes(GOOD)
        for words in (
            ["rows"], ["rows", "car.db"], ["rows", "car.db", "v2", "f"], ["rows", "car.db", "v2", "--supplier"], ["rows", "car.db", "v2", "--part", "0"],
            ["diff"], ["diff", "car.db"], ["diff", "car.db", "v1"], ["diff", "car.db", "v1", "v2", "v3"], ["diff", "car.db", "v1", "v2", "--replace"],
            ["diff", "car.db", "v1", "v2", "--supplier"],
            ["try"], ["try", "car.db", KEY, "v2"], ["try", "car.db", KEY, "v2", "week47", "good.csv"], ["try", "car.db", KEY, "v2", "good.csv", "--supplier", "s1"],
            ["try", "car.db", KEY, "v2", "good.csv", "--replace", "true"], ["try", "car.db", KEY, "v2", "good.csv", "--replace=true"],
        ):
            status, written, said = ran(words, self.folder)
            self.see(f"slotplan {' '.join(words)}", (2, b"", True), (status, written, said.startswith(b"error: ")))

    def test_full_output(self):
        (self.folder / "good.csv").write_bytes(GOOD)
        (self.folder / "mixed.csv").write_bytes(MIXED)
        for words in "rows car.db v2", "diff car.db v1 v2", f"try car.db {KEY} v2 good.csv", f"try car.db {KEY} v2 mixed.csv --replace":
            status, _, said = self.shell(f'"$1" {words} > /dev/full')
            self.see(f"{words}, and output that is full", (1, b"slotplan: WriteFailed\n"), (status, said))


OWNERS = {None: INTEGRATOR, "s1": KEY, "s2": OTHER}
SINCE, TRIES = "/v1/variants/v2/since/v1", "/v1/variants/v2/tries"
METHODS = post, put  # of an import, and of a replacement


def json_refused(number, name, status):
    return messages.json(refused_bytes(number, name), status)


NO_VARIANT, BAD_NAME = json_refused(10, "NoVariant", "404 Not Found"), json_refused(4, "BadName", "422 Unprocessable Entity")


def rows_over_http():
    """What each sees, and what is no such request."""
    path = "/v1/variants/v2/rows"
    for supplier, key in OWNERS.items():
        yield head("GET", path, key), text(ROWS[supplier])
        yield command(key, b'{"do":"rows","variant":"v2"}'), messages.lines("rows", ROWS[supplier])
    yield head("GET", "/v1/variants/v1/rows", KEY), text(ROWS_BEFORE)
    yield head("GET", path + "?x=1", KEY), text(ROWS["s1"])
    yield head("GET", path, KEY, "Content-Length: 9"), text(ROWS["s1"])
    yield head("GET", "/v1/variants/v9/rows", KEY), NO_VARIANT
    for path in "1v", "v%32", "v" + "1" * 32:
        yield head("GET", f"/v1/variants/{path}/rows", INTEGRATOR), BAD_NAME
    yield head("GET", "/v1/variants/v2/rows"), UNKNOWN
    yield head("GET", "/v1/variants/1v/rows", "nobody123"), UNKNOWN
    for path in "v2/rows/", "v2/rows/all", "v2/rows/v1", "v2/Rows", "v2/row", "/rows":
        yield head("GET", f"/v1/variants/{path}", KEY), engine("404 Not Found")
    yield head("GET", "/v1/rows", KEY), engine("404 Not Found")
    for method in "POST", "DELETE", "HEAD", "get":
        yield head(method, "/v1/variants/v2/rows", KEY), engine("405 Method Not Allowed", "allow: GET, PUT")


def differences_over_http():
    """What differs to each, and what is no such request."""
    for supplier, key in OWNERS.items():
        yield head("GET", SINCE, key), text(DIFFERENCES[supplier])
        yield head("GET", "/v1/variants/v1/since/v2", key), text(TURNED_ROUND[supplier])
        yield head("GET", "/v1/variants/v2/since/v2", key), text(b"")
    yield head("GET", SINCE + "?x=1", KEY), text(DIFFERENCES["s1"])
    for path in "v9/since/v1", "v2/since/v9", "v9/since/v9":
        yield head("GET", f"/v1/variants/{path}", KEY), NO_VARIANT
    for path in "1v/since/v1", "v2/since/1v", "v9/since/1v", "v2/since/v%31", "v2/since/v" + "1" * 32:
        yield head("GET", f"/v1/variants/{path}", INTEGRATOR), BAD_NAME
    yield head("GET", SINCE), UNKNOWN
    yield head("GET", "/v1/variants/v2/since/1v", "nobody123"), UNKNOWN
    for path in "v2/since", "v2/since/", "v2/since/v1/", "v2/since/v1/v2", "/since/v1", "v2/Since/v1", "v2/diff/v1":
        yield head("GET", f"/v1/variants/{path}", KEY), engine("404 Not Found")
    for method in "POST", "PUT", "DELETE", "HEAD", "get":
        yield head(method, SINCE, KEY), engine("405 Method Not Allowed", "allow: GET")
    yield command(KEY, b'{"do":"diff","variant":"v2","from":"v1"}'), messages.lines("diff", DIFFERENCES["s1"])
    yield command(KEY, b'{"do":"diff","variant":"v2"}'), json_refused(1, "BadText", "400 Bad Request")


def fates_of(lines):
    """The answer to a try, in JSON."""
    return messages.lines("try", lines)


def tries_over_http():
    """Files that are tried, and what is no such request. The variant's rows stay."""
    frames = head("GET", "/v1/variants/v2/frames", KEY), text(FRAMES)
    for at, send in enumerate(METHODS):
        yield send(TRIES, KEY, MIXED), fates_of(FATES)
        yield send(TRIES, KEY, AGAIN), fates_of(AGAIN_FATES[at])
        yield send(TRIES, KEY, SIGNALS_AGAIN), fates_of(SIGNALS_FATES[at])
        yield send(TRIES, KEY, GOOD), fates_of(GOOD_FATES)
        yield send(TRIES, KEY, AGAIN, "Expect: 100-continue"), CONTINUE + fates_of(AGAIN_FATES[at])
        yield send(TRIES + "?replace=true", KEY, AGAIN), fates_of(AGAIN_FATES[at])
        yield send(TRIES, KEY, b""), fates_of(b"0001 01 BadText\n")
        yield send(TRIES, KEY, b"frame,node\n"), fates_of(b"")
        yield send(TRIES, KEY, b"frame,node\n\xff,n1\nk,n1\n"), fates_of(b"0002 01 BadText\n0003 00 done\n")
        yield send(TRIES, KEY, GOOD + b"\n" * (IMPORT_BYTES - len(GOOD))), fates_of(GOOD_FATES)
        yield frames
        yield send(TRIES, INTEGRATOR, GOOD), json_refused(3, "NotYours", "403 Forbidden")
        yield send(TRIES, "nobody123", GOOD), UNKNOWN
        yield send(TRIES, None, GOOD), UNKNOWN
        yield send("/v1/variants/1v/tries", KEY, GOOD), BAD_NAME
        yield send("/v1/variants/v9/tries", KEY, GOOD), NO_VARIANT
        yield send("/v1/variants/v1/tries", KEY, GOOD), json_refused(11, "Released", "409 Conflict")
        method = ("POST", "PUT")[at]
        yield head(method, TRIES, KEY), engine("411 Length Required")
        yield head(method, TRIES, KEY, "Content-Length: 65537") + b"x" * 65_537, engine("413 Payload Too Large")
        for length in "1a", "", "-1", "+1":
            yield head(method, TRIES, KEY, f"Content-Length: {length}"), engine("400 Bad Request")
        yield head(method, TRIES, KEY, "Content-Length: 1", "Content-Length: 1"), engine("400 Bad Request")
        yield head(method, TRIES, KEY, "Transfer-Encoding: chunked"), engine("501 Not Implemented")
        for path in TRIES + "/", TRIES + "/week47", "/v1/variants/v2/try", "/v1/tries":
            yield send(path, KEY, GOOD), engine("404 Not Found")
    for method in "GET", "DELETE", "HEAD", "PATCH", "put", "post":
        yield head(method, TRIES, KEY), engine("405 Method Not Allowed", "allow: POST, PUT")
    for replaces, fates in (b"", AGAIN_FATES[0]), (b',"replace":false', AGAIN_FATES[0]), (b',"replace":true', AGAIN_FATES[1]):
        body = json.dumps(AGAIN.decode()).encode()
        yield command(KEY, b'{"do":"try","variant":"v2","body":%s%s}' % (body, replaces)), fates_of(fates)
    yield command(KEY, b'{"do":"try","variant":"v2","body":"","replace":"true"}'), json_refused(1, "BadText", "400 Bad Request")
    yield frames


class OverHttp(ComparingCase):
    """A server gives rows and differences as text, and fates in JSON, and changes nothing."""

    def test_rows(self):
        self.in_turn("car.db", list(rows_over_http()))

    def test_differences(self):
        self.in_turn("car.db", list(differences_over_http()))

    def test_tries(self):
        before = self.rows("SELECT * FROM frames"), self.rows("SELECT * FROM placements"), self.rows("SELECT * FROM signals")
        self.in_turn("car.db", list(tries_over_http()))
        self.see("no import is kept", [], self.rows("SELECT * FROM imports"))
        self.see("the rows", before, (self.rows("SELECT * FROM frames"), self.rows("SELECT * FROM placements"), self.rows("SELECT * FROM signals")))
        self.sound()

    def test_cut(self):
        """A file whose connection ends early is not tried, and the next one is."""
        whole = put(TRIES, KEY, AGAIN)
        with self.served("--count", str(len(whole) + 1)) as (server, port):
            for cut in range(len(whole)):
                self.see(f"a file cut behind {cut} bytes", b"", sent(port, whole[:cut], end=True))
            self.see("the next one is tried", fates_of(AGAIN_FATES[1]), sent(port, whole))
            self.ends(server)
            self.see("each cut is said", b"slotplan: Truncated\n" * len(whole), each_line(server.stderr.read()))

    def test_then_carried_out(self):
        """What was tried is carried out as it was told."""
        self.in_turn("car.db", [
            (put(TRIES, KEY, AGAIN), fates_of(AGAIN_FATES[1])),
            (put("/v1/variants/v2/rows", KEY, AGAIN), messages.json(b'{"ok":"replaced","rows":1}')),
            (head("GET", SINCE, KEY), text(b"")),
            (head("GET", SINCE, INTEGRATOR), text(b"+ SIGNAL f 0007 08 big y s2\n")),
            (post(TRIES, KEY, GOOD), fates_of(GOOD_FATES)),
            (post("/v1/variants/v2/imports/week47", KEY, GOOD), messages.json(b'{"ok":"imported","rows":2}')),
            (post(TRIES, KEY, GOOD), fates_of(b"0002 19 Exists\n0003 19 Exists\n")),
            (put(TRIES, KEY, GOOD), fates_of(GOOD_FATES)),
            (head("GET", SINCE, KEY), text(b"+ FRAME k n1\n+ FRAME l n1\n+ GAP   never k\n+ GAP   never l\n")),
            (command(INTEGRATOR, b'{"do":"release","variant":"v2"}'), messages.json(DONE)),
            (post(TRIES, KEY, GOOD), json_refused(11, "Released", "409 Conflict")),
            (head("GET", SINCE, KEY), text(b"+ FRAME k n1\n+ FRAME l n1\n+ GAP   never k\n+ GAP   never l\n")),
        ])
