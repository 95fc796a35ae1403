"""The rows of a variant as files: exported in parts, sent back, brought to another register, and cut short.

What is wanted was typed by hand from docs/FORMATS.md, is made by its rules, or comes from another register, naive.py; none of it is the program's own
output, but where what it exports is given back to it."""
import tomllib
from itertools import product

from tests import TOP
from tests.drivers.invocations import Invocation, InvocationCase
from tests.drivers.program import ran
from tests.drivers.registers import RegisterCase
from tests.models import naive
from tests.models.random_scripts import random_script
from tests.models.scripts import LARGE, answers, done, imported, request, script, suppliers, told
from tests.runner.parameters import for_values

ROWS, LAST = 512, 4_294_967_295
IN_V1 = dict(variant="v1")
HEADERS = {
    "frames": "frame,node",
    "placements": "frame,node,slot,channels,base,repetition",
    "signals": "frame,signal,start,length,order",
}


def replaced(rows):
    return f'{{"ok":"replaced","rows":{rows}}}'


def file_of(kind, records):
    return "".join(f"{line}\n" for line in [HEADERS[kind], *records])


# ---- parts


# Three suppliers fill a variant with frames. A frame of each has a slot of its own, in which it is sent from none to eight times in eight cycles, and from
# none to 64 signals of a bit; so 512 records end within a frame.
FRAMES = range(256)
NAMES = [f"f{n:03}" for n in FRAMES]
PLACEMENTS = [5 * n % 9 for n in FRAMES]
SIGNALS = [11 * n % 65 for n in FRAMES]
LANES = {"s1": (1, "A"), "s2": (1, "B"), "s3": (257, "A")}


def key_of(supplier):
    return f"supplier0{supplier[1:]}"


def records_of(kind, supplier):
    """For each frame its records."""
    first, channel = LANES[supplier]
    for n in FRAMES:
        if kind == "frames":
            yield [f"{NAMES[n]},n1"]
        elif kind == "placements":
            yield [f"{NAMES[n]},n1,{first + n},{channel},{base},8" for base in range(PLACEMENTS[n])]
        else:
            yield [f"{NAMES[n]},x{start},{start},1,{('little', 'big')[n % 2]}" for start in range(SIGNALS[n])]


def parted(frames):
    """Parts of whole frames, each with as many as give at most 512 records."""
    parts = [[]]
    for records in frames:
        if len(parts[-1]) + len(records) > ROWS:
            parts.append([])
        parts[-1].extend(records)
    return parts


def parts_of(kind, supplier):
    return parted(records_of(kind, supplier))


def parts_of_all(kind):
    return parted([f"{record},{supplier}" for record in records] for supplier in LANES for records in records_of(kind, supplier))


def exported(who, kind, parts, **fields):
    """Each part, and those behind the last, which are the header alone."""
    header = HEADERS[kind] + (",supplier" if who == "integrator1" else "")
    for part, records in [*enumerate(parts), *((part, []) for part in (len(parts), len(parts) + 1, LAST))]:
        yield told(who, f"export_{kind}", [header, *records], **fields, part=part)


def granted(supplier, variant):
    first, channel = LANES[supplier]
    for n in FRAMES:
        yield done("integrator1", "grant", variant=variant, slot=first + n, channel=channel, supplier=supplier, node="n1")


def filled(supplier, variant):
    """What stands in each part, as an import: the frames first, then placements, then signals."""
    for kind in HEADERS:
        for part, records in enumerate(parts_of(kind, supplier)):
            file = dict(variant=variant, label=f"{variant}_{kind}_{part}", body=file_of(kind, records))
            yield request(key_of(supplier), "import", **file), imported(len(records))


def listed(supplier, variant):
    """The frames with their placements, and some layouts."""
    lines = []
    first, channel = LANES[supplier]
    for n in FRAMES:
        lines += [f"FRAME {NAMES[n]} n1", *(f"AT {first + n:04} {channel} {base:02} 08" for base in range(PLACEMENTS[n]))]
    yield told(key_of(supplier), "frames", lines, variant=variant)
    for n in 0, 1, 6, 83, 255:
        signals = [f"{start:04} 01 {('little', 'big')[n % 2]} x{start}" for start in range(SIGNALS[n])]
        yield told(key_of(supplier), "layout", signals, variant=variant, frame=NAMES[n])


def opened(variant):
    yield done("integrator1", "open_variant", variant=variant)
    for supplier in LANES:
        yield from granted(supplier, variant)


def in_parts():
    """A variant with many records; each part is exported, sent back, and carried into an empty variant."""
    for supplier in LANES:
        yield done("integrator1", "add_node", supplier=supplier, node="n1")
    yield from opened("v1")
    for supplier in LANES:
        yield from filled(supplier, "v1")
    for kind in HEADERS:
        for supplier in LANES:
            yield from exported(key_of(supplier), kind, parts_of(kind, supplier), **IN_V1)
        yield from exported("integrator1", kind, parts_of_all(kind), **IN_V1)
    yield from listed("s1", "v1")
    for kind in HEADERS:
        for records in parts_of(kind, "s1"):
            yield request(key_of("s1"), "replace", **IN_V1, body=file_of(kind, records)), replaced(len(records))
        yield from exported(key_of("s1"), kind, parts_of(kind, "s1"), **IN_V1)
        yield from exported("integrator1", kind, parts_of_all(kind), **IN_V1)
    yield from listed("s1", "v1")
    yield from opened("v2")
    yield from filled("s1", "v2")
    yield from listed("s1", "v2")
    for kind in HEADERS:
        yield from exported(key_of("s1"), kind, parts_of(kind, "s1"), variant="v2")


class Parts(InvocationCase):
    """A part of an export takes whole frames, as many as give at most 512 records; the parts together have each record once, and behind them is a header alone."""

    seconds = 30

    def test_rules(self):
        """What is asked for below: parts that end within what 512 records are, of each supplier and of all."""
        for kind, least in ("placements", 2), ("signals", 10):
            for supplier in LANES:
                parts = parts_of(kind, supplier)
                self.see(f"parts of {kind} of {supplier}", (True, True), (len(parts) >= least, any(len(part) < ROWS for part in parts[:-1])))
        for kind in HEADERS:
            self.see(f"parts of {kind} of all", True, len(parts_of_all(kind)) >= 2)

    def test_parts(self):
        pairs = list(in_parts())
        self.ends(Invocation("exports in parts", script({**LARGE, "suppliers": suppliers(3)}, pairs), answers(pairs)))


# ---- files that go back, and to another register


def rows_in(file):
    return file.count(b"\n") - 1


class Files(RegisterCase):
    """What a register exports changes nothing where it comes back, and gives another register the same frames."""

    in_memory = True
    seconds = 20

    def lines(self, *words):
        """What a command prints, where it is done."""
        status, written, said = ran(words, self.folder)
        self.see(f"slotplan {' '.join(words)}", (0, b""), (status, said))
        return written

    def holds(self, db):
        return {table: sorted(self.rows(f"SELECT * FROM {table}", db), key=repr) for table in ("frames", "placements", "signals", "dropped", "grants", "imports")}

    def parts(self, variant, supplier, kind):
        """The files of an export, up to the header alone."""
        for part in range(100):
            file = self.lines("export", "car.db", variant, kind, "--part", str(part), "--supplier", supplier)
            yield part, file
            if file == f"{HEADERS[kind]}\n".encode():
                return

    def shown(self, db, variant, supplier):
        """The supplier's frames there: their nodes, placements and signals."""
        frames = self.lines("frames", db, variant, "--supplier", supplier)
        names = [line.split()[1].decode() for line in frames.splitlines() if line.startswith(b"FRAME ")]
        return frames, {name: self.lines("layout", db, variant, name, "--supplier", supplier) for name in names}

    def goes_back(self, name, begun):
        """Each export of each open variant, replaced and then imported into another register of the same nodes and grants."""
        cluster, _, requests = begun.partition(b"\n---\n")
        (self.folder / "cluster.toml").write_bytes(cluster + b"\n")
        self.create()
        ran(["ask", "car.db"], self.folder, requests)
        variants = [line.split() for line in self.lines("variants", "car.db").decode().splitlines()]
        for (variant, _, _, state), (supplier, key) in product(variants, self.rows("SELECT name, key FROM suppliers")):
            files = {kind: list(self.parts(variant, supplier, kind)) for kind in HEADERS}
            before = self.holds("car.db"), self.shown("car.db", variant, supplier)
            for kind, parts in files.items():
                for part, file in parts:
                    (self.folder / "part.csv").write_bytes(file)
                    words = ["replace", "car.db", key, variant, "part.csv"]
                    if state == "released":
                        self.turned_down(words, b'{"no":11,"refused":"Released"}')
                    else:
                        self.tell(words, f"{replaced(rows_in(file))}\n".encode())
            after = self.holds("car.db"), self.shown("car.db", variant, supplier)
            self.see(f"{name}: what {supplier} is shown of {variant} behind its own files", before[1], after[1])
            if state == "released":
                self.see(f"{name}: the rows behind files for the released {variant}", before[0], after[0])
            self.brought(variant, supplier, tomllib.loads(cluster.decode()), files)

    def brought(self, variant, supplier, cluster, files):
        """These files are imported into a register that has the supplier's nodes and grants, and no frames."""
        integrator, key = cluster["integrator"], cluster["suppliers"].get(supplier, "joinersKey1")
        given = [] if supplier in cluster["suppliers"] else [request(integrator, "add_supplier", supplier=supplier, key=key)]
        given.append(request(integrator, "open_variant", variant=variant))
        given += [request(integrator, "add_node", supplier=supplier, node=node) for node in self.lines("nodes", "car.db", "--supplier", supplier).decode().split()]
        for line in self.lines("grants", "car.db", variant, "--supplier", supplier).decode().splitlines():
            slot, channel, node = line.split()
            given.append(request(integrator, "grant", variant=variant, slot=int(slot), channel=channel, supplier=supplier, node=node))
        self.create("other.db")
        self.ask("".join(f"{line}\n" for line in given).encode(), b'{"ok":"done"}\n' * len(given), db="other.db")
        for kind, parts in files.items():
            for part, file in parts:
                (self.folder / "part.csv").write_bytes(file)
                words = ["import", "other.db", key, variant, f"{kind}{part}", "part.csv"]
                self.tell(words, f"{imported(rows_in(file))}\n".encode())
        self.see(f"{variant} of {supplier} in the other register", self.shown("car.db", variant, supplier), self.shown("other.db", variant, supplier))
        for file in self.folder.glob("other.db*"):
            file.unlink()

    @for_values("first", "powertrain", "chassis", "assistance", "ten_cycles")
    def test_example(self, name):
        self.goes_back(name, (TOP / f"examples/{name}.script").read_bytes())

    def test_mixture(self):
        self.goes_back("a mixture", random_script("revising", 400, 2, 7))


# ---- replacements beside another register


# Frames that are there, and files that take their places whole.
BEGUN = [
    done("integrator1", "open_variant", **IN_V1),
    done("integrator1", "add_node", supplier="s1", node="n1"),
    *(done("integrator1", "grant", **IN_V1, slot=slot, channel=channel, supplier="s1", node="n1") for slot in (1, 2) for channel in "AB"),
    *(done("supplier01", "add_frame", **IN_V1, frame=frame, node="n1") for frame in ("f1", "f2", "f3")),
    done("supplier01", "place", **IN_V1, frame="f1", slot=1, channels="A", base=0, repetition=2),
    done("supplier01", "place", **IN_V1, frame="f2", slot=1, channels="AB", base=1, repetition=4),
    done("supplier01", "place", **IN_V1, frame="f3", slot=2, channels="B", base=3, repetition=8),
    done("supplier01", "add_signal", **IN_V1, frame="f1", signal="x", start=0, length=8, order="little"),
    done("supplier01", "add_signal", **IN_V1, frame="f2", signal="x", start=15, length=4, order="big"),
]
REVISIONS = {
    "frames": '\ufeff"frame","node"\r\nf1,n1\r\n"f4",n1\r\n\r\nf5,"n1"',
    "placements": '\ufeffframe,node,slot,channels,base,repetition\r\nf1,n1,1,"A",1,4\r"f2",n1,0001,AB,02,4\n\nf4,n1,2,A,3,64\nf3,n1,2,B,1,32\n',
    "signals": 'frame,"signal",start,length,order\nf1,y,4,10,little\r\n"f1",x,0,4,little\rf2,"x",0,8,little\n',
}


def shown():
    yield request("supplier01", "frames", **IN_V1)
    for frame in "f1", "f2", "f3":
        yield request("supplier01", "layout", **IN_V1, frame=frame)


def again(kind):
    """What is there is put back, so that each file meets the same rows."""
    for frame in "f4", "f5", "f", '"f4"':
        yield request("supplier01", "drop_frame", **IN_V1, frame=frame)
    yield request("supplier01", "replace", **IN_V1, body=file_of("placements", ["f1,n1,1,A,0,2", "f2,n1,1,AB,1,4", "f3,n1,2,B,3,8"]))
    yield request("supplier01", "replace", **IN_V1, body=file_of("signals", ["f1,x,0,8,little", "f2,x,15,4,big"]))


class BesideAnotherRegister(InvocationCase):
    """Files that take the place of earlier ones are answered as by another register, naive.py, and leave the same rows."""

    def asked(self, name, cluster, lines):
        given = script(cluster, [(line, None) for line in lines])
        self.ends(Invocation(name, given, naive.answers(given)))

    @for_values(*REVISIONS)
    def test_cut_at_each_byte(self, kind):
        """A file that is cut anywhere is another file, of which all rows are carried out or none."""
        whole = REVISIONS[kind]
        lines = [line for line, _ in BEGUN]
        for end in range(len(whole) + 1):
            lines += [request("supplier01", "replace", **IN_V1, body=whole[:end]), *shown(), *again(kind)]
        self.asked(f"a file of {kind}, cut", {**LARGE, "suppliers": suppliers(2)}, lines)

    @for_values("frame,node", "frame,node,slot,channels,base,repetition", "frame,signal,start,length,order")
    def test_headers(self, header):
        """A header of another kind is none: with a field more, less or changed, and that of an export of all."""
        fields = header.split(",")
        others = [header + ",", "," + header, header + ",supplier", header.upper(), header.replace(",", ", "), header.replace(",", ";"), " " + header, '"' + header + '"']
        others += [",".join(fields[:at] + fields[at + 1 :]) for at in range(len(fields))]
        others += [",".join(fields[:at] + fields[at : at + 1] * 2 + fields[at + 1 :]) for at in range(len(fields))]
        others += [",".join([*fields[1:], fields[0]]), "\ufeff\ufeff" + header, "", "\n", "\ufeff", '"']
        lines = [line for line, _ in BEGUN]
        for other in others:
            for rows in "", "f1,n1\n", "f1,n1,1,A,1,4\n", "f1,x,0,1,little\n":
                lines.append(request("supplier01", "replace", **IN_V1, body=f"{other}\n{rows}"))
        self.asked(f"headers near {header}", {**LARGE, "suppliers": suppliers(2)}, [*lines, *shown()])

    def test_rows_and_bytes(self):
        """As many rows and bytes as a file may have, and one more; the frames that a file with a row more names keep their placements."""
        rows = [f"f{n // 8:03},n1,{1 + n // 64},A,{n % 64},64" for n in range(ROWS)]
        key, integrator = "supplier01", "integrator1"
        lines = [request(integrator, "open_variant", **IN_V1), request(integrator, "add_node", supplier="s1", node="n1")]
        lines += [request(integrator, "grant", **IN_V1, slot=slot, channel="A", supplier="s1", node="n1") for slot in range(1, 9)]
        header = HEADERS["placements"]
        for body in (
            file_of("placements", rows),
            file_of("placements", rows[::-1]),
            file_of("placements", [*rows, "f000,n1,1,A,0,64"]),
            file_of("placements", [*rows, "none"]),
            file_of("placements", [*rows[:-1], rows[0]]),
            file_of("placements", [*rows[:-1], "none"]),
            header + "\n" * (65_536 - len(header)),
            header + "\n" * (65_537 - len(header)),
            "\u00e4" * 32_768,
            "\u00e4" * 32_768 + "x",
            "",
        ):
            lines += [request(key, "replace", **IN_V1, body=body), request(key, "frames", **IN_V1), request(key, "load", **IN_V1)]
        lines += [request(key, "replace", **IN_V1, body=file_of("frames", [f"g{n},n1" for n in range(count)])) for count in (193, 192, 192)]
        lines += [request(key, "export_frames", **IN_V1, part=0), request(key, "replace", **IN_V1, body=file_of("frames", ["more,n1"]))]
        self.asked("rows and bytes of files", {**LARGE, "suppliers": suppliers(2)}, lines)

    def test_limit_of_frames_and_placements(self):
        """A ninth placement and a 65th signal of a frame, beside those that the file took away, and those of the file itself."""
        key, lines = "supplier01", [line for line, _ in BEGUN]
        eight = [f"f1,n1,2,A,{base},8" for base in range(8)]
        for rows in eight, [*eight, "f1,n1,1,A,0,64"], eight[::-1], ["f2,n1,1,AB,1,4", *eight]:
            lines += [request(key, "replace", **IN_V1, body=file_of("placements", rows)), request(key, "room", **IN_V1, frame="f1", repetition=8)]
        many = [f"f1,x{n},{n},1,little" for n in range(64)]
        for rows in many, [*many, "f1,y,64,1,big"], many[::-1], ["f2,x,0,1,big", *many[1:], "f1,z,0,1,little"]:
            lines += [request(key, "replace", **IN_V1, body=file_of("signals", rows)), request(key, "export_signals", **IN_V1, part=0)]
        self.asked("limits within files", {**LARGE, "suppliers": suppliers(2)}, [*lines, *shown()])

    def test_child_of_a_released_variant(self):
        """In a variant that was opened from another the parent's frames lose theirs in the child alone; a frame that a parent has may be dropped there before."""
        key, lines = "supplier01", [line for line, _ in BEGUN]
        lines += [request("integrator1", "release", **IN_V1), request("integrator1", "open_variant", variant="v2", **{"from": "v1"})]
        bodies = [
            file_of("placements", ["f1,n1,1,A,3,4", "f4,n1,2,A,0,1"]),
            file_of("signals", ["f2,y,0,16,little"]),
            file_of("frames", ["f3,n1", "f5,n1"]),
            file_of("placements", ["f1,n1,1,A,3,4", "f2,n1,1,A,3,8"]),
            file_of("placements", ["f3,n1,2,B,3,8"]),
        ]
        for body in bodies:
            for variant in "v1", "v2":
                lines.append(request(key, "replace", variant=variant, body=body))
            for variant, kind in product(("v1", "v2"), HEADERS):
                lines += [request(key, f"export_{kind}", variant=variant, part=0), request("integrator1", f"export_{kind}", variant=variant, part=0)]
        lines += [request(key, "drop_frame", variant="v2", frame="f3"), request(key, "replace", variant="v2", body=file_of("signals", ["f3,x,0,1,little"]))]
        lines += [request(key, "replace", variant="v2", body=file_of("placements", ["f3,n1,2,B,7,8"])), request(key, "export_placements", variant="v2", part=0)]
        lines += [request("integrator1", "release", variant="v2"), request("integrator1", "open_variant", variant="v3", **{"from": "v2"})]
        lines += [request(key, "replace", variant="v3", body=file_of("placements", ["f3,n1,1,B,0,2", "f4,n1,2,A,1,2"]))]
        for variant, report in product(("v1", "v2", "v3"), ("frames", "load", "gaps")):
            lines += [request(who, report, variant=variant) for who in (key, "integrator1")]
        lines += [request(key, "room", variant="v3", frame=frame, repetition=repetition) for frame in ("f1", "f2", "f3", "f4", "f5") for repetition in (2, 4)]
        self.asked("files for a variant that was opened from another", {**LARGE, "suppliers": suppliers(2)}, lines)
