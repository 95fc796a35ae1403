"""Wireshark's tables of a plan, by clients/wireshark: typed by hand from the format, and tried by tshark, which decodes captures of plans.

Without tshark these last tests are skipped, and that is no failure."""
import json
import random
import re
import subprocess
import sys

from clients.slotplan_plans.bits import bits
from clients.slotplan_plans.plan import Signal
from clients.slotplan_plans.sources import RegisterFile, Server
from clients.wireshark import capture, tables
from clients.wireshark.packing import packed
from clients.wireshark.plan import Cell, Frame, Plan, read
from tests import TOP
from tests.drivers import tshark
from tests.drivers.followed_pages import THERE, follow
from tests.drivers.planned_registers import Register
from tests.drivers.program import SECONDS, program, ran
from tests.drivers.registers import RegisterCase
from tests.models.plans import examples
from tests.models.scripts import CLUSTER, DONE, IMPORT_ROWS, LARGE, SIGNALS, cluster_file
from tests.runner.case import Case

PAGE = "clients/wireshark/README.md"
FIGURES = {"payload_words": 8, "cycles": 64, "macroticks_per_cycle": 100, "slot_macroticks": 10}
Y, X = Signal(3, 8, "big", "y"), Signal(4, 8, "little", "x")


def one_frame(signals):
    """A plan with payloads of a word: the frame `f` is sent in cycle 10, slot 17, on channel B."""
    frame = Frame("s1", "f")
    return Plan({**FIGURES, "payload_words": 1}, {frame: signals}, {Cell(10, 17, "B"): frame})


class Tables(Case):
    """The tables of small plans are as they were typed by hand from Wireshark's format, and payloads are as the rules of docs/FORMATS.md have them."""

    def items(self, signals, *wanted):
        """The items of the frame `f`: place, name, big order, width, hidden."""
        rows = [
            f'"1","{len(wanted)}","{place}","{name}","s1.f.{name}","uint","{big}","64","{width}","1.0","0.0","FALSE","-1","{hidden}","FALSE","FALSE","FALSE"\n'
            for place, (name, big, width, hidden) in enumerate(wanted)
        ]
        self.see(f"the items of {signals}", "".join(rows), tables.made(one_frame(signals))["Signal_PDU_signal_list"])

    def test_both_orders(self):
        """`x` begins in the byte in which `y` does, so a hidden item leads back from bit 12 to bit 0."""
        self.items(
            [Y, X],
            ("_0", "FALSE", 4, "TRUE"),
            ("y", "TRUE", 8, "FALSE"),
            ("_2", "FALSE", 4294967284, "TRUE"),
            ("_3", "FALSE", 4, "TRUE"),
            ("x", "FALSE", 8, "FALSE"),
            ("_5", "FALSE", 4, "TRUE"),
        )

    def test_one_bit_back(self):
        """Bit 0 and bit 7 of a byte both begin it. A width of 4294967295 would mean none, so the way back begins with a bit forwards."""
        self.items(
            [Signal(0, 1, "little", "a"), Signal(7, 1, "big", "b")],
            ("a", "FALSE", 1, "FALSE"),
            ("_1", "FALSE", 1, "TRUE"),
            ("_2", "FALSE", 4294967294, "TRUE"),
            ("b", "TRUE", 1, "FALSE"),
            ("_4", "FALSE", 15, "TRUE"),
        )

    def test_no_way(self):
        self.items([Signal(0, 5, "little", "a"), Signal(5, 11, "little", "b")], ("a", "FALSE", 5, "FALSE"), ("b", "FALSE", 11, "FALSE"))
        self.items([Signal(7, 16, "big", "b")], ("b", "TRUE", 16, "FALSE"))
        self.items([], ("_0", "FALSE", 16, "TRUE"))

    def test_names_and_cells(self):
        made = tables.made(one_frame([Y, X]))
        self.see("the names of frames", '"1","s1.f"\n', made["Signal_PDU_identifiers"])
        self.see("the cells", '"1","a","11","1"\n', made["Signal_PDU_Binding_FlexRay"])

    def test_numbers(self):
        """Numbers of frames are hexadecimal everywhere: that of the last of 26 is 1a."""
        frames = [Frame("s1", f"f{number}") for number in range(1, 27)]
        made = tables.made(Plan(FIGURES, {frame: [] for frame in frames}, {Cell(63, 1023, "A"): frames[-1]}))
        self.see("its name", '"1a","s1.f26"', made["Signal_PDU_identifiers"].splitlines()[-1])
        self.see("its items", '"1a","1","0","_0"', made["Signal_PDU_signal_list"].splitlines()[-1][:17])
        self.see("its cell", '"0","3f","3ff","1a"\n', made["Signal_PDU_Binding_FlexRay"])

    def test_payloads(self):
        for signals, values, wanted in ([Y], [171], "0ab0"), ([X], [171], "b00a"), ([Y, X], [171, 171], "baba"), ([], [], "0000"):
            self.see(f"{signals} with {values}", wanted, packed(signals, values, 2).hex())

    def test_packets(self):
        """Slot 17 is 0x011 of 11 bits, a payload of one word, cycle 10; the header's checksum stands between these two."""
        data = capture.packet(Cell(10, 17, "B"), b"\x0a\xb0")
        self.see("channel and faults", "8100", data[:2].hex())
        self.see("a data frame of slot 17", "2011", data[2:4].hex())
        self.see("its length", 1, data[4] >> 1)
        self.see("its cycle", 10, data[6] & 63)
        self.see("its payload", "0ab0", data[7:].hex())


class Reading(RegisterCase):
    """A plan that is read is the one that was asked for, whoever reads it, of a file as over HTTP."""

    # Two suppliers call a frame `f`.
    REQUESTS = b"""\
integrator1 {"do":"open_variant","variant":"v1"}
integrator1 {"do":"add_node","supplier":"s1","node":"n1"}
integrator1 {"do":"add_node","supplier":"s2","node":"n1"}
integrator1 {"do":"grant","variant":"v1","slot":3,"channel":"A","supplier":"s1","node":"n1"}
integrator1 {"do":"grant","variant":"v1","slot":3,"channel":"B","supplier":"s1","node":"n1"}
integrator1 {"do":"grant","variant":"v1","slot":4,"channel":"B","supplier":"s2","node":"n1"}
supplier01 {"do":"add_frame","variant":"v1","frame":"f","node":"n1"}
supplier01 {"do":"add_frame","variant":"v1","frame":"g","node":"n1"}
supplier02 {"do":"add_frame","variant":"v1","frame":"f","node":"n1"}
supplier01 {"do":"place","variant":"v1","frame":"f","slot":3,"channels":"AB","base":5,"repetition":32}
supplier02 {"do":"place","variant":"v1","frame":"f","slot":4,"channels":"B","base":63,"repetition":64}
supplier01 {"do":"add_signal","variant":"v1","frame":"f","signal":"y","start":3,"length":8,"order":"big"}
supplier01 {"do":"add_signal","variant":"v1","frame":"f","signal":"x","start":4,"length":8,"order":"little"}
supplier02 {"do":"add_signal","variant":"v1","frame":"f","signal":"y","start":0,"length":1,"order":"little"}
"""
    CLUSTER_FIGURES = {
        "static_slots": 4, "slot_macroticks": 10, "dynamic_macroticks": 40, "symbol_macroticks": 10, "idle_macroticks": 10,
        "macroticks_per_cycle": 100, "payload_words": 1, "cycles": 64,
    }
    SIGNALS = {Frame("s1", "f"): [Y, X], Frame("s1", "g"): [], Frame("s2", "f"): [Signal(0, 1, "little", "y")]}
    CELLS = {**{Cell(cycle, 3, channel): Frame("s1", "f") for cycle in (5, 37) for channel in "AB"}, Cell(63, 4, "B"): Frame("s2", "f")}

    def setUp(self):
        super().setUp()
        (self.folder / "cluster.toml").write_text(cluster_file(CLUSTER))
        self.create()
        self.ask(self.REQUESTS, f"{DONE}\n".encode() * self.REQUESTS.count(b"\n"))

    def is_read(self, source, *suppliers):
        """The plan of the source has the frames of these suppliers."""
        signals = {frame: signals for frame, signals in self.SIGNALS.items() if frame.supplier in suppliers}
        cells = {cell: frame for cell, frame in self.CELLS.items() if frame in signals}
        self.see(f"the plan of {suppliers}", Plan(self.CLUSTER_FIGURES, signals, cells), read(source, "v1"))

    def test_file(self):
        file = self.folder / "car.db"
        self.is_read(RegisterFile(file, self.program), "s1", "s2")
        self.is_read(RegisterFile(file, self.program, "s1"), "s1")
        self.is_read(RegisterFile(file, self.program, "s2"), "s2")

    def test_server(self):
        with self.served() as (_, port):
            url = f"http://127.0.0.1:{port}"
            self.is_read(Server(url, "integrator1"), "s1", "s2")
            self.is_read(Server(url, "supplier01"), "s1")
            self.is_read(Server(url + "/", "supplier02"), "s2")


class Cells(RegisterCase):
    """The cells of the examples' plans are those of the register's schedules."""

    in_memory = True

    def test_examples(self):
        for name, cluster, requests in examples():
            (self.folder / name).mkdir()
            register = Register(self.folder / name, cluster, requests)
            for variant in {request["variant"] for request in register.done("open_variant")}:
                _, written, _ = ran(["schedule", "car.db", variant], self.folder / name)
                rows = [line.split(" ") for line in written.decode().splitlines()]
                wanted = {Cell(int(cycle), int(slot), channel): Frame(supplier, frame) for cycle, slot, channel, frame, _, supplier in rows}
                self.see(f"{name} {variant}", wanted, read(RegisterFile(self.folder / name / "car.db", self.program), variant).cells)


class Commands(RegisterCase):
    """The client makes the tables of a register's file by the program, and of a server with the key from a file, and says why it has no report."""

    FIRST = {
        "Signal_PDU_identifiers": '"1","s1.f1"\n',
        "Signal_PDU_signal_list": '"1","1","0","_0","s1.f1._0","uint","FALSE","64","16","1.0","0.0","FALSE","-1","TRUE","FALSE","FALSE","FALSE"\n',
        "Signal_PDU_Binding_FlexRay": '"0","0","1","1"\n',
    }

    def setUp(self):
        super().setUp()
        self.plan()

    def client(self, *words, given=""):
        """How the client ends: its status, what it writes and what it says."""
        command = [sys.executable, "-m", "clients.wireshark", *map(str, words)]
        ended = subprocess.run(command, cwd=TOP, input=given, capture_output=True, text=True, timeout=SECONDS)
        return ended.returncode, ended.stdout, ended.stderr

    def makes(self, *source, given=""):
        """The tables of this source are those of the first script."""
        place, *more = source
        folder = self.folder / "profile" / str(len(list(self.folder.glob("profile/*"))))
        self.see(f"tables of {source}", (0, "frames: 1, signals: 0, cells: 1\n", ""), self.client("tables", place, "v1", folder, *more, given=given))
        self.see(f"the tables of {source}", self.FIRST, {file.name: file.read_text() for file in folder.iterdir()})

    def has_none(self, why, *source, variant="v1"):
        """There is no report of this source, and the client says why."""
        place, *more = source
        said = f"python3 -m clients.wireshark: {why}\n"
        self.see(f"tables of {variant} of {source}", (1, "", said), self.client("tables", place, variant, self.folder / "none", *more))

    def test_file(self):
        file = self.folder / "car.db", "--program", self.program
        self.makes(*file)
        self.makes(*file, "--supplier", "s1")
        self.has_none("there is no variant v9; there are: v1", *file, variant="v9")
        self.has_none(f'{file[0]}: {{"no":14,"refused":"NoSupplier"}}', *file, "--supplier", "s9")

    def test_server(self):
        for name, line in ("integrator", "integrator1"), ("s1", "X-Office-Key: supplier01"), ("nobody", "nobody123"):
            (self.folder / f"{name}.key").write_text(f"{line}\n")
        with self.served() as (_, port):
            url = f"http://127.0.0.1:{port}"
            self.makes(url, "--key", self.folder / "integrator.key")
            self.makes(url, "--key", self.folder / "s1.key")
            self.makes(url, "--key", "-", given="supplier01\n")
            self.has_none(f'{url}: 401 Unauthorized {{"no":2,"refused":"UnknownKey"}}', url, "--key", self.folder / "nobody.key")
            self.has_none("there is no variant v9; there are: v1", url, "--key", self.folder / "s1.key", variant="v9")

    def test_capture(self):
        """`f1` is sent in the first cycle of 64, so twice in 65."""
        words = "capture", self.folder / "car.db", "v1", self.folder / "bus.pcap", "--program", self.program
        self.see("a capture", (0, "packets: 1\n", ""), self.client(*words))
        self.see("a capture of 65 cycles", (0, "packets: 2\n", ""), self.client(*words, "--cycles", "65"))
        register = self.folder / "car.db"
        said = f"python3 -m clients.wireshark: {register}: it is a database, which may be a register; nothing is written\n"
        self.see("no capture in place of the register", (1, "", said), self.client(*words[:3], register, *words[4:]))


class Page(Case):
    """The commands of the page of clients/wireshark print what stands behind them there."""

    def test_commands(self):
        _, steps = follow((TOP / PAGE).read_text(), THERE[PAGE])
        self.see("it has commands", True, bool(steps))
        for step in steps:
            self.see(f"$ {step.command}", step.wanted, step.printed)


class Decoded(Case):
    """tshark finds in captures of plans, by the plans' tables, each frame's name and each signal's value as it was packed, in both orders."""

    may_be_skipped = True
    seconds = 60

    def setUp(self):
        super().setUp()
        if not tshark.PROGRAM:
            self.skipTest("no tshark")
        self.channels = "AB" if tshark.version() >= tshark.BOTH_CHANNELS else "A"

    def read(self, register, variant, supplier=None):
        return read(RegisterFile(register.folder / "car.db", program(), supplier), variant)

    def packets(self, plan, *, bus=None, cycles=64):
        """What is sent on a bus, each with what tshark says of it by the tables of this plan; on channel B only where tshark knows of it."""
        tables.write(tshark.profile(self.folder, "plan"), plan)
        told = capture.write(self.folder / "bus.pcap", bus or plan, cycles, seed=1)
        packets = tshark.decoded(self.folder, "plan", self.folder / "bus.pcap")
        self.see("the cells of the packets", [it.cell for it in told], [packet.cell for packet in packets])
        return [(it, packet) for it, packet in zip(told, packets) if it.cell.channel in self.channels]

    def agrees(self, what, plan, **how):
        """Each packet of a frame that the plan has is named, with all its signals' values; of other packets nothing is said."""
        for it, packet in self.packets(plan, **how):
            wanted = (str(it.frame), fields(it)) if it.frame in plan.signals else (None, {})
            self.see(f"{what}: {it.cell}", wanted, (packet.name, packet.fields))

    def test_examples(self):
        """As the integrator sees each variant, and as the first supplier does that has frames there; the bus has the frames of all."""
        for name, cluster, requests in examples():
            folder = self.folder / name
            folder.mkdir()
            register = Register(folder, cluster, requests)
            for variant in (request["variant"] for request in register.done("open_variant")):
                bus = self.read(register, variant)
                self.agrees(f"{name} {variant}", bus)
                for supplier in sorted({frame.supplier for frame in bus.signals})[:1]:
                    self.agrees(f"{name} {variant} {supplier}", self.read(register, variant, supplier), bus=bus)

    def test_limits(self):
        """Payloads of 254 bytes with 64 signals of 1 to 64 bits, wherever they begin, in slots up to 1,023, on A, on B and on both."""
        register = Register(self.folder, *at_the_limits(random.Random(1)))
        self.see("imports that were refused", [], [answer for _, answer in register.answered if "refused" in answer])
        bus = self.read(register, "v1")
        self.see("the bits of signals", set(range(1, 65)), {signal.length for signals in bus.signals.values() for signal in signals})
        self.agrees("all", bus)
        self.agrees("s2", self.read(register, "v1", "s2"), bus=bus)

    def test_short_payloads(self):
        """Frames of one word, in which signals of both orders share bytes, so that many ways lead back."""
        dice = random.Random(2)
        signals = {Frame("s1", f"f{number}"): dense(dice, 16, (1, 1, 1, 2, 3, 4, 5, 8)) for number in range(600)}
        cells = {Cell(number % 64, 1 + number // 64, "A"): frame for number, frame in enumerate(signals)}
        self.agrees("short", Plan({**FIGURES, "payload_words": 1}, signals, cells))

    def test_names(self):
        """Names that are long, that differ in case alone, that Wireshark has itself, and those of its fields of raw values and trees."""
        names = "payload", "unparsed", "name", "x", "X", "x_raw", "x_tree", "raw", "_".join("abcdefghijklmnop") + "q"
        laid = [Signal(8 * place, 8, "little", name) for place, name in enumerate(names)]
        frames = [Frame(supplier, name) for supplier in ("payload", "Payload", "s" * 32) for name in names]
        plan = Plan(FIGURES, {frame: laid for frame in frames}, {Cell(number, 1, "A"): frame for number, frame in enumerate(frames)})
        self.agrees("names", plan)

    def test_page(self):
        """What the page shows of a packet is what tshark says of it."""
        name, cluster, requests = next(it for it in examples() if it[0] == "powertrain")
        self.packets(self.read(Register(self.folder, cluster, requests), "my26"))
        shown = re.search("```text\n(.*?)```", (TOP / PAGE).read_text(), re.DOTALL)[1]
        self.see("the end of the first packet", shown, tshark.told(self.folder, "plan", self.folder / "bus.pcap", "-V", "-c", "1")[-len(shown) - 1 : -1])

    def test_wrong_order(self):
        """The comparison is able to fail: where the table has a signal in the other order, values differ."""
        frame, cells = Frame("s1", "f"), range(64)
        plan = lambda signal: Plan(FIGURES, {frame: [signal]}, {Cell(cycle, 1, "A"): frame for cycle in cells})
        pairs = self.packets(plan(Signal(0, 16, "little", "x")), bus=plan(Signal(7, 16, "big", "x")))
        self.see("values that differ", True, any(fields(it) != packet.fields for it, packet in pairs))


def fields(it):
    """The values of what was sent, by their names in tshark's filters."""
    return {f"signal_pdu.{it.frame}.{name}": str(value) for name, value in it.values.items()}


def dense(dice, width, lengths):
    """Signals in both orders that share no bit, as many as a frame may have or as are met in some tries."""
    used, found = set(), []
    for number in range(4 * width):
        signal = Signal(dice.randrange(width), dice.choice(lengths), dice.choice(("little", "big")), f"x{number}")
        taken = set(bits(signal))
        if max(taken) < width and not taken & used and len(found) < SIGNALS:
            found.append(signal)
            used |= taken
    return sorted(found, key=lambda signal: signal.start)


def at_the_limits(dice):
    """A cluster file and requests: two frames of each of two suppliers share each of these slots, on A, on B and on both, by repetitions from 2 to 64."""
    asked = lambda key, what, **fields: requests.append(f"{key} {json.dumps({'do': what, **fields})}")
    requests, placed, laid = [], {"s1": [], "s2": []}, {"s1": [], "s2": []}
    asked("integrator1", "open_variant", variant="v1")
    for supplier in placed:
        asked("integrator1", "add_node", supplier=supplier, node="n1")
    for number, slot in enumerate((1, 2, 3, 7, 8, 255, 256, 257, 511, 512, 513, 766, 767, 768, 1000, 1021, 1022, 1023)):
        supplier, channels, repetition = ("s1", "s2")[number % 2], ("A", "B", "AB")[number % 3], 2 << number % 6
        for channel in channels:
            asked("integrator1", "grant", variant="v1", slot=slot, channel=channel, supplier=supplier, node="n1")
        for base in (0, repetition - 1):
            placed[supplier].append(f"f{slot}_{base},n1,{slot},{channels},{base},{repetition}")
            laid[supplier] += [
                f"f{slot}_{base},{signal.name},{signal.start},{signal.length},{signal.order}" for signal in dense(dice, 16 * 127, [*range(1, 65), *range(1, 9)])
            ]
    for supplier, key in (("s1", "supplier01"), ("s2", "supplier02")):
        for label, head, rows in ("frames", "frame,node,slot,channels,base,repetition", placed), ("signals", "frame,signal,start,length,order", laid):
            for first in range(0, len(rows[supplier]), IMPORT_ROWS):
                body = "\n".join([head, *rows[supplier][first : first + IMPORT_ROWS]])
                asked(key, "import", variant="v1", label=f"{label}{first}", body=body)
    return cluster_file(LARGE), "\n".join(requests)
