"""What a system description of another tool becomes: bits, rows and notes that were typed by hand. Each leaf stands in the proposal or the notes."""
import random
import re
import xml.etree.ElementTree as ET

from clients.slotplan_plans.autosar import folder, reading, writing
from clients.slotplan_plans.autosar.found import folded
from clients.slotplan_plans.autosar.proposal import Proposal
from clients.slotplan_plans.bits import bits
from clients.slotplan_plans.faults import Fault
from clients.slotplan_plans.plan import Grant, Node, Placement, Signal
from clients.slotplan_plans.reading import read
from tests.drivers.autosar_registers import Shape, Told, reports, requests_of
from tests.models import arxml
from tests.models.damaged import lost
from tests.models.scripts import DONE
from tests.runner.case import Case

TABLE = dict(line.split(",") for line in arxml.SUPPLIERS.splitlines()[1:])

# The figures of a cluster, an ECU with a port, and a frame with a PDU in which a signal of each order lies.
TYPED = """\
<?xml version="1.0" encoding="utf-8"?>
<AUTOSAR xmlns="http://autosar.org/schema/r4.0"><AR-PACKAGES><AR-PACKAGE><SHORT-NAME>P</SHORT-NAME><ELEMENTS>
  <FLEXRAY-CLUSTER><SHORT-NAME>C</SHORT-NAME><FLEXRAY-CLUSTER-VARIANTS><FLEXRAY-CLUSTER-CONDITIONAL>
    <PHYSICAL-CHANNELS><FLEXRAY-PHYSICAL-CHANNEL><SHORT-NAME>A</SHORT-NAME>
      <COMM-CONNECTORS><COMMUNICATION-CONNECTOR-REF-CONDITIONAL>
        <COMMUNICATION-CONNECTOR-REF DEST="FLEXRAY-COMMUNICATION-CONNECTOR">/P/n1/K</COMMUNICATION-CONNECTOR-REF>
      </COMMUNICATION-CONNECTOR-REF-CONDITIONAL></COMM-CONNECTORS>
      <FRAME-TRIGGERINGS><FLEXRAY-FRAME-TRIGGERING><SHORT-NAME>T</SHORT-NAME>
        <FRAME-PORT-REFS><FRAME-PORT-REF DEST="FRAME-PORT">/P/n1/K/Out</FRAME-PORT-REF></FRAME-PORT-REFS>
        <FRAME-REF DEST="FLEXRAY-FRAME">/P/f</FRAME-REF>
        <ABSOLUTELY-SCHEDULED-TIMINGS><FLEXRAY-ABSOLUTELY-SCHEDULED-TIMING>
          <COMMUNICATION-CYCLE><CYCLE-REPETITION>
            <BASE-CYCLE>1</BASE-CYCLE><CYCLE-REPETITION>CYCLE-REPETITION-4</CYCLE-REPETITION>
          </CYCLE-REPETITION></COMMUNICATION-CYCLE>
          <SLOT-ID>2</SLOT-ID>
        </FLEXRAY-ABSOLUTELY-SCHEDULED-TIMING></ABSOLUTELY-SCHEDULED-TIMINGS>
      </FLEXRAY-FRAME-TRIGGERING></FRAME-TRIGGERINGS>
      <CHANNEL-NAME>CHANNEL-A</CHANNEL-NAME>
    </FLEXRAY-PHYSICAL-CHANNEL></PHYSICAL-CHANNELS>
    <CYCLE-COUNT-MAX>63</CYCLE-COUNT-MAX>
    <MACRO-PER-CYCLE>100</MACRO-PER-CYCLE>
    <NETWORK-IDLE-TIME>10</NETWORK-IDLE-TIME>
    <NUMBER-OF-STATIC-SLOTS>4</NUMBER-OF-STATIC-SLOTS>
    <PAYLOAD-LENGTH-STATIC>1</PAYLOAD-LENGTH-STATIC>
    <STATIC-SLOT-DURATION>10</STATIC-SLOT-DURATION>
    <SYMBOL-WINDOW>10</SYMBOL-WINDOW>
  </FLEXRAY-CLUSTER-CONDITIONAL></FLEXRAY-CLUSTER-VARIANTS></FLEXRAY-CLUSTER>
  <ECU-INSTANCE><SHORT-NAME>n1</SHORT-NAME>
    <ADMIN-DATA><SDGS><SDG GID="slotplan"><SD GID="supplier">s1</SD></SDG></SDGS></ADMIN-DATA>
    <CONNECTORS><FLEXRAY-COMMUNICATION-CONNECTOR><SHORT-NAME>K</SHORT-NAME><ECU-COMM-PORT-INSTANCES>
      <FRAME-PORT><SHORT-NAME>Out</SHORT-NAME><COMMUNICATION-DIRECTION>OUT</COMMUNICATION-DIRECTION></FRAME-PORT>
    </ECU-COMM-PORT-INSTANCES></FLEXRAY-COMMUNICATION-CONNECTOR></CONNECTORS>
  </ECU-INSTANCE>
  <FLEXRAY-FRAME><SHORT-NAME>f</SHORT-NAME><FRAME-LENGTH>2</FRAME-LENGTH><PDU-TO-FRAME-MAPPINGS>
    <PDU-TO-FRAME-MAPPING><SHORT-NAME>M</SHORT-NAME><PACKING-BYTE-ORDER>MOST-SIGNIFICANT-BYTE-LAST</PACKING-BYTE-ORDER>
      <PDU-REF DEST="I-SIGNAL-I-PDU">/P/pdu</PDU-REF><START-POSITION>0</START-POSITION></PDU-TO-FRAME-MAPPING>
  </PDU-TO-FRAME-MAPPINGS></FLEXRAY-FRAME>
  <I-SIGNAL-I-PDU><SHORT-NAME>pdu</SHORT-NAME><LENGTH>2</LENGTH><I-SIGNAL-TO-PDU-MAPPINGS>
    <I-SIGNAL-TO-I-PDU-MAPPING><SHORT-NAME>of_y</SHORT-NAME><I-SIGNAL-REF DEST="I-SIGNAL">/P/y</I-SIGNAL-REF>
      <PACKING-BYTE-ORDER>MOST-SIGNIFICANT-BYTE-FIRST</PACKING-BYTE-ORDER><START-POSITION>3</START-POSITION></I-SIGNAL-TO-I-PDU-MAPPING>
    <I-SIGNAL-TO-I-PDU-MAPPING><SHORT-NAME>of_x</SHORT-NAME><I-SIGNAL-REF DEST="I-SIGNAL">/P/x</I-SIGNAL-REF>
      <PACKING-BYTE-ORDER>MOST-SIGNIFICANT-BYTE-LAST</PACKING-BYTE-ORDER><START-POSITION>4</START-POSITION></I-SIGNAL-TO-I-PDU-MAPPING>
  </I-SIGNAL-TO-PDU-MAPPINGS></I-SIGNAL-I-PDU>
  <I-SIGNAL><SHORT-NAME>y</SHORT-NAME><LENGTH>8</LENGTH></I-SIGNAL>
  <I-SIGNAL><SHORT-NAME>x</SHORT-NAME><LENGTH>8</LENGTH></I-SIGNAL>
</ELEMENTS></AR-PACKAGE></AR-PACKAGES></AUTOSAR>
"""

# Kind, what, and a part of why.
NOTES = f"""
not kept | minislots | 289 of 5 macroticks
left out | /Cluster/Chassis/ChC | its CHANNEL-NAME is CHANNEL-X
left out | /Ecu/Stranger/ConnA | no ECU of this file
left out | /Cluster/Chassis/ChA/T3: slot 70 on A, base 0, repetition 2 | dynamic segment
left out | /Cluster/Chassis/ChA/T4: slot 90 on A, base 0, repetition 1 | dynamic segment
not kept | /Cluster/Chassis/ChA/T7 | PAYLOAD-PREAMBLE-INDICATOR
not kept | /Cluster/Chassis/ChA/T8 | no port OUT
left out | /Cluster/Chassis/ChA/T10: slot 10 on A, cycle 64 | the cluster has 64 cycles
left out | /Cluster/Chassis/ChA/T11: slot 11 on A, base 4, repetition 4 | no base and repetition of 64 cycles
left out | /Cluster/Chassis/ChA/T12: slot 12 on A, base 0, repetition 5 | no base and repetition of 64 cycles
left out | /Cluster/Chassis/ChA/T14 | its frame /Frame/Missing is not in this file
left out | /Cluster/Chassis/ChA/T18 | no ABSOLUTELY-SCHEDULED-TIMING
left out | /Cluster/Chassis/ChA/T19: slot 18 on A | it has no cycle
left out | /Cluster/Chassis/ChA/T20: slot 0 on A | no SLOT-ID
left out | /Frame/Dynamic | does not send
left out | /Frame/BadBase | does not send
left out | /Frame/Five | does not send
left out | /Frame/Five | does not send
left out | /Frame/Five | a second element of this path
left out | /Frame/Never | does not send
left out | /Frame/NoCycle | does not send
left out | /Frame/NoSlot | does not send
left out | /Frame/Unused | does not send
changed | /Frame/Brake: update bit 40 of /Signal/Torque | becomes the signal Torque_update
changed | /Frame/Brake: update bit 41 of /Signal/Group | becomes the signal Group_update
changed | /Frame/TwoPdus: update bit 127 of /Pdu/First | becomes the signal First_update
changed | /Frame/Brake: signal /Signal/Blob, start 48, little | it becomes little
left out | /Frame/Brake: signal /Signal/Gone, start 0, little | not in this file
not kept | /Frame/Brake: /Signal/Group | a group of signals
left out | /Frame/Brake: PDU /Pdu/Lost from bit 64 | not in this file
left out | /Frame/TwoPdus: signal /Signal/Torque, start 32, SIDEWAYS | a PACKING-BYTE-ORDER that AUTOSAR has
left out | /Frame/TwoPdus: PDU /Pdu/Brake from bit 3 | within a byte
changed | /Frame/Multiplexed: PDU /Pdu/Mux from bit 0 | its 12 bytes become one signal
not kept | AR-PACKAGE/SHORT-NAME | 1 in the file
not kept | CAN-CLUSTER/SHORT-NAME | 1 in the file
not kept | ECU-INSTANCE/SLEEP-MODE-SUPPORTED | 3 in the file
not kept | FLEXRAY-CLUSTER/BAUDRATE | 1 in the file
not kept | FLEXRAY-CLUSTER/COLD-START-ATTEMPTS | 1 in the file
not kept | FLEXRAY-FRAME-TRIGGERING/FRAME-PORT-REF | 8 in the file
not kept | FLEXRAY-FRAME-TRIGGERING/PAYLOAD-PREAMBLE-INDICATOR | 1 in the file
not kept | FLEXRAY-FRAME-TRIGGERING/SHORT-NAME | 22 in the file
not kept | FLEXRAY-FRAME/FRAME-LENGTH | 8 in the file
not kept | FLEXRAY-FRAME/SHORT-NAME | 1 in the file
not kept | FLEXRAY-PHYSICAL-CHANNEL/SHORT-NAME | 3 in the file
not kept | FRAME-PORT/COMMUNICATION-DIRECTION | 7 in the file
not kept | FRAME-PORT/SHORT-NAME | 7 in the file
not kept | I-SIGNAL-I-PDU/LENGTH | 2 in the file
not kept | I-SIGNAL-TO-I-PDU-MAPPING/SHORT-NAME | 13 in the file
not kept | I-SIGNAL/VALUE | 8 in the file
not kept | PDU-TO-FRAME-MAPPING/PACKING-BYTE-ORDER | 6 in the file
not kept | PDU-TO-FRAME-MAPPING/SHORT-NAME | 7 in the file
not kept | attribute UUID | 1 in the file
not kept | /Ecu/Gone of the table of suppliers | no such ECU
changed | /Ecu/{arxml.GATEWAY} | it is called Gateway_Of_The_Vehicle_With_A_Ve
changed | /Frame/{arxml.LONG_FRAME}_1 | it is called Frame_With_A_Name_That_Is_Longer
changed | /Frame/{arxml.LONG_FRAME}_2 | it is called Frame_With_A_Name_That_Is_Long_2
changed | /Frame/{arxml.LONG_FRAME}_1: slot 16 on A, base 0, repetition 1 | 2 times
not kept | /Frame/Multiplexed | its length of 12 bytes; in the register each frame has 16
left out | /Frame/NoSender | no ECU of this file sends it
left out | /Frame/TwoSenders | 2 ECUs send it: /Ecu/DSC /Ecu/EGS
changed | slot 6 on A | granted to brakes.DSC alone, and not to gears.EGS
left out | /Frame/Nine: slot 15 on A, base 8, repetition 16 | 8 placements already
left out | /Frame/SameCell: slot 1 on A, base 3, repetition 4 | in cycle 3 on A /Frame/Brake is sent
left out | /Frame/Shared_Two: slot 6 on A, base 1, repetition 4 | another node is granted the slot
changed | /Frame/Brake: signal Blob, start 48, length 80, little | 2 signals
left out | /Frame/Brake: signal Overlap, start 20, length 8, little | bit 20 is used by Torque
left out | /Frame/Brake: signal Beyond, start 120, length 16, little | which has 128 bits
changed | /Frame/Counted: signal Array, start 7, length 100, big | 2 signals
changed | /Frame/Multiplexed: signal Mux, start 0, length 96, little | 2 signals
changed | /Frame/TwoPdus: signal Pressure, start 64, length 12, little | it is called Pressure_2
left out | /Frame/TwoPdus: signal Gear, start 79, length 9, big | bit 72 is used by Pressure_2
left out | /Frame/TwoPdus: signal None, start 104, length 0, little | none of 1 to 64 bits
"""
FRAMES = """\
frame,node
Brake,DSC
Frame_With_A_Name_That_Is_Long_2,Gateway_Of_The_Vehicle_With_A_Ve
Frame_With_A_Name_That_Is_Longer,Gateway_Of_The_Vehicle_With_A_Ve
Multiplexed,Gateway_Of_The_Vehicle_With_A_Ve
Nine,DSC
SameCell,DSC
Shared_One,DSC
frame,node
Counted,EGS
Shared_Two,EGS
StaticAndDynamic,EGS
TwoPdus,EGS
"""
PLACEMENTS = f"""\
frame,node,slot,channels,base,repetition
Brake,DSC,1,AB,0,1
Frame_With_A_Name_That_Is_Long_2,Gateway_Of_The_Vehicle_With_A_Ve,17,A,0,1
Frame_With_A_Name_That_Is_Longer,Gateway_Of_The_Vehicle_With_A_Ve,16,A,0,1
Multiplexed,Gateway_Of_The_Vehicle_With_A_Ve,7,A,0,4
{"".join(f"Nine,DSC,15,A,{base},16{chr(10)}" for base in range(8))}Shared_One,DSC,6,A,0,2
frame,node,slot,channels,base,repetition
Counted,EGS,10,A,2,8
Counted,EGS,10,A,5,32
StaticAndDynamic,EGS,5,A,0,2
TwoPdus,EGS,2,AB,1,4
TwoPdus,EGS,3,A,3,8
"""
SIGNALS = """\
frame,signal,start,length,order
Brake,Pressure,7,12,big
Brake,Torque,16,16,little
Brake,Torque_update,40,1,little
Brake,Group_update,41,1,little
Brake,Blob_0,48,64,little
Brake,Blob_1,112,16,little
Multiplexed,Mux_0,0,64,little
Multiplexed,Mux_1,64,32,little
frame,signal,start,length,order
Counted,Array_0,7,64,big
Counted,Array_1,71,36,big
TwoPdus,Pressure,0,12,little
TwoPdus,Pressure_2,64,12,little
TwoPdus,First_update,127,1,little
"""


class FileCase(Case):
    """A test that reads descriptions."""

    in_memory = True

    def read(self, text, table=TABLE):
        """What was found in this text, and what is proposed."""
        (self.folder / "file.arxml").write_text(text)
        found = reading.read([self.folder / "file.arxml"])
        return found, Proposal(found, table)

    def outcome(self, text):
        """All that comes of this text: the proposal, the notes and the comment, or why it is refused."""
        try:
            found, proposal = self.read(text)
        except Fault as fault:
            return str(fault)
        return proposal.plan, proposal.notes, found.comment


class Bits(FileCase):
    """Signals of both orders in a file that was typed by hand have the starts, the rows and the values that the register gives them."""

    Y, X = Signal(3, 8, "big", "y"), Signal(4, 8, "little", "x")

    def test_read(self):
        """One frame of a word: `y` big from bit 3, `x` little from bit 4, each of 8 bits."""
        _, proposal = self.read(TYPED, {})
        self.see("signals", (self.Y, self.X), proposal.plan.frames[0].signals)
        self.see("placements", (Placement(2, "A", 1, 4),), proposal.plan.frames[0].placements)
        self.see("nodes", (Node("s1", "n1"),), proposal.plan.nodes)
        self.see("grants", (Grant(2, "A", "s1", "n1"),), proposal.plan.grants)
        folder.write(self.folder / "made", proposal)
        rows = (self.folder / "made/s1/part02_signals.csv").read_text()
        self.see("rows of signals", "frame,signal,start,length,order\nf,y,3,8,big\nf,x,4,8,little\n", rows)
        answers, told = reports((self.folder / "made/cluster.toml").read_text(), requests_of(self.folder / "made"), ["v1"], ["f"])
        self.see("the register takes them", [DONE] * 3 + ['{"ok":"imported","rows":1}'] * 2 + ['{"ok":"imported","rows":2}'], answers)
        self.see("layout", '{"lines":["0003 08 big y","0004 08 little x"],"ok":"layout"}', told["s1", "layout", "v1", "f"])

    def test_places(self):
        """171 is 10101011. As `y` alone it is the bytes 0A B0, as `x` alone B0 0A, and both fill all 16 bits: BA BA."""
        for signals, wanted in ([self.Y], "0ab0"), ([self.X], "b00a"), ([self.Y, self.X], "baba"):
            payload = 0
            for signal in signals:
                payload |= sum((171 >> bit & 1) << place for bit, place in enumerate(bits(signal)))
            self.see(f"{signals} with 171", wanted, payload.to_bytes(2, "little").hex())


def between(first, last):
    """The typed file's text from one text up to another."""
    return TYPED[TYPED.index(first) : TYPED.index(last)]


PORT_REFS = '<FRAME-PORT-REFS><FRAME-PORT-REF DEST="FRAME-PORT">/P/n1/K/Out</FRAME-PORT-REF></FRAME-PORT-REFS>'
REPEATED = """<CYCLE-REPETITION>
            <BASE-CYCLE>1</BASE-CYCLE><CYCLE-REPETITION>CYCLE-REPETITION-4</CYCLE-REPETITION>
          </CYCLE-REPETITION>"""
ABSOLUTELY = between("<FLEXRAY-ABSOLUTELY", "</ABSOLUTELY-SCHEDULED-TIMINGS>")
COUNTED = [f"<CYCLE-COUNTER><CYCLE-COUNTER>{cycle}</CYCLE-COUNTER></CYCLE-COUNTER>" for cycle in range(1, 64, 4)]
OF_PDU = '<PDU-TRIGGERING-REF DEST="PDU-TRIGGERING">/P/C/A/OfPdu</PDU-TRIGGERING-REF>'
PDU_OUT = "<I-PDU-PORT><SHORT-NAME>PduOut</SHORT-NAME><COMMUNICATION-DIRECTION>OUT</COMMUNICATION-DIRECTION></I-PDU-PORT>"
PDU_PORT = '<I-PDU-PORT-REFS><I-PDU-PORT-REF DEST="I-PDU-PORT">/P/n1/K/PduOut</I-PDU-PORT-REF></I-PDU-PORT-REFS>'
# The same file in other words: each pair is a text of it, and what stands there instead.
OTHER_WORDS = {
    "numbers": [
        ("CYCLE>100<", "CYCLE>0x64<"), ("IDLE-TIME>10<", "IDLE-TIME>012<"), ("DURATION>10<", "DURATION>1e1<"), ("WINDOW>10<", "WINDOW>0b1010<"),
    ],
    "spaces": [("<SLOT-ID>2<", "<SLOT-ID>\n  2 <"), (">/P/f<", "> /P/f\n<")],
    "no greatest cycle": [("<CYCLE-COUNT-MAX>63</CYCLE-COUNT-MAX>", "")],
    "single cycles": [(ABSOLUTELY, "".join(ABSOLUTELY.replace(REPEATED, cycle) for cycle in COUNTED))],
    "a port of the PDU": [
        (PORT_REFS, ""), ("<ABSOLUTELY-SCHEDULED-TIMINGS>", f"<PDU-TRIGGERINGS>{OF_PDU}</PDU-TRIGGERINGS><ABSOLUTELY-SCHEDULED-TIMINGS>"),
        ("</FRAME-TRIGGERINGS>", f"</FRAME-TRIGGERINGS><PDU-TRIGGERING><SHORT-NAME>OfPdu</SHORT-NAME>{PDU_PORT}</PDU-TRIGGERING>"),
        ("</FRAME-PORT>", f"</FRAME-PORT>{PDU_OUT}"),
    ],
    "a length of the system's signal": [
        ("y</SHORT-NAME><LENGTH>8</LENGTH>", 'y</SHORT-NAME><SYSTEM-SIGNAL-REF DEST="SYSTEM-SIGNAL">/P/Y</SYSTEM-SIGNAL-REF>'),
        ("</ELEMENTS>", "<SYSTEM-SIGNAL><SHORT-NAME>Y</SHORT-NAME><LENGTH>8</LENGTH></SYSTEM-SIGNAL></ELEMENTS>"),
    ],
}


class OtherWords(FileCase):
    """What AUTOSAR tells in several ways is read in each; special data that contradicts the file is noted."""

    def test_words(self):
        _, first = self.read(TYPED, {})
        for name, changes in OTHER_WORDS.items():
            text = TYPED
            for old, new in changes:
                self.see(f"{name}: {old} is there", 1, text.count(old))
                text = text.replace(old, new)
            _, proposal = self.read(text, {})
            self.see(f"the plan with other {name}", first.plan, proposal.plan)
            self.see(f"what other {name} leave out", [], [note for note in proposal.notes if note.kind != "not kept"])

    def test_single_cycles(self):
        """Cycles that are told one by one become the most frequent repetitions, by their bases."""
        self.see("all cycles", [(0, 1)], folded(range(64), 64))
        self.see("each third of 12", [(2, 3)], folded({2, 5, 8, 11}, 12))
        self.see("the even ones, and one besides", [(0, 2), (3, 10)], folded({0, 2, 3, 4, 6, 8}, 10))

    def test_flags(self):
        """What a triggering says of its payload the register has no word for."""
        for tag in "PAYLOAD-PREAMBLE-INDICATOR", "ALLOW-DYNAMIC-L-SDU-LENGTH":
            for text, count in ("true", 1), ("1", 1), ("false", 0), ("0", 0):
                flag = f"<{tag}>{text}</{tag}></FLEXRAY-FRAME-TRIGGERING>"
                _, proposal = self.read(TYPED.replace("</FLEXRAY-FRAME-TRIGGERING>", flag), {})
                notes = [note for note in proposal.notes if tag in note.why and note[:2] == ("not kept", "/P/C/A/T")]
                self.see(f"notes of {flag}", count, len(notes))

    def test_text_beside(self):
        """Text between elements says nothing in AUTOSAR. It is noted, wherever it stands."""
        for text in TYPED.replace("<ECU-INSTANCE>", "<ECU-INSTANCE>a remark"), TYPED.replace("</ECU-INSTANCE>", "a remark</ECU-INSTANCE>"):
            _, proposal = self.read(text, {})
            self.see("a note", True, ("not kept", "text beside the elements of ECU-INSTANCE", "1 in the file") in proposal.notes)

    def test_apart(self):
        """Special data may say that a frame is placed apart on A and on B. Of one that is sent on A alone that is noted."""
        apart = '<SHORT-NAME>f</SHORT-NAME><ADMIN-DATA><SDGS><SDG GID="slotplan"><SD GID="apart">2 1 4</SD></SDG></SDGS></ADMIN-DATA>'
        _, proposal = self.read(TYPED.replace("<SHORT-NAME>f</SHORT-NAME>", apart), {})
        self.see("placements", (Placement(2, "A", 1, 4),), proposal.plan.frames[0].placements)
        self.see("a note", True, ("not kept", "/P/f: apart 2 1 4", "it is not sent so on A and on B") in proposal.notes)

    def test_idle(self):
        """Grants that no frame uses: of a slot that is free, of those that the cluster has not, and of one in which another ECU sends."""
        told = lambda name, *grants: "".join([f'<SD GID="supplier">{name}</SD>', *(f'<SD GID="grant">{grant}</SD>' for grant in grants)])
        other = between("<ECU-INSTANCE>", "<FLEXRAY-FRAME>").replace(">n1<", ">n2<").replace(told("s1"), told("s2", "2 A", "4 A"))
        text = TYPED.replace(told("s1"), told("s1", "3 A", "5 A", "0 A", "3 B", "4 A")).replace("<FLEXRAY-FRAME>", f"{other}<FLEXRAY-FRAME>")
        connector = between("<COMMUNICATION-CONNECTOR-REF-CONDITIONAL>", "</COMM-CONNECTORS>")
        _, proposal = self.read(text.replace(connector, connector + connector.replace("/n1/", "/n2/")), {})
        self.see("grants", (Grant(2, "A", "s1", "n1"), Grant(3, "A", "s1", "n1"), Grant(4, "A", "s1", "n1")), proposal.plan.grants)
        left = [(f"grant of slot {slot} to /P/n1", "the cluster has no such slot") for slot in ("0 on A", "3 on B", "5 on A")]
        left += [(f"grant of slot {slot} on A to /P/n2", "s1.n1 has it") for slot in (2, 4)]
        self.see("left out", sorted(left), sorted((note.what, note.why) for note in proposal.notes if note.kind == "left out"))


class Foreign(FileCase):
    """A description as another tool writes it becomes these rows, and these notes."""

    def test_notes(self):
        _, proposal = self.read(arxml.foreign())
        wanted = sorted(line.split(" | ") for line in NOTES.splitlines() if line)
        got = sorted(proposal.notes)
        self.see("notes", [(kind, what) for kind, what, _ in wanted], [(note.kind, note.what) for note in got])
        for kind, what, why in wanted:
            self.see(f"{kind} {what}: {why}", True, any(why in note.why for note in got if note[:2] == (kind, what)))

    def test_rows(self):
        """The register takes each row."""
        found, proposal = self.read(arxml.foreign())
        place = self.folder / "made"
        folder.write(place, proposal)
        answers, _ = reports((place / "cluster.toml").read_text(), requests_of(place), ["v1"])
        self.see("refusals", [], [it for it in answers if "refused" in it])
        files = ["brakes", "cluster.toml", "gears", "grants.csv", "names.csv", "nodes.csv", "notes.csv", "requests.txt"]
        self.see("its files", files, sorted(it.name for it in place.iterdir()))
        comment = "# The cluster Chassis. A macrotick lasts 1.375E-6 s. A cycle lasts 0.005 s."
        self.see("the comment", comment, (place / "cluster.toml").read_text().split("\n")[0])
        text = lambda name: "".join(file.read_text() for file in sorted(place.glob(f"*/*_{name}.csv")))
        self.see("frames", FRAMES, text("frames"))
        self.see("placements", PLACEMENTS, text("placements"))
        self.see("signals", SIGNALS, text("signals"))

    def test_modes(self):
        """Only its owner may read the folder and the files with keys."""
        _, proposal = self.read(arxml.foreign())
        folder.write(self.folder / "made", proposal)
        for path in [self.folder / "made", *(self.folder / "made").rglob("*")]:
            self.see(str(path), 0o700 if path.is_dir() else 0o600, path.stat().st_mode & 0o777)


class NothingIsLost(FileCase):
    """Each leaf, triggering, timing and signal of a file stands in the proposal or in the notes: without it something else comes of the file."""

    step = 16
    seconds = 20

    def each_leaf(self, text, more=1):
        """Tries every so many leaves, of a file with many one of `more`."""
        root = ET.fromstring(text)
        whole = self.outcome(text)
        self.see("it is read", True, isinstance(whole, tuple))
        above = {child: element for element in root.iter() for child in element}
        leaves = [it for it in root.iter() if len(it) == 0 and (it.text or "").strip()]
        self.see("it has leaves", True, len(leaves) > 400)
        for leaf in leaves[self.turn % (self.each * more) :: self.each * more]:
            place, name = list(above[leaf]).index(leaf), f"{above[leaf].tag.rpartition('}')[2]}/{leaf.tag.rpartition('}')[2]} {leaf.text}"
            above[leaf].remove(leaf)
            without = self.outcome(ET.tostring(root, "unicode"))
            above[leaf].insert(place, leaf)
            self.see(f"{name} counts", True, without != whole or self.counts(root, leaf, whole))

    def counts(self, root, leaf, whole):
        """Whether something else comes of the file with another value there. A text that makes no sense does not count."""
        kept, is_number = leaf.text, re.fullmatch(r"\d+", leaf.text)
        leaf.text = str(int(kept) + 1) if is_number else f"{kept}x"
        other = self.outcome(ET.tostring(root, "unicode"))
        leaf.text = kept
        return other != whole and (is_number is not None or isinstance(other, tuple))

    def test_leaves_of_another_tool(self):
        self.each_leaf(arxml.foreign())

    def test_leaves_of_a_plan(self):
        self.each_leaf(exported(Shape(frames=5, words=2, slots=12, suppliers=2), random.Random(7), self.folder), more=3)

    def test_rows(self):
        for number in range(4):
            text = exported(Shape(frames=8), random.Random(number), self.folder) if number else arxml.foreign()
            _, proposal = self.read(text)
            self.see(f"rows of file {number} that are lost", [], lost(text, proposal))


def exported(shape, dice, place):
    """The description of a plan by chance."""
    _, told = reports(shape.cluster(dice), "".join(shape.requests(dice)), ["v1"])
    with open(place / "exported.arxml", "w") as file:
        writing.write(file, read(Told(told), "v1"), writing.Options(macrotick="1.5"))
    return (place / "exported.arxml").read_text()
