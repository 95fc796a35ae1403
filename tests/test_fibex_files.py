"""What a FIBEX file of another tool becomes: bits, rows and notes that were typed by hand. Each leaf stands in the proposal or the notes; and files
that are damaged, or none."""
import random
import re
import xml.etree.ElementTree as ET

from clients.slotplan_plans.autosar import folder
from clients.slotplan_plans.autosar.proposal import Proposal
from clients.slotplan_plans.faults import Fault
from clients.slotplan_plans.fibex import reading, writing
from clients.slotplan_plans.plan import Grant, Node, Placement, Signal
from clients.slotplan_plans.reading import read
from tests.drivers.autosar_registers import Shape, Told, reports, requests_of
from tests.models import fibex
from tests.models.damaged import damaged, unsound
from tests.models.scripts import DONE
from tests.runner.case import Case
from tests.runner.parameters import for_each

# The figures of a cluster, an ECU with a port, and a frame with a PDU in which a signal of each order lies.
TYPED = """\
<?xml version="1.0" encoding="utf-8"?>
<FIBEX xmlns="http://www.asam.net/xml/fbx" xmlns:ho="http://www.asam.net/xml" VERSION="3.1.0">
<ELEMENTS>
  <CLUSTERS><CLUSTER ID="c"><ho:SHORT-NAME>C</ho:SHORT-NAME>
    <IS-HIGH-LOW-BIT-ORDER>false</IS-HIGH-LOW-BIT-ORDER>
    <BIT-COUNTING-POLICY>MONOTONE</BIT-COUNTING-POLICY>
    <PROTOCOL>FlexRay</PROTOCOL>
    <CHANNEL-REFS><CHANNEL-REF ID-REF="a"/></CHANNEL-REFS>
    <N-I-T>10</N-I-T>
    <STATIC-SLOT>10</STATIC-SLOT>
    <SYMBOL-WINDOW>10</SYMBOL-WINDOW>
    <MACRO-PER-CYCLE>100</MACRO-PER-CYCLE>
    <NUMBER-OF-STATIC-SLOTS>4</NUMBER-OF-STATIC-SLOTS>
    <PAYLOAD-LENGTH-STATIC>1</PAYLOAD-LENGTH-STATIC>
  </CLUSTER></CLUSTERS>
  <CHANNELS><CHANNEL ID="a"><ho:SHORT-NAME>A</ho:SHORT-NAME>
    <FRAME-TRIGGERINGS><FRAME-TRIGGERING ID="t"><TIMINGS><ABSOLUTELY-SCHEDULED-TIMING>
      <SLOT-ID>2</SLOT-ID><BASE-CYCLE>1</BASE-CYCLE><CYCLE-REPETITION>4</CYCLE-REPETITION>
    </ABSOLUTELY-SCHEDULED-TIMING></TIMINGS><FRAME-REF ID-REF="fr"/></FRAME-TRIGGERING></FRAME-TRIGGERINGS>
    <FLEXRAY-CHANNEL-NAME>A</FLEXRAY-CHANNEL-NAME>
  </CHANNEL></CHANNELS>
  <ECUS><ECU ID="e"><ho:SHORT-NAME>n1</ho:SHORT-NAME><ho:DESC>slotplan: supplier s1</ho:DESC>
    <CONNECTORS><CONNECTOR ID="k"><CHANNEL-REF ID-REF="a"/>
      <OUTPUTS><OUTPUT-PORT ID="o"><FRAME-TRIGGERING-REF ID-REF="t"/></OUTPUT-PORT></OUTPUTS>
    </CONNECTOR></CONNECTORS>
  </ECU></ECUS>
  <PDUS><PDU ID="p"><ho:SHORT-NAME>pdu</ho:SHORT-NAME><BYTE-LENGTH>2</BYTE-LENGTH><SIGNAL-INSTANCES>
    <SIGNAL-INSTANCE ID="iy"><BIT-POSITION>3</BIT-POSITION><IS-HIGH-LOW-BYTE-ORDER>true</IS-HIGH-LOW-BYTE-ORDER>
      <SIGNAL-REF ID-REF="y"/></SIGNAL-INSTANCE>
    <SIGNAL-INSTANCE ID="ix"><BIT-POSITION>4</BIT-POSITION><IS-HIGH-LOW-BYTE-ORDER>false</IS-HIGH-LOW-BYTE-ORDER>
      <SIGNAL-REF ID-REF="x"/></SIGNAL-INSTANCE>
  </SIGNAL-INSTANCES></PDU></PDUS>
  <FRAMES><FRAME ID="fr"><ho:SHORT-NAME>f</ho:SHORT-NAME><BYTE-LENGTH>2</BYTE-LENGTH><PDU-INSTANCES>
    <PDU-INSTANCE ID="ip"><PDU-REF ID-REF="p"/><BIT-POSITION>0</BIT-POSITION></PDU-INSTANCE>
  </PDU-INSTANCES></FRAME></FRAMES>
  <SIGNALS>
    <SIGNAL ID="y"><ho:SHORT-NAME>y</ho:SHORT-NAME><CODING-REF ID-REF="b8"/></SIGNAL>
    <SIGNAL ID="x"><ho:SHORT-NAME>x</ho:SHORT-NAME><CODING-REF ID-REF="b8"/></SIGNAL>
  </SIGNALS>
</ELEMENTS>
<PROCESSING-INFORMATION><CODINGS><CODING ID="b8"><ho:SHORT-NAME>eight</ho:SHORT-NAME>
  <ho:CODED-TYPE><ho:BIT-LENGTH>8</ho:BIT-LENGTH></ho:CODED-TYPE>
</CODING></CODINGS></PROCESSING-INFORMATION>
</FIBEX>
"""
# Kind, what, and a part of why.
NOTES = """
not kept | minislots | 289 of 5 macroticks
left out | /CHANNEL/Ch_X1 | its FLEXRAY-CHANNEL-NAME is C: there may be one A and one B
left out | Z1 | a channel of the cluster that is not in this file
left out | /CHANNEL/Ch_A1/t3: slot 70 on A, base 0, repetition 2 | it lies in the dynamic segment: the static one has 31 slots
left out | /CHANNEL/Ch_A1/t4: slot 90 on A, base 0, repetition 1 | it lies in the dynamic segment: the static one has 31 slots
left out | /CHANNEL/Ch_A1/t6: slot 10 on A, cycle 64 | the cluster has 64 cycles
left out | /CHANNEL/Ch_A1/t7: slot 11 on A, base 4, repetition 4 | that is no base and repetition of 64 cycles
left out | /CHANNEL/Ch_A1/t8: slot 12 on A, base 0, repetition 5 | that is no base and repetition of 64 cycles
left out | /CHANNEL/Ch_A1/t9 | its frame f_missing is not in this file
left out | /CHANNEL/Ch_A1/t10 | it has no ABSOLUTELY-SCHEDULED-TIMING
not kept | /CHANNEL/Ch_A1/t12 | no OUTPUT-PORT says which ECU sends it
left out | /CHANNEL/Ch_A1/t18: slot 0 on A, base 0, repetition 1 | it has no SLOT-ID from 1 on
left out | /CHANNEL/Ch_A1/t19: slot 18 on A | it has no cycle, or no base and repetition
left out | /FRAME/Dynamic | a frame that the static segment of this cluster does not send
left out | /FRAME/Over | a frame that the static segment of this cluster does not send
left out | /FRAME/Bad | a frame that the static segment of this cluster does not send
left out | /FRAME/Five | a frame that the static segment of this cluster does not send
left out | /FRAME/Never | a frame that the static segment of this cluster does not send
left out | /FRAME/Noslot | a frame that the static segment of this cluster does not send
left out | /FRAME/Nocycle | a frame that the static segment of this cluster does not send
left out | /FRAME/Unused | a frame that the static segment of this cluster does not send
left out | /FRAME/Again | a frame that the static segment of this cluster does not send
changed | /FRAME/Brake: update bit 40 of /SIGNAL/Torque | it becomes the signal Torque_update
left out | /FRAME/Brake: signal s_Gone, start 0, little | it is not in this file
left out | /FRAME/Brake: signal /SIGNAL/NoLength, start 0, little | it has no coding with a BIT-LENGTH
left out | /FRAME/Brake: signal /SIGNAL/NoCoding, start 0, little | it has no coding with a BIT-LENGTH
left out | /FRAME/Brake: signal /SIGNAL/Gear, start missing, little | it needs a BIT-POSITION
left out | /FRAME/Brake: PDU p_lost from bit 64 | it is not in this file
changed | /FRAME/TwoPdus: update bit 127 of /PDU/P_FIRST | it becomes the signal P_FIRST_update
left out | /FRAME/TwoPdus: PDU /PDU/P_BRAKE from bit 3 | it begins within a byte, and its signals with it
changed | /FRAME/Counted: PDU /PDU/P_NM from bit 0 | its type is NM: what it holds is not told bit by bit, so its 2 bytes become one signal
changed | /FRAME/Multiplexed: PDU /PDU/P_MUX from bit 0 | it is multiplexed: what it holds is not told bit by bit, so its 12 bytes become one signal
left out | SIGNAL-INSTANCE i_s_Pressure_0 | a second element of this ID: references lead to the first
left out | FRAME f_brake | a second element of this ID: references lead to the first
not kept | CHANNEL/SHORT-NAME | 3 in the file
not kept | CLUSTER/BIT-COUNTING-POLICY | 1 in the file
not kept | CLUSTER/COLD-START-ATTEMPTS | 1 in the file
not kept | CLUSTER/IS-HIGH-LOW-BIT-ORDER | 1 in the file
not kept | CLUSTER/PROTOCOL | 2 in the file
not kept | CLUSTER/PROTOCOL-VERSION | 2 in the file
not kept | CLUSTER/SHORT-NAME | 1 in the file
not kept | CLUSTER/SPEED | 2 in the file
not kept | CODING/SHORT-NAME | 5 in the file
not kept | COMPU-METHOD/SHORT-NAME | 5 in the file
not kept | COMPU-METHOD/V | 5 in the file
not kept | CONNECTOR/CHANNEL-REF | 6 in the file
not kept | CONTROLLER/KEY-SLOT-USAGE | 4 in the file
not kept | CONTROLLER/SHORT-NAME | 4 in the file
not kept | ECU/SHORT-NAME | 1 in the file
not kept | FRAME-TRIGGERING/BASE-CYCLE | 1 in the file
not kept | FRAME-TRIGGERING/CYCLE-REPETITION | 1 in the file
not kept | FRAME-TRIGGERING/FRAME-REF | 1 in the file
not kept | FRAME-TRIGGERING/SLOT-ID | 1 in the file
not kept | FRAME/BYTE-LENGTH | 9 in the file
not kept | FRAME/FRAME-TYPE | 19 in the file
not kept | FRAME/SHORT-NAME | 9 in the file
not kept | FUNCTION/DESC | 1 in the file
not kept | FUNCTION/SHORT-NAME | 1 in the file
not kept | INPUT-PORT/FRAME-TRIGGERING-REF | 1 in the file
not kept | OUTPUT-PORT/FRAME-TRIGGERING-REF | 9 in the file
not kept | PDU-INSTANCE/IS-HIGH-LOW-BYTE-ORDER | 7 in the file
not kept | PDU/BYTE-LENGTH | 4 in the file
not kept | PDU/PDU-TYPE | 3 in the file
not kept | PDU/SHORT-NAME | 4 in the file
not kept | PROJECT/SHORT-NAME | 1 in the file
not kept | SIGNAL/DEFAULT-VALUE | 8 in the file
not kept | SIGNAL/SHORT-NAME | 2 in the file
not kept | SWITCH/BIT-LENGTH | 1 in the file
not kept | SWITCH/BIT-POSITION | 1 in the file
not kept | UNIT/SHORT-NAME | 1 in the file
not kept | attribute ENCODING | 5 in the file
not kept | /ECU/Gone of the table of suppliers | there is no such ECU on a channel of the cluster
changed | /FRAME/Frame_With_A_Name_That_Is_Longer_Than_The_Register_Takes | it is called Frame_With_A_Name_That_Is_Longer
not kept | /FRAME/Multiplexed | its length of 12 bytes; in the register each frame has 16
left out | /FRAME/NoSender | no ECU of this file sends it; it has 16 bytes, 1 timings and 0 signals
left out | /FRAME/TwoSenders | 2 ECUs send it: /ECU/DSC /ECU/EGS; it has 16 bytes, 1 timings and 0 signals
changed | slot 6 on A | several send in it; it is granted to brakes.DSC alone, and not to gears.EGS
left out | /FRAME/Same: slot 1 on A, base 3, repetition 4 | in cycle 3 on A /FRAME/Brake is sent
left out | /FRAME/Shared_Two: slot 6 on A, base 1, repetition 4 | another node is granted the slot
changed | /FRAME/Brake: signal Blob, start 48, length 80, little | it becomes 2 signals of at most 64 bits, Blob_0 and so on
left out | /FRAME/Brake: signal Overlap, start 20, length 8, little | bit 20 is used by Torque
left out | /FRAME/Brake: signal Beyond, start 120, length 16, little | bit 135 is none of the payload, which has 128 bits
changed | /FRAME/Multiplexed: signal P_MUX, start 0, length 96, little | it becomes 2 signals of at most 64 bits, P_MUX_0 and so on
changed | /FRAME/TwoPdus: signal Pressure, start 64, length 12, little | it is called Pressure_2
"""
FRAMES = """\
frame,node
Brake,DSC
Frame_With_A_Name_That_Is_Longer,ZGW
Multiplexed,ZGW
Same,DSC
Shared_One,DSC
frame,node
Counted,EGS
Shared_Two,EGS
TwoPdus,EGS
"""
PLACEMENTS = """\
frame,node,slot,channels,base,repetition
Brake,DSC,1,AB,0,1
Frame_With_A_Name_That_Is_Longer,ZGW,16,A,0,1
Multiplexed,ZGW,7,A,0,4
Shared_One,DSC,6,A,0,2
frame,node,slot,channels,base,repetition
Counted,EGS,10,A,2,8
Counted,EGS,10,A,5,32
TwoPdus,EGS,2,AB,1,4
TwoPdus,EGS,3,A,3,8
"""
SIGNALS = """\
frame,signal,start,length,order
Brake,Pressure,7,12,big
Brake,Torque,16,16,little
Brake,Torque_update,40,1,little
Brake,Blob_0,48,64,little
Brake,Blob_1,112,16,little
Multiplexed,P_MUX_0,0,64,little
Multiplexed,P_MUX_1,64,32,little
frame,signal,start,length,order
Counted,P_NM,0,16,little
TwoPdus,Pressure,0,12,little
TwoPdus,Pressure_2,64,12,little
TwoPdus,Gear,87,8,big
TwoPdus,P_FIRST_update,127,1,little
"""


class FileCase(Case):
    """A test that reads FIBEX files."""

    in_memory = True

    def read(self, text, table=fibex.SUPPLIERS, senders=None):
        """What is proposed of this text."""
        (self.folder / "file.xml").write_text(text)
        return Proposal(reading.read([self.folder / "file.xml"], senders=senders), table)

    def outcome(self, text, table=fibex.SUPPLIERS):
        """All that comes of this text: the proposal, the notes and the comment, or why it is refused."""
        try:
            proposal = self.read(text, table)
        except Fault as fault:
            return str(fault)
        return proposal.plan, proposal.notes, proposal.found.comment

    def made(self, proposal, name="made"):
        """The answers of a register of a proposal, and its reports."""
        folder.write(self.folder / name, proposal)
        return reports((self.folder / name / "cluster.toml").read_text(), requests_of(self.folder / name), ["v1"], ["f"])


class Bits(FileCase):
    """Signals of both orders in a file that was typed by hand have the starts, the rows and the values that the register gives them."""

    Y, X = Signal(3, 8, "big", "y"), Signal(4, 8, "little", "x")

    def test_read(self):
        """One frame of a word: `y` big from bit 3, `x` little from bit 4, each of 8 bits."""
        proposal = self.read(TYPED, {})
        self.see("signals", (self.Y, self.X), proposal.plan.frames[0].signals)
        self.see("placements", (Placement(2, "A", 1, 4),), proposal.plan.frames[0].placements)
        self.see("nodes", (Node("s1", "n1"),), proposal.plan.nodes)
        self.see("grants", (Grant(2, "A", "s1", "n1"),), proposal.plan.grants)
        self.see("notes", [], [note for note in proposal.notes if note.kind != "not kept"])
        answers, told = self.made(proposal)
        self.see("the register takes them", [DONE] * 3 + ['{"ok":"imported","rows":1}'] * 2 + ['{"ok":"imported","rows":2}'], answers)
        self.see("layout", '{"lines":["0003 08 big y","0004 08 little x"],"ok":"layout"}', told["s1", "layout", "v1", "f"])

    def test_counting(self):
        """Bits are counted from the least of a byte on; but from the greatest on where they are counted as they are sent, and that is sent first."""
        for policy, high, y, x, changed in (
            ("MONOTONE", "false", 3, 4, 0), ("SAWTOOTH", "false", 3, 4, 1), ("SAWTOOTH", "true", 3, 4, 1), ("MONOTONE", "true", 4, 3, 1),
        ):
            text = TYPED.replace(">MONOTONE<", f">{policy}<").replace("BIT-ORDER>false", f"BIT-ORDER>{high}")
            # (each signal has one bit, so that both have room however they are counted)
            proposal = self.read(text.replace("LENGTH>8<", "LENGTH>1<"), {})
            got = {it.name: it.start for it in proposal.plan.frames[0].signals}
            notes = [note for note in proposal.notes if note.what == "places of signals"]
            self.see(f"{policy} {high}", ({"y": y, "x": x}, changed), (got, len(notes)))

    def test_missing(self):
        """A file may say nothing of how it counts."""
        text = re.sub(" *<(IS-HIGH-LOW-BIT-ORDER|BIT-COUNTING-POLICY)>.*\n", "", TYPED)
        self.see("signals", (self.Y, self.X), self.read(text, {}).plan.frames[0].signals)


XSI = "http://www.w3.org/2001/XMLSchema-instance"
OTHER_WORDS = {
    "numbers": [("CYCLE>100<", "CYCLE>0x64<"), ("N-I-T>10<", "N-I-T>1e1<"), ("SLOT>10<", "SLOT>10.0<")],
    "spaces": [("<SLOT-ID>2<", "<SLOT-ID>\n  2 <"), ('REF ID-REF="fr"', 'REF ID-REF=" fr "')],
    "a channel's name": [("NAME>A</FLEXRAY", "NAME>Channel_A</FLEXRAY")],
    "release 4.1": [('VERSION="3.1.0"', 'VERSION="4.1.0"'), ("</CHANNEL-REFS>", "</CHANNEL-REFS><CYCLE-COUNT-MAX>63</CYCLE-COUNT-MAX>")],
    "single cycles": [
        ("<SLOT-ID>2</SLOT-ID><BASE-CYCLE>1</BASE-CYCLE><CYCLE-REPETITION>4</CYCLE-REPETITION>",
         "</ABSOLUTELY-SCHEDULED-TIMING><ABSOLUTELY-SCHEDULED-TIMING>".join(
             f"<SLOT-ID>2</SLOT-ID><CYCLE-COUNTER>{cycle}</CYCLE-COUNTER>" for cycle in range(1, 64, 4))),
    ],
    "signals that lie in the frame": [
        ('<PDU-INSTANCES>\n    <PDU-INSTANCE ID="ip"><PDU-REF ID-REF="p"/><BIT-POSITION>0</BIT-POSITION></PDU-INSTANCE>\n  </PDU-INSTANCES>',
         TYPED[TYPED.index("<SIGNAL-INSTANCES>") : TYPED.index("</PDU>")].replace('ID="i', 'ID="f')),
    ],
}


class OtherWords(FileCase):
    """What FIBEX tells in several ways is read in each."""

    def test_words(self):
        first = self.read(TYPED, {})
        for name, changes in OTHER_WORDS.items():
            text = TYPED
            for old, new in changes:
                self.see(f"{name}: {old} is there", 1, text.count(old))
                text = text.replace(old, new)
            proposal = self.read(text, {})
            self.see(f"the plan with other {name}", first.plan, proposal.plan)
            self.see(f"what other {name} leave out", [], [note for note in proposal.notes if note.kind != "not kept"])

    def test_names(self):
        """Of two elements of one name the ID is told too."""
        other = TYPED[TYPED.index("<ECU ID") : TYPED.index("</ECUS>")]
        for old, new in ('"e"', '"e2"'), ('"k"', '"k2"'), ('"o"', '"o2"'), ('"t"', '"none"'):
            other = other.replace(old, new)
        proposal = self.read(TYPED.replace("</ECUS>", f"{other}</ECUS>"), {})
        self.see("nodes", (Node("s1", "n1"), Node("s1", "n1_2")), proposal.plan.nodes)
        self.see("a note", ["/ECU/n1"], [note.what for note in proposal.notes if note.kind == "changed"])

    def test_beside(self):
        """Texts between elements, and attributes that say something, are noted; what is for schemas says nothing."""
        text = TYPED.replace("<FIBEX ", f'<FIBEX xmlns:xsi="{XSI}" ').replace('<FRAME ID="fr">', '<FRAME ID="fr" OID="7" xsi:type="x">a remark')
        notes = self.read(text, {}).notes
        for what in "text beside the elements of FRAME", "attribute OID":
            self.see(what, True, ("not kept", what, "1 in the file") in notes)
        self.see("of schemas", [], [note for note in notes if "type" in note.what])

    def test_senders(self):
        """Who sends a frame that no port names a table may say, by the triggering's ID and the ECU's name."""
        text = TYPED.replace('<FRAME-TRIGGERING-REF ID-REF="t"/>', "")
        proposal = self.read(text, {})
        self.see("without it", (), proposal.plan.frames)
        proposal = self.read(text, {}, {"t": "n1", "t9": "n1"})
        self.see("with it", self.read(TYPED, {}).plan, proposal.plan)
        note = "not kept", "t9 of the table of senders", "no such triggering is without a sender in the file"
        self.see("a row of no use", True, note in proposal.notes)
        with self.assertRaisesRegex(Fault, "^the table of senders gives /CHANNEL/A/t the ECU 'n2': the file has none of that name$"):
            self.read(text, {}, {"t": "n2"})


class Foreign(FileCase):
    """A file as another tool writes it becomes these rows, and these notes."""

    def test_notes(self):
        proposal = self.read(fibex.foreign())
        wanted = sorted(line.split(" | ") for line in NOTES.splitlines() if line)
        got = sorted(proposal.notes)
        self.see("notes", [(kind, what) for kind, what, _ in wanted], [(note.kind, note.what) for note in got])
        for kind, what, why in wanted:
            self.see(f"{kind} {what}: {why}", True, any(why in note.why for note in got if note[:2] == (kind, what)))

    def test_rows(self):
        """The register takes each row."""
        answers, _ = self.made(self.read(fibex.foreign()))
        self.see("refusals", [], [it for it in answers if "refused" in it])
        place = self.folder / "made"
        comment = "# The cluster Chassis. A macrotick lasts 1.375 us. A cycle lasts 5000 us."
        self.see("the comment", comment, (place / "cluster.toml").read_text().split("\n")[0])
        text = lambda name: "".join(file.read_text() for file in sorted(place.glob(f"*/*_{name}.csv")))
        self.see("frames", FRAMES, text("frames"))
        self.see("placements", PLACEMENTS, text("placements"))
        self.see("signals", SIGNALS, text("signals"))


class NothingIsLost(FileCase):
    """Each leaf and each reference of a file stands in the proposal or in the notes: without it something else comes of the file."""

    step = 8
    seconds = 20

    def each_leaf(self, text, table, more=1):
        """Tries every so many leaves, of a file with many one of `more`."""
        root = ET.fromstring(text)
        whole = self.outcome(text, table)
        self.see("it is read", True, isinstance(whole, tuple))
        above = {child: element for element in root.iter() for child in element}
        leaves = [it for it in root.iter() if len(it) == 0 and ((it.text or "").strip() or it.get("ID-REF"))]
        self.see("it has leaves", True, len(leaves) > 250)
        for leaf in leaves[self.turn % (self.each * more) :: self.each * more]:
            bare = lambda element: element.tag.rpartition("}")[2]
            place, name = list(above[leaf]).index(leaf), f"{bare(above[leaf])}/{bare(leaf)} {leaf.text or leaf.get('ID-REF')}"
            above[leaf].remove(leaf)
            without = self.outcome(ET.tostring(root, "unicode"), table)
            above[leaf].insert(place, leaf)
            self.see(f"{name} counts", True, without != whole or self.counts(root, leaf, whole, table))

    def counts(self, root, leaf, whole, table):
        """Whether something else comes of the file with another value there. A text that makes no sense does not count."""
        if leaf.get("ID-REF"):
            return False
        kept, is_number = leaf.text, re.fullmatch(r"\d+", leaf.text)
        leaf.text = str(int(kept) + 1) if is_number else {"false": "true", "MONOTONE": "SAWTOOTH"}.get(kept, f"{kept}x")
        other = self.outcome(ET.tostring(root, "unicode"), table)
        leaf.text = kept
        return other != whole and (is_number is not None or isinstance(other, tuple))

    def test_leaves_of_another_tool(self):
        self.each_leaf(fibex.foreign(), fibex.SUPPLIERS)

    def test_leaves_of_a_plan(self):
        self.each_leaf(exported(Shape(frames=5, words=2, slots=12, suppliers=2), random.Random(7), self.folder), {}, more=3)


def exported(shape, dice, place):
    """The file of a plan by chance."""
    _, told = reports(shape.cluster(dice), "".join(shape.requests(dice)), ["v1"])
    with open(place / "exported.xml", "w") as file:
        writing.write(file, read(Told(told), "v1"), writing.Options(release="3.1", macrotick="1.5"))
    return (place / "exported.xml").read_text()


OF_EACH = 600


class Damaged(FileCase):
    """Files with faults in 1 to 20 places: 600 of a plan's, and 600 of another tool's."""

    step = 30
    seconds = 20

    def of_this(self, lines, table):
        refused = 0
        for number in range(self.turn % self.each, OF_EACH, self.each):
            dice = random.Random(number)
            hurt = with_other_references(damaged(lines, dice), dice)
            outcome = self.outcome(hurt, table)
            if isinstance(outcome, str):
                refused += 1
                self.see(f"{number}: {outcome} is a line", (True, False), (outcome.isprintable(), outcome.endswith("Error")))
            else:
                proposal = self.read(hurt, table)
                self.see(f"{number}: rules that it breaks", [], unsound(proposal.plan))
                if number % 5 == 0:
                    answers, _ = self.made(proposal, str(number))
                    self.see(f"{number}: refusals", [], [it for it in answers if "refused" in it])
        self.see("some are read", True, refused < OF_EACH // self.each)

    def test_of_a_plan(self):
        self.of_this(exported(Shape(frames=4, words=4), random.Random(3), self.folder), {})

    def test_of_another_tool(self):
        self.of_this(fibex.foreign().replace("><", ">\n<"), fibex.SUPPLIERS)


REFERENCE = re.compile(' ID(?:-REF)?="([^"]*)"')


def with_other_references(text, dice):
    """The text, of which some IDs and references are others, or none."""
    for _ in range(dice.choice((0, 1, 3, 20))):
        found = list(REFERENCE.finditer(text))
        hurt, other = dice.choice(found), dice.choice(found)
        text = text[: hurt.start(1)] + dice.choice((other[1], other[1], "", f" {hurt[1]} ", "none")) + text[hurt.end(1) :]
    return text


def small(**figures):
    """The typed file, with these figures in place of its own."""
    text = TYPED
    for key, value in figures.items():
        tag = key.replace("_", "-")
        text = re.sub(f"<{tag}>.*</{tag}>", f"<{tag}>{value}</{tag}>" if value is not None else "", text)
    return text


CLUSTER = TYPED[TYPED.index("<CLUSTER ") : TYPED.index("</CLUSTERS>")]
TENFOLD = "".join(f'<!ENTITY {name} "{f"&{before};" * 10}">' for before, name in zip("abcdefghi", "bcdefghij"))
REFUSED = {
    "nothing": ("", "is no XML: no element found"),
    "half": (fibex.foreign()[:5000], "is no XML: "),
    "bomb": (f'<!DOCTYPE a [<!ENTITY a "aaaaaaaaaa">{TENFOLD}]><FIBEX>&j;</FIBEX>', "is no XML: limit on input amplification factor"),
    "outside": ('<!DOCTYPE a [<!ENTITY a SYSTEM "file:///etc/hostname">]><FIBEX>&a;</FIBEX>', "is no XML: undefined entity"),
    "another": ('<FIBEX xmlns="http://example.org/"/>', "is no FIBEX: it begins with {http://example.org/}FIBEX"),
    "no cluster": (TYPED.replace(CLUSTER, ""), "there is no FlexRay cluster"),
    "of another bus": (TYPED.replace(">FlexRay<", ">CAN<"), "there is no FlexRay cluster"),
    "two clusters": (TYPED.replace(CLUSTER, CLUSTER + CLUSTER.replace('"c"', '"d"').replace(">C<", ">D<")),
                     "there are 2 FlexRay clusters: /CLUSTER/C /CLUSTER/D; name one with --cluster"),
    "no slots": (small(NUMBER_OF_STATIC_SLOTS=None), "the cluster has no NUMBER-OF-STATIC-SLOTS"),
    "two missing": (small(N_I_T=None, MACRO_PER_CYCLE=None), "the cluster has no N-I-T and no MACRO-PER-CYCLE"),
    "words": (small(PAYLOAD_LENGTH_STATIC=128), "payload_words would be 128; the register takes 0 to 127"),
    "short cycle": (small(MACRO_PER_CYCLE=50), "the segments of the cluster take 60 macroticks, and a cycle has 50"),
    "no number": (small(SYMBOL_WINDOW="wide"), "wide is no number"),
    "half a number": (small(SYMBOL_WINDOW="0.5"), "0.5 is no whole number"),
    "no channel": (TYPED.replace('<CHANNEL-REF ID-REF="a"/></CHANNEL-REFS>', "</CHANNEL-REFS>"), "the cluster has no channel"),
    "no supplier": (TYPED.replace("slotplan: supplier s1", "the node"), "the table of suppliers lacks /ECU/n1; `ecus` prints a table to fill in"),
}


@for_each((name, *case) for name, case in REFUSED.items())
class Refused(FileCase):
    """What is no FIBEX file of one FlexRay cluster is refused, and a line says why."""

    def tried(self, text, why):
        outcome = self.outcome(text, {})
        self.see("it is a text", str, type(outcome))
        self.see("why", why, outcome.removeprefix(f"{self.folder / 'file.xml'} ")[: len(why)] if isinstance(outcome, str) else outcome)
        self.see("it is one line", True, str(outcome).isprintable())

    def test_files(self):
        with self.assertRaises(Fault) as fault:
            reading.read(["one.xml", "two.xml"])
        self.see("why", "FIBEX is one file, and there are 2: one.xml two.xml", str(fault.exception))
