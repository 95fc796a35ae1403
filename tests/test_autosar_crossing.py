"""A frame that goes to another channel, comes to a second one, is gone or new: the file's elements that do so too, as they were typed by hand."""
from dataclasses import replace

from clients.slotplan_plans.plan import Grant, Placement
from tests.test_autosar_update import UpdateCase


def channel(letter, triggerings="", pdus="", signals="", other=""):
    """A channel of the typed file, in which each of these stands as it is."""
    of = lambda tag, inside: f"        <{tag}>{inside}\n        </{tag}>\n" if inside else ""
    return f"""\
      <FLEXRAY-PHYSICAL-CHANNEL>
        <SHORT-NAME>Ch{letter}</SHORT-NAME>
        <COMM-CONNECTORS>
          <COMMUNICATION-CONNECTOR-REF-CONDITIONAL>
            <COMMUNICATION-CONNECTOR-REF DEST="FLEXRAY-COMMUNICATION-CONNECTOR">/E/n1/K{letter}</COMMUNICATION-CONNECTOR-REF>
          </COMMUNICATION-CONNECTOR-REF-CONDITIONAL>
          <COMMUNICATION-CONNECTOR-REF-CONDITIONAL>
            <COMMUNICATION-CONNECTOR-REF DEST="FLEXRAY-COMMUNICATION-CONNECTOR">/E/n2/K{letter}</COMMUNICATION-CONNECTOR-REF>
          </COMMUNICATION-CONNECTOR-REF-CONDITIONAL>
        </COMM-CONNECTORS>
{of("FRAME-TRIGGERINGS", triggerings)}{of("I-SIGNAL-TRIGGERINGS", signals)}{of("PDU-TRIGGERINGS", pdus)}{other}\
        <CHANNEL-NAME>CHANNEL-{letter}</CHANNEL-NAME>
      </FLEXRAY-PHYSICAL-CHANNEL>
"""


def triggering(letter, slot=2, uuid=' UUID="4711"'):
    """The triggering of the typed file's frame on a channel, with the ports of its sender and of who receives it."""
    return f"""
          <FLEXRAY-FRAME-TRIGGERING{uuid}>
            <SHORT-NAME>FT_f_{letter}</SHORT-NAME>
            <FRAME-PORT-REFS>
              <FRAME-PORT-REF DEST="FRAME-PORT">/E/n1/K{letter}/f_{letter}</FRAME-PORT-REF>
              <FRAME-PORT-REF DEST="FRAME-PORT">/E/n2/K{letter}/In</FRAME-PORT-REF>
            </FRAME-PORT-REFS>
            <FRAME-REF DEST="FLEXRAY-FRAME">/F/f</FRAME-REF>
            <PDU-TRIGGERINGS>
              <PDU-TRIGGERING-REF-CONDITIONAL>
                <PDU-TRIGGERING-REF DEST="PDU-TRIGGERING">/C/C/Ch{letter}/PT_f</PDU-TRIGGERING-REF>
              </PDU-TRIGGERING-REF-CONDITIONAL>
            </PDU-TRIGGERINGS>
            <ABSOLUTELY-SCHEDULED-TIMINGS>
              <FLEXRAY-ABSOLUTELY-SCHEDULED-TIMING>
                <COMMUNICATION-CYCLE>
                  <CYCLE-REPETITION>
                    <BASE-CYCLE>1</BASE-CYCLE>
                    <CYCLE-REPETITION>CYCLE-REPETITION-4</CYCLE-REPETITION>
                  </CYCLE-REPETITION>
                </COMMUNICATION-CYCLE>
                <SLOT-ID>{slot}</SLOT-ID>
              </FLEXRAY-ABSOLUTELY-SCHEDULED-TIMING>
            </ABSOLUTELY-SCHEDULED-TIMINGS>
            <PAYLOAD-PREAMBLE-INDICATOR>false</PAYLOAD-PREAMBLE-INDICATOR>
          </FLEXRAY-FRAME-TRIGGERING>"""


def pdu_triggering(letter, uuid=' UUID="4712"'):
    return f"""
          <PDU-TRIGGERING{uuid}>
            <SHORT-NAME>PT_f</SHORT-NAME>
            <I-PDU-REF DEST="I-SIGNAL-I-PDU">/F/p</I-PDU-REF>
            <I-SIGNAL-TRIGGERINGS>
              <I-SIGNAL-TRIGGERING-REF-CONDITIONAL>
                <I-SIGNAL-TRIGGERING-REF DEST="I-SIGNAL-TRIGGERING">/C/C/Ch{letter}/ST_x</I-SIGNAL-TRIGGERING-REF>
              </I-SIGNAL-TRIGGERING-REF-CONDITIONAL>
            </I-SIGNAL-TRIGGERINGS>
          </PDU-TRIGGERING>"""


def signal_triggering(uuid=' UUID="4713"'):
    return f"""
          <I-SIGNAL-TRIGGERING{uuid}>
            <SHORT-NAME>ST_x</SHORT-NAME>
            <I-SIGNAL-REF DEST="I-SIGNAL">/F/x</I-SIGNAL-REF>
          </I-SIGNAL-TRIGGERING>"""


def port(name, direction, uuid=""):
    return f"""
          <FRAME-PORT{uuid}>
            <SHORT-NAME>{name}</SHORT-NAME>
            <COMMUNICATION-DIRECTION>{direction}</COMMUNICATION-DIRECTION>
          </FRAME-PORT>"""


def ecu(name, supplier, **ports):
    """An ECU with a connector for each channel, and these ports."""
    connectors = "".join(f"""
        <FLEXRAY-COMMUNICATION-CONNECTOR>
          <SHORT-NAME>K{letter}</SHORT-NAME>
          <ECU-COMM-PORT-INSTANCES>{ports[letter]}
          </ECU-COMM-PORT-INSTANCES>
        </FLEXRAY-COMMUNICATION-CONNECTOR>""" for letter in "AB")
    return f"""\
    <ECU-INSTANCE>
      <SHORT-NAME>{name}</SHORT-NAME>
      <ADMIN-DATA><SDGS><SDG GID="slotplan"><SD GID="supplier">{supplier}</SD></SDG></SDGS></ADMIN-DATA>
      <CONNECTORS>{connectors}
      </CONNECTORS>
    </ECU-INSTANCE>
"""


def whole(a, b, n1, n2, system="/C/C/ChA/PT_f"):
    """The typed file: a frame of one PDU with one signal, two ECUs, and a mapping that refers to the PDU's triggering."""
    return f"""\
<?xml version="1.0" encoding="utf-8"?>
<!-- by hand -->
<AUTOSAR xmlns="http://autosar.org/schema/r4.0"><AR-PACKAGES>
  <AR-PACKAGE><SHORT-NAME>C</SHORT-NAME><ELEMENTS>
    <FLEXRAY-CLUSTER><SHORT-NAME>C</SHORT-NAME><FLEXRAY-CLUSTER-VARIANTS><FLEXRAY-CLUSTER-CONDITIONAL><PHYSICAL-CHANNELS>
{a}{b}    </PHYSICAL-CHANNELS>
      <MACRO-PER-CYCLE>100</MACRO-PER-CYCLE><NETWORK-IDLE-TIME>10</NETWORK-IDLE-TIME><NUMBER-OF-STATIC-SLOTS>4</NUMBER-OF-STATIC-SLOTS>
      <PAYLOAD-LENGTH-STATIC>1</PAYLOAD-LENGTH-STATIC><STATIC-SLOT-DURATION>10</STATIC-SLOT-DURATION>
    </FLEXRAY-CLUSTER-CONDITIONAL></FLEXRAY-CLUSTER-VARIANTS></FLEXRAY-CLUSTER>
    <SECURED-I-PDU><SHORT-NAME>Secured</SHORT-NAME><PAYLOAD-REF DEST="PDU-TRIGGERING">{system}</PAYLOAD-REF></SECURED-I-PDU>
  </ELEMENTS></AR-PACKAGE>
  <AR-PACKAGE><SHORT-NAME>E</SHORT-NAME><ELEMENTS>
{n1}{n2}  </ELEMENTS></AR-PACKAGE>
  <AR-PACKAGE><SHORT-NAME>F</SHORT-NAME><ELEMENTS>
    <FLEXRAY-FRAME><SHORT-NAME>f</SHORT-NAME><FRAME-LENGTH>2</FRAME-LENGTH><PDU-TO-FRAME-MAPPINGS>
      <PDU-TO-FRAME-MAPPING><SHORT-NAME>M</SHORT-NAME><PACKING-BYTE-ORDER>MOST-SIGNIFICANT-BYTE-LAST</PACKING-BYTE-ORDER>
        <PDU-REF DEST="I-SIGNAL-I-PDU">/F/p</PDU-REF><START-POSITION>0</START-POSITION></PDU-TO-FRAME-MAPPING>
    </PDU-TO-FRAME-MAPPINGS></FLEXRAY-FRAME>
    <I-SIGNAL-I-PDU><SHORT-NAME>p</SHORT-NAME><LENGTH>2</LENGTH><I-SIGNAL-TO-PDU-MAPPINGS>
      <I-SIGNAL-TO-I-PDU-MAPPING><SHORT-NAME>of_x</SHORT-NAME><I-SIGNAL-REF DEST="I-SIGNAL">/F/x</I-SIGNAL-REF>
        <PACKING-BYTE-ORDER>MOST-SIGNIFICANT-BYTE-LAST</PACKING-BYTE-ORDER><START-POSITION>4</START-POSITION></I-SIGNAL-TO-I-PDU-MAPPING>
    </I-SIGNAL-TO-PDU-MAPPINGS></I-SIGNAL-I-PDU>
    <I-SIGNAL><SHORT-NAME>x</SHORT-NAME><LENGTH>8</LENGTH></I-SIGNAL>
  </ELEMENTS></AR-PACKAGE>
</AR-PACKAGES></AUTOSAR>
"""


IN, OUT = port("In", "IN"), port("f_A", "OUT", ' UUID="4714"')
N2 = ecu("n2", "s2", A=IN, B=IN)
ON_A = whole(
    channel("A", triggering("A"), pdu_triggering("A"), signal_triggering()), channel("B"),
    ecu("n1", "s1", A=OUT + port("Else", "OUT"), B=port("Else", "OUT")), N2,
)


class Channels(UpdateCase):
    """A frame of one triggering, whose port, PDU and signal are its own on channel A."""

    def carried(self, *placements, text=ON_A):
        """The text in which the frame has these placements."""
        plan = self.imported(text.encode(), {})
        lanes = {(it.slot, channel) for it in placements for channel in it.channels}
        frame = replace(plan.frames[0], placements=placements)
        wanted = replace(plan, frames=(frame,), grants=tuple(sorted(Grant(*lane, "s1", "n1") for lane in lanes)))
        updated, written = self.updated(wanted)
        self.see("what is left", [], updated.left)
        self.is_the_plan("it is the plan", written, wanted)
        return written.decode()

    def test_to_the_other(self):
        """It goes to B, in another slot: the triggering goes with its port, its PDU's and its signal's; who refers to those follows."""
        wanted = whole(
            channel("A"), channel("B", triggering("B", 3), pdu_triggering("B"), signal_triggering()),
            ecu("n1", "s1", A=port("Else", "OUT"), B=port("Else", "OUT") + OUT.replace("f_A", "f_B")), N2, "/C/C/ChB/PT_f",
        )
        self.see("the text", wanted, self.carried(Placement(3, "B", 1, 4)))

    def test_to_both(self):
        """It comes to B too: the triggering has a twin, and copies have no UUID."""
        wanted = whole(
            channel("A", triggering("A"), pdu_triggering("A"), signal_triggering()),
            channel("B", triggering("B", uuid=""), pdu_triggering("B", ""), signal_triggering("")),
            ecu("n1", "s1", A=OUT + port("Else", "OUT"), B=port("Else", "OUT") + port("f_B", "OUT")), N2,
        )
        self.see("the text", wanted, self.carried(Placement(2, "AB", 1, 4)))

    def test_to_one(self):
        """From both it goes to B alone: the triggering on A goes, and what it referred to stays."""
        both = whole(
            channel("A", triggering("A"), pdu_triggering("A"), signal_triggering()),
            channel("B", triggering("B"), pdu_triggering("B"), signal_triggering()),
            ecu("n1", "s1", A=OUT, B=port("f_B", "OUT")), N2,
        )
        self.see("the text", both.replace(f"        <FRAME-TRIGGERINGS>{triggering('A')}\n        </FRAME-TRIGGERINGS>\n", ""),
                 self.carried(Placement(2, "B", 1, 4), text=both))

    def test_nowhere(self):
        """It is sent no more: the triggering stays without its timing, and special data keeps who sends the frame."""
        timings = ON_A[ON_A.index("            <ABSOLUTELY") : ON_A.index("            <PAYLOAD-PREAMBLE")]
        data = "<ADMIN-DATA><SDGS><SDG GID=\"slotplan\"><SD GID=\"ecu\">/E/n1</SD></SDG></SDGS></ADMIN-DATA>"
        written = self.carried()
        told = written[written.index("<SHORT-NAME>f</SHORT-NAME>") : written.index("<FRAME-LENGTH>")]
        self.see("special data", f"<SHORT-NAME>f</SHORT-NAME>{data}", told)
        self.see("the text", ON_A.replace(timings, ""), written.replace(data, ""))
        self.see("it comes back", ON_A.splitlines(), self.back(written, Placement(2, "A", 1, 4)).splitlines())

    def back(self, text, *placements):
        return self.carried(*placements, text=text)
