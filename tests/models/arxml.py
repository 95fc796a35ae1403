"""A system description as another tool may write it, put together element by element, with much that a register cannot hold."""
LAST, FIRST, PLAIN = "MOST-SIGNIFICANT-BYTE-LAST", "MOST-SIGNIFICANT-BYTE-FIRST", "I-SIGNAL-I-PDU"
GATEWAY = "Gateway_Of_The_Vehicle_With_A_Very_Long_Name"
LONG_FRAME = "Frame_With_A_Name_That_Is_Longer_Than_The_Register_Takes"
ECUS = "DSC", "EGS", GATEWAY
FIGURES = {
    "BAUDRATE": 10000000, "CYCLE": "0.005", "CYCLE-COUNT-MAX": 63, "COLD-START-ATTEMPTS": 8, "MACRO-PER-CYCLE": 3636,
    "MACROTICK-DURATION": "1.375E-6", "MINISLOT-DURATION": 5, "NETWORK-IDLE-TIME": 44, "NUMBER-OF-MINISLOTS": 289, "NUMBER-OF-STATIC-SLOTS": 31,
    "PAYLOAD-LENGTH-STATIC": 8, "STATIC-SLOT-DURATION": 61, "SYMBOL-WINDOW": 0,
}
# The table of suppliers that is filled in for it.
SUPPLIERS = f"ecu,supplier\n/Ecu/DSC,brakes\nEGS,gears\n/Ecu/{GATEWAY},brakes\n/Ecu/Gone,gears\n"


def element(tag, *inside, **attributes):
    given = "".join(f' {key}="{text}"' for key, text in attributes.items())
    return f"<{tag}{given}>{''.join(map(str, inside))}</{tag}>"


def named(tag, name, *inside):
    return element(tag, element("SHORT-NAME", name), *inside)


def ref(tag, kind, path):
    return element(tag, path, DEST=kind)


def leaves(**texts):
    """Leaves of these names, in which _ stands for -."""
    return "".join(element(tag.replace("_", "-"), text) for tag, text in texts.items())


def package(name, *elements):
    return named("AR-PACKAGE", name, element("ELEMENTS", *elements))


def whole(*packages):
    """A file of packages."""
    return f'<?xml version="1.0" encoding="utf-8"?>\n<AUTOSAR xmlns="http://autosar.org/schema/r4.0">{element("AR-PACKAGES", *packages)}</AUTOSAR>\n'


def absolutely(slot, *cycle):
    return element("FLEXRAY-ABSOLUTELY-SCHEDULED-TIMING", element("COMMUNICATION-CYCLE", *cycle), leaves(SLOT_ID=slot))


def timing(slot, base, repetition):
    return absolutely(slot, element("CYCLE-REPETITION", leaves(BASE_CYCLE=base, CYCLE_REPETITION=f"CYCLE-REPETITION-{repetition}")))


def counted(slot, cycle):
    return absolutely(slot, element("CYCLE-COUNTER", leaves(CYCLE_COUNTER=cycle)))


def triggering(name, frame, ports, *timings, preamble="false"):
    return named(
        "FLEXRAY-FRAME-TRIGGERING", name, element("FRAME-PORT-REFS", *(ref("FRAME-PORT-REF", "FRAME-PORT", f"/Ecu/{port}") for port in ports)),
        ref("FRAME-REF", "FLEXRAY-FRAME", f"/Frame/{frame}"), element("ABSOLUTELY-SCHEDULED-TIMINGS", *timings),
        leaves(PAYLOAD_PREAMBLE_INDICATOR=preamble),
    )


def channel(letter, ecus, triggerings, name=None):
    refs = (ref("COMMUNICATION-CONNECTOR-REF", "FLEXRAY-COMMUNICATION-CONNECTOR", f"/Ecu/{ecu}/Conn{letter}") for ecu in ecus)
    connectors = (element("COMMUNICATION-CONNECTOR-REF-CONDITIONAL", it) for it in refs)
    return named(
        "FLEXRAY-PHYSICAL-CHANNEL", f"Ch{letter}", element("COMM-CONNECTORS", *connectors), element("FRAME-TRIGGERINGS", *triggerings),
        leaves(CHANNEL_NAME=name or f"CHANNEL-{letter}"),
    )


def cluster(name, channels, figures):
    values = (element(tag, value) for tag, value in figures.items())
    conditional = element("FLEXRAY-CLUSTER-CONDITIONAL", element("PHYSICAL-CHANNELS", *channels), *values)
    return named("FLEXRAY-CLUSTER", name, element("FLEXRAY-CLUSTER-VARIANTS", conditional))


def ecu(name):
    port = lambda short, direction: named("FRAME-PORT", short, leaves(COMMUNICATION_DIRECTION=direction))
    ports = element("ECU-COMM-PORT-INSTANCES", port("In", "IN"), port("Out", "OUT"))
    connectors = (named("FLEXRAY-COMMUNICATION-CONNECTOR", f"Conn{letter}", ports) for letter in "AB")
    return named("ECU-INSTANCE", name, element("CONNECTORS", *connectors), leaves(SLEEP_MODE_SUPPORTED="false"))


def frame(name, length, *pdus):
    return named("FLEXRAY-FRAME", name, leaves(FRAME_LENGTH=length), element("PDU-TO-FRAME-MAPPINGS", *pdus))


def pdu_at(name, start, kind=PLAIN, order=LAST, **more):
    refers = ref("PDU-REF", kind, f"/Pdu/{name}")
    return named("PDU-TO-FRAME-MAPPING", f"At_{name}", leaves(PACKING_BYTE_ORDER=order), refers, leaves(START_POSITION=start, **more))


def pdu(name, length, *signals):
    return named(PLAIN, name, leaves(LENGTH=length), element("I-SIGNAL-TO-PDU-MAPPINGS", *signals))


def signal_at(name, start, order=LAST, **more):
    refers = ref("I-SIGNAL-REF", "I-SIGNAL", f"/Signal/{name}")
    return named("I-SIGNAL-TO-I-PDU-MAPPING", f"At_{name}", refers, leaves(PACKING_BYTE_ORDER=order, START_POSITION=start, **more))


def signal(name, length):
    first = element("INIT-VALUE", element("NUMERICAL-VALUE-SPECIFICATION", leaves(VALUE=0)))
    return named("I-SIGNAL", name, first, leaves(LENGTH=length))


def triggerings_on_a():
    a = "ConnA/Out"
    yield triggering("T1", "Brake", [f"DSC/{a}", "EGS/ConnA/In"], timing(1, 0, 1))
    yield triggering("T2", "TwoPdus", [f"EGS/{a}"], timing(2, 1, 4), timing(3, 3, 8))
    yield triggering("T3", "Dynamic", [f"EGS/{a}"], timing(70, 0, 2))
    yield triggering("T4", "StaticAndDynamic", [f"EGS/{a}"], timing(5, 0, 2), timing(90, 0, 1))
    yield triggering("T5", "Shared_One", [f"DSC/{a}"], timing(6, 0, 2))
    yield triggering("T6", "Shared_Two", [f"EGS/{a}"], timing(6, 1, 4))
    yield triggering("T7", "Multiplexed", [f"{GATEWAY}/{a}"], timing(7, 0, 4), preamble="true")
    yield triggering("T8", "NoSender", [], timing(8, 0, 1))
    yield triggering("T9", "TwoSenders", [f"DSC/{a}", f"EGS/{a}"], timing(9, 0, 1))
    yield triggering("T10", "Counted", [f"EGS/{a}"], *(counted(10, cycle) for cycle in (*range(2, 64, 8), 5, 37, 64)))
    yield triggering("T11", "BadBase", [f"EGS/{a}"], timing(11, 4, 4))
    yield triggering("T12", "Five", [f"EGS/{a}"], timing(12, 0, 5))
    yield triggering("T13", "SameCell", [f"DSC/{a}"], timing(1, 3, 4))
    yield triggering("T14", "Missing", [f"DSC/{a}"], timing(14, 3, 4))
    yield triggering("T15", "Nine", [f"DSC/{a}"], *(timing(15, base, 16) for base in range(9)))
    yield triggering("T16", f"{LONG_FRAME}_1", [f"{GATEWAY}/{a}"], timing(16, 0, 1), timing(16, 0, 1))
    yield triggering("T17", f"{LONG_FRAME}_2", [f"{GATEWAY}/{a}"], timing(17, 0, 1))
    yield triggering("T18", "Never", [f"DSC/{a}"])
    yield triggering("T19", "NoCycle", [f"DSC/{a}"], absolutely(18))
    yield triggering("T20", "NoSlot", [f"DSC/{a}"], absolutely(0))


def foreign():
    """The description."""
    on_b = [triggering("T1", "Brake", ["DSC/ConnB/Out"], timing(1, 0, 1)), triggering("T2", "TwoPdus", ["EGS/ConnB/Out"], timing(2, 1, 4))]
    others = (
        "Dynamic", "StaticAndDynamic", "Shared_One", "Shared_Two", "NoSender", "TwoSenders", "BadBase", "Five", "SameCell", "Nine", "Never",
        "NoCycle", "NoSlot", f"{LONG_FRAME}_1", f"{LONG_FRAME}_2", "Unused",
    )
    frames = [
        frame("Brake", 16, pdu_at("Brake", 0), pdu_at("Lost", 64)),
        frame("TwoPdus", 16, pdu_at("First", 0, UPDATE_INDICATION_BIT_POSITION=127), pdu_at("Second", 71, order=FIRST), pdu_at("Brake", 3)),
        frame("Multiplexed", 12, pdu_at("Mux", 0, "MULTIPLEXED-I-PDU")),
        frame("Counted", 16, pdu_at("Long", 0)),
        *(frame(name, 16) for name in others),
        frame("Five", 8),
    ]
    to_group = ref("I-SIGNAL-GROUP-REF", "I-SIGNAL-GROUP", "/Signal/Group")
    group = named("I-SIGNAL-TO-I-PDU-MAPPING", "At_Group", to_group, leaves(UPDATE_INDICATION_BIT_POSITION=41))
    pdus = [
        pdu(
            "Brake", 16, signal_at("Pressure", 7, FIRST), signal_at("Torque", 16, UPDATE_INDICATION_BIT_POSITION=40), signal_at("Overlap", 20),
            signal_at("Blob", 48, "OPAQUE"), signal_at("Beyond", 120), signal_at("Gone", 0), group,
        ),
        pdu("First", 8, signal_at("Pressure", 0)), pdu("Long", 16, signal_at("Array", 7, FIRST)),
        pdu("Second", 8, signal_at("Pressure", 0), signal_at("Gear", 15, FIRST), signal_at("Torque", 32, "SIDEWAYS"), signal_at("None", 40)),
        named("MULTIPLEXED-I-PDU", "Mux", leaves(LENGTH=12)),
    ]
    lengths = {"Pressure": 12, "Torque": 16, "Overlap": 8, "Blob": 80, "Beyond": 16, "Gear": 9, "Array": 100, "None": 0}
    channels = channel("A", (*ECUS, "Stranger"), triggerings_on_a()), channel("B", ECUS, on_b), channel("C", (), [], "CHANNEL-X")
    return whole(
        package("Cluster", cluster("Chassis", channels, FIGURES), named("CAN-CLUSTER", "Other")), package("Ecu", *map(ecu, ECUS)),
        package("Frame", *frames), package("Pdu", *pdus), package("Signal", *(signal(*it) for it in lengths.items())),
    ).replace("<ECU-INSTANCE>", '<ECU-INSTANCE UUID="17">', 1)
