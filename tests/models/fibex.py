"""A FIBEX file as another tool may write it, put together element by element, with much that a register cannot hold."""
SPACES = (
    'xmlns:fx="http://www.asam.net/xml/fbx" xmlns:ho="http://www.asam.net/xml" xmlns:flexray="http://www.asam.net/xml/fbx/flexray" '
    'xmlns:xsi="http://www.w3.org/2001/XMLSchema-instance"'
)
# Elements of the other name spaces.
HARMONIZED = {"SHORT-NAME", "LONG-NAME", "DESC", "CODED-TYPE", "BIT-LENGTH", "COMPU-METHODS", "COMPU-METHOD", "UNIT-SPEC", "UNIT", "V"}
FLEXRAY = {
    "NUMBER-OF-STATIC-SLOTS", "STATIC-SLOT", "SYMBOL-WINDOW", "N-I-T", "MACRO-PER-CYCLE", "PAYLOAD-LENGTH-STATIC", "CYCLE-COUNT-MAX", "MACROTICK",
    "CYCLE", "MINISLOT", "NUMBER-OF-MINISLOTS", "COLD-START-ATTEMPTS", "FLEXRAY-CHANNEL-NAME", "KEY-SLOT-USAGE", "STARTUP-SYNC",
}
FIGURES = {
    "COLD-START-ATTEMPTS": 8, "MINISLOT": 5, "N-I-T": 44, "STATIC-SLOT": 61, "SYMBOL-WINDOW": 0, "MACRO-PER-CYCLE": 3636, "MACROTICK": "1.375",
    "NUMBER-OF-MINISLOTS": 289, "NUMBER-OF-STATIC-SLOTS": 31, "PAYLOAD-LENGTH-STATIC": 8, "CYCLE": 5000,
}
LONG_FRAME = "Frame_With_A_Name_That_Is_Longer_Than_The_Register_Takes"
ECUS = "DSC", "EGS", "ZGW"
# The table of suppliers that is filled in for it.
SUPPLIERS = {"/ECU/DSC": "brakes", "EGS": "gears", "/ECU/ZGW": "brakes", "/ECU/Gone": "gears"}


def element(tag, *inside, **attributes):
    space = "ho" if tag in HARMONIZED else "flexray" if tag in FLEXRAY else "fx"
    given = "".join(f' {key.replace("__", ":").replace("_", "-")}="{text}"' for key, text in attributes.items())
    return f"<{space}:{tag}{given}>{''.join(map(str, inside))}</{space}:{tag}>"


def named(tag, identity, name, *inside, **more):
    return element(tag, element("SHORT-NAME", name), *inside, ID=identity, **more)


def leaves(**texts):
    """Leaves of these names, in which _ stands for -."""
    return "".join(element(tag.replace("_", "-"), text) for tag, text in texts.items())


def ref(tag, identity):
    return element(tag, ID_REF=identity)


def whole(elements, codings="", version="3.1.0"):
    """A file of these elements."""
    rest = element("PROCESSING-INFORMATION", codings)
    inside = named("PROJECT", "P", "Chassis") + element("ELEMENTS", *elements) + rest
    return f'<?xml version="1.0" encoding="utf-8"?>\n<fx:FIBEX {SPACES} VERSION="{version}">{inside}</fx:FIBEX>\n'


def timing(slot, base, repetition):
    return element("ABSOLUTELY-SCHEDULED-TIMING", leaves(SLOT_ID=slot, BASE_CYCLE=base, CYCLE_REPETITION=repetition))


def counted(slot, cycle):
    return element("ABSOLUTELY-SCHEDULED-TIMING", leaves(SLOT_ID=slot, CYCLE_COUNTER=cycle))


def triggering(identity, frame, *timings):
    return element("FRAME-TRIGGERING", element("TIMINGS", *timings), ref("FRAME-REF", frame), ID=identity)


def channel(identity, letter, *triggerings):
    return named("CHANNEL", identity, f"Ch_{identity}", element("FRAME-TRIGGERINGS", *triggerings), leaves(FLEXRAY_CHANNEL_NAME=letter))


def cluster(identity, name, channels, figures, policy="MONOTONE", high="false", protocol="FlexRay"):
    says = leaves(SPEED=10000000, IS_HIGH_LOW_BIT_ORDER=high, BIT_COUNTING_POLICY=policy, PROTOCOL=protocol, PROTOCOL_VERSION="2.1")
    refs = element("CHANNEL-REFS", *(ref("CHANNEL-REF", it) for it in channels))
    return named("CLUSTER", identity, name, says, refs, *(element(tag, value) for tag, value in figures.items()), xsi__type="flexray:CLUSTER-TYPE")


def ecu(name, channels, sends=(), receives=()):
    """An ECU with a connector for each of these channels; the first one has the ports."""
    ports = lambda kind, its: [element(f"{kind}-PORT", ref("FRAME-TRIGGERING-REF", it), ID=f"{kind}_{name}_{it}") for it in its]
    with_ports = [element("INPUTS", *ports("INPUT", receives)), element("OUTPUTS", *ports("OUTPUT", sends))]
    connectors = (
        element("CONNECTOR", ref("CHANNEL-REF", it), *(with_ports if number == 0 else ()), ID=f"{name}_{it}") for number, it in enumerate(channels)
    )
    controller = named("CONTROLLER", f"{name}_CC", "CC", leaves(KEY_SLOT_USAGE="7"))
    return named("ECU", f"e_{name}", name, element("CONTROLLERS", controller), element("CONNECTORS", *connectors))


def frame(identity, name, length, *pdus):
    return named("FRAME", identity, name, leaves(BYTE_LENGTH=length, FRAME_TYPE="APPLICATION"), element("PDU-INSTANCES", *pdus))


def pdu_at(pdu, place, big="false", update=None):
    bits = leaves(BIT_POSITION=place, IS_HIGH_LOW_BYTE_ORDER=big) + (leaves(PDU_UPDATE_BIT_POSITION=update) if update is not None else "")
    return element("PDU-INSTANCE", ref("PDU-REF", pdu), bits, ID=f"i_{pdu}_{place}")


def pdu(identity, length, *signals, kind="APPLICATION", more=""):
    inside = element("SIGNAL-INSTANCES", *signals) if signals else ""
    return named("PDU", identity, identity.upper(), leaves(BYTE_LENGTH=length, PDU_TYPE=kind), inside, more)


def signal_at(signal, place, big="false", update=None):
    bits = (leaves(BIT_POSITION=place) if place is not None else "") + leaves(IS_HIGH_LOW_BYTE_ORDER=big)
    update = leaves(SIGNAL_UPDATE_BIT_POSITION=update) if update is not None else ""
    return element("SIGNAL-INSTANCE", bits, update, ref("SIGNAL-REF", signal), ID=f"i_{signal}_{place}")


def signal(name, coding):
    return named("SIGNAL", f"s_{name}", name, leaves(DEFAULT_VALUE=0), ref("CODING-REF", coding))


def coding(length):
    inside = leaves(BIT_LENGTH=length) if length else ""
    method = element("COMPU-METHODS", element("COMPU-METHOD", leaves(SHORT_NAME="linear", V="0.5")))
    return named("CODING", f"c{length}", f"Coding_{length}", element("CODED-TYPE", inside, ENCODING="SIGNED"), method)


def foreign():
    """A file of a cluster in which two ECUs send, and a gateway, beside a cluster of CAN."""
    switch = element("MULTIPLEXER", element("SWITCH", leaves(BIT_POSITION=0, BIT_LENGTH=8), ID="sw"))
    one = channel(
        "A1", "A",
        triggering("t1", "f_brake", timing(1, 0, 1)), triggering("t2", "f_two", timing(2, 1, 4), timing(3, 3, 8)),
        triggering("t3", "f_dynamic", timing(70, 0, 2)), triggering("t4", "f_two", timing(90, 0, 1)),
        triggering("t5", "f_counted", *(counted(10, it) for it in (2, 10, 18, 26, 34, 42, 50, 58, 5, 37))),
        triggering("t6", "f_over", counted(10, 64)), triggering("t7", "f_bad", timing(11, 4, 4)), triggering("t8", "f_five", timing(12, 0, 5)),
        triggering("t9", "f_missing", timing(4, 0, 1)), triggering("t10", "f_never"),
        triggering("t11", "f_mux", timing(7, 0, 4)), triggering("t12", "f_nosender", timing(8, 0, 1)),
        triggering("t13", "f_twosenders", timing(9, 0, 1)), triggering("t14", "f_same", timing(1, 3, 4)),
        triggering("t15", "f_shared1", timing(6, 0, 2)), triggering("t16", "f_shared2", timing(6, 1, 4)),
        triggering("t17", "f_long", timing(16, 0, 1)), triggering("t18", "f_noslot", timing(0, 0, 1)),
        triggering("t19", "f_nocycle", element("ABSOLUTELY-SCHEDULED-TIMING", leaves(SLOT_ID=18))),
    )
    two = channel("B1", "B", triggering("t20", "f_brake", timing(1, 0, 1)), triggering("t21", "f_two", timing(2, 1, 4)))
    third = channel("X1", "C", triggering("t22", "f_brake", timing(5, 0, 1)))
    dsc = ["t1", "t3", "t13", "t14", "t15", "t7", "t8", "t20"]
    egs = ["t2", "t4", "t5", "t6", "t13", "t16", "t21"]
    zgw = ["t11", "t17", "t18", "t19", "t9", "t10"]
    signals = [
        signal("Torque", "c16"), signal("Pressure", "c12"), signal("Blob", "c80"), signal("Overlap", "c8"), signal("Beyond", "c16"),
        signal("NoLength", "c0"), signal("NoCoding", "c99"), signal("Gear", "c8"),
    ]
    pdus = [
        pdu("p_brake", 16, signal_at("s_Pressure", 7, "true"), signal_at("s_Torque", 16, update=40), signal_at("s_Blob", 48),
            *(signal_at(f"s_{it}", place) for it, place in (("Overlap", 20), ("Beyond", 120), ("Gone", 0), ("NoLength", 0), ("NoCoding", 0))),
            signal_at("s_Gear", None)),
        pdu("p_first", 8, signal_at("s_Pressure", 0)), pdu("p_second", 8, signal_at("s_Pressure", 0), signal_at("s_Gear", 23, "true")),
        pdu("p_mux", 12, more=switch), pdu("p_nm", 2, kind="NM"), pdu("p_empty", 4),
    ]
    brake = frame("f_brake", "Brake", 16, pdu_at("p_brake", 0), pdu_at("p_lost", 64))
    frames = [
        brake, frame("f_two", "TwoPdus", 16, pdu_at("p_first", 0, update=127), pdu_at("p_second", 71, "true"), pdu_at("p_brake", 3)),
        frame("f_dynamic", "Dynamic", 254), frame("f_counted", "Counted", 16, pdu_at("p_nm", 0), pdu_at("p_empty", 64)),
        *(frame(f"f_{it}", it.title(), 16) for it in ("over", "bad", "five", "never", "same", "noslot", "nocycle", "unused")),
        frame("f_mux", "Multiplexed", 12, pdu_at("p_mux", 0)), frame("f_nosender", "NoSender", 16), frame("f_twosenders", "TwoSenders", 16),
        frame("f_shared1", "Shared_One", 16), frame("f_shared2", "Shared_Two", 16), frame("f_long", LONG_FRAME, 16),
        frame("f_brake", "Again", 16),
    ]
    can = cluster("cl2", "Body", [], {}, protocol="CAN")
    elements = [
        element("CLUSTERS", cluster("cl1", "Chassis", ["A1", "B1", "X1", "Z1"], FIGURES), can), element("CHANNELS", one, two, third),
        element("ECUS", ecu("DSC", ["A1", "B1"], dsc, ["t2"]), ecu("EGS", ["A1", "B1"], egs), ecu("ZGW", ["A1"], zgw), ecu("CAN_ECU", ["K1"])),
        element("PDUS", *pdus), element("FRAMES", *frames), element("SIGNALS", *signals),
        element("FUNCTIONS", named("FUNCTION", "fn", "Braking", leaves(DESC="what brakes do"))),
    ]
    codings = element("UNIT-SPEC", named("UNIT", "u", "Nm")) + element("CODINGS", *map(coding, (16, 12, 80, 8, 0)))
    return whole(elements, codings)
