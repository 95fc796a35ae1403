"""A plan as an AUTOSAR system description: ARXML of the schema r4.0, its elements in the order of release 4.3."""
from typing import NamedTuple

from .bus import Bus
from .markup import Markup
from .naming import Names
from .parts import WIDTHS, Parts

HEAD = """\
<?xml version="1.0" encoding="UTF-8"?>
<AUTOSAR xmlns="http://autosar.org/schema/r4.0" xmlns:xsi="http://www.w3.org/2001/XMLSchema-instance" \
xsi:schemaLocation="http://autosar.org/schema/r4.0 AUTOSAR_4-3-0.xsd">
"""


class Options(NamedTuple):
    """What the register does not know: the cluster's name and a macrotick's microseconds. `each` gives each timing a triggering of its own."""

    cluster: str = "FlexRay"
    macrotick: str = None
    each: bool = False


def write(file, plan, options=Options()):
    """Writes the plan to a file that is open for text."""
    markup, names = Markup(file, "  "), Names(plan, options.cluster)
    bus, parts = Bus(markup, plan, names, options), Parts(markup, plan, names)
    file.write(HEAD)
    with markup.of("AR-PACKAGES"):
        with markup.of("AR-PACKAGE"):
            markup.name("Cluster")
            with markup.of("ELEMENTS"):
                bus.write()
                system(markup, plan, names, options)
        with markup.of("AR-PACKAGE"):
            markup.name("Suppliers")
            if plan.cluster.suppliers:
                with markup.of("AR-PACKAGES"):
                    for supplier in plan.cluster.suppliers:
                        parts.write(supplier)
        with markup.of("AR-PACKAGE"):
            markup.name("Types")
            with markup.of("ELEMENTS"):
                types(markup)
    file.write("</AUTOSAR>\n")


def system(markup, plan, names, options):
    """The system, which names all elements that belong to it."""
    with markup.of("SYSTEM"):
        markup.name("System")
        markup.leaf("CATEGORY", "SYSTEM_DESCRIPTION")
        with markup.of("FIBEX-ELEMENTS"):
            member(markup, "FLEXRAY-CLUSTER", f"/Cluster/{options.cluster}")
            for node in plan.nodes:
                member(markup, "ECU-INSTANCE", names.ecu_path(node))
            for frame in plan.frames:
                members(markup, frame, names)
        markup.leaf("SYSTEM-VERSION", "1.0.0")


def member(markup, kind, path):
    """An element of the system."""
    with markup.of("FIBEX-ELEMENT-REF-CONDITIONAL"):
        markup.ref("FIBEX-ELEMENT-REF", kind, path)


def members(markup, frame, names):
    """A frame, its PDU and its signals as elements of the system."""
    member(markup, "FLEXRAY-FRAME", names.frame_path(frame))
    member(markup, "I-SIGNAL-I-PDU", names.pdu_path(frame))
    for signal in frame.signals:
        member(markup, "I-SIGNAL", names.signal_path(frame, signal))


def types(markup):
    """The types of all signals: whole numbers without a sign or a unit."""
    for width in WIDTHS:
        with markup.of("SW-BASE-TYPE"):
            markup.name(f"uint{width}")
            markup.leaf("CATEGORY", "FIXED_LENGTH")
            markup.leaf("BASE-TYPE-SIZE", width)
            markup.leaf("BASE-TYPE-ENCODING", "NONE")
    with markup.of("COMPU-METHOD"):
        markup.name("Identical")
        markup.leaf("CATEGORY", "IDENTICAL")
