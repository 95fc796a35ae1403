"""A description in which each of many ECUs has a slot, and sends as many frames there: 4,096 at most, each with a triggering and a signal."""
from . import arxml


def large(count, each):
    """The description, and the table of its suppliers: each ECU has its own. Each frame has its own cycle; 36 slots are free."""
    ecus = [f"E{number:02}" for number in range(count)]
    names = [(ecu, f"{ecu}_F{number:02}") for ecu in ecus for number in range(each)]
    sent = [
        arxml.triggering(f"T_{frame}", frame, [f"{ecu}/ConnA/Out"], arxml.timing(place // each + 1, place % each, 64))
        for place, (ecu, frame) in enumerate(names)
    ]
    figures = arxml.FIGURES | {"NUMBER-OF-STATIC-SLOTS": count + 36, "STATIC-SLOT-DURATION": 15}
    cluster = arxml.cluster("Large", [arxml.channel("A", ecus, sent)], figures)
    text = arxml.whole(
        arxml.package("Cluster", cluster), arxml.package("Ecu", *map(arxml.ecu, ecus)),
        arxml.package("Frame", *(arxml.frame(frame, 16, arxml.pdu_at(frame, 0)) for _, frame in names)),
        arxml.package("Pdu", *(arxml.pdu(frame, 16, arxml.signal_at(frame, 0)) for _, frame in names)),
        arxml.package("Signal", *(arxml.signal(frame, 8) for _, frame in names)),
    )
    return text.replace("><", ">\n<"), {ecu: f"s_{ecu}" for ecu in ecus}
