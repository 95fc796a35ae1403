"""The figures of a cluster that a description tells, as a register takes them; and which timings are of its static segment."""
from ..faults import Fault

# What the register takes of each.
RANGES = {
    "static_slots": (2, 1023), "slot_macroticks": (1, 16000), "dynamic_macroticks": (0, 16000), "symbol_macroticks": (0, 16000),
    "idle_macroticks": (1, 16000), "macroticks_per_cycle": (1, 16000), "payload_words": (0, 127), "cycles": (8, 64),
}


def whole(told, tags, greatest):
    """All figures, of those that are told by their keys, or of which the elements have nothing; and of the greatest cycle, where it is told."""
    figures = {**told, "symbol_macroticks": told["symbol_macroticks"] or 0}
    missing = [tags[key] for key, value in figures.items() if value is None]
    if missing:
        raise Fault(f"the cluster has no {' and no '.join(missing)}")
    figures["cycles"] = 64 if greatest is None else greatest + 1
    used = figures["static_slots"] * figures["slot_macroticks"] + figures["symbol_macroticks"] + figures["idle_macroticks"]
    figures["dynamic_macroticks"] = figures["macroticks_per_cycle"] - used
    if figures["dynamic_macroticks"] < 0:
        raise Fault(f"the segments of the cluster take {used} macroticks, and a cycle has {figures['macroticks_per_cycle']}")
    for key, (least, most) in RANGES.items():
        if not least <= figures[key] <= most or key == "cycles" and figures[key] % 2:
            raise Fault(f"{key} would be {figures[key]}; the register takes {least} to {most}{', an even number' if key == 'cycles' else ''}")
    return figures


def minislots(count, length, figures):
    """Why a register does not keep so many minislots of so many macroticks, where there are some. They have to fit."""
    if count * length > figures["dynamic_macroticks"]:
        room = figures["dynamic_macroticks"]
        raise Fault(f"{count} minislots of {length} macroticks do not fit into the {room} that the other segments leave")
    return f"{count} of {length} macroticks; the register has the length of the dynamic segment alone" if count or length else ""


def unfit(figures, slot, base, repetition, cycle):
    """Why a timing is none of the static segment of this cluster, or nothing. It has a cycle, or a base and a repetition."""
    if slot > figures["static_slots"]:
        return f"it lies in the dynamic segment: the static one has {figures['static_slots']} slots"
    if slot < 1:
        return "it has no SLOT-ID from 1 on"
    if cycle is not None:
        return "" if 0 <= cycle < figures["cycles"] else f"the cluster has {figures['cycles']} cycles"
    if base is None or repetition is None:
        return "it has no cycle, or no base and repetition"
    if repetition < 1 or figures["cycles"] % repetition or not 0 <= base < repetition:
        return f"that is no base and repetition of {figures['cycles']} cycles"
    return ""
