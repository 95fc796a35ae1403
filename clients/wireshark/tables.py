"""Wireshark's three tables of a plan: the names of its frames, their signals, and which frame is sent in which cell.

Wireshark calls a frame's payload a PDU, and reads it as a list of items, each right behind the one before. So hidden items, which have no signal's
name, fill what lies between signals."""
from typing import NamedTuple

# A width goes round at 32 bits: an item of width WRAP - n leads n bits back.
WRAP = 1 << 32
CHANNELS = {"A": 0, "B": 1}


class Item(NamedTuple):
    """An item of a PDU's list: a signal, or where it has no name a hidden one."""

    width: int
    is_big: bool = False
    name: str = ""


def front(signal):
    """Where the signal begins as Wireshark counts bits: in big order from a byte's bit 7 on."""
    place = signal.start % 8
    return signal.start if signal.order == "little" else signal.start - place + 7 - place


def way(at, to):
    """The hidden items between two bits. A way back has to end where a byte begins, and no item may have the width WRAP - 1, which Wireshark
    takes for none: so a single bit back is two, behind one forwards."""
    widths = [to - at]
    if to < at:
        byte = to - to % 8
        forwards = 1 if at - byte == 1 else 0
        widths = [forwards, WRAP - (at + forwards - byte), to - byte]
    return [Item(width) for width in widths if width]


def items(signals, payload_bytes):
    """The items of a frame's payload, from its first bit to its last."""
    found, at = [], 0
    for signal in sorted(signals, key=lambda it: (front(it), it.start)):
        found += [*way(at, front(signal)), Item(signal.length, signal.order == "big", signal.name)]
        at = front(signal) + signal.length
    return found + way(at, 8 * payload_bytes)


def line(*fields):
    return ",".join(f'"{field}"' for field in fields) + "\n"


def item_line(number, frame, count, place, item):
    """The columns are: PDU, count of items, place, name, name in filters, type, big order, bits of the type, bits of the item, factor, offset,
    multiplexer, its value, hidden, and three kinds of sums."""
    name = item.name or f"_{place}"
    big, hidden = str(item.is_big).upper(), str(not item.name).upper()
    return line(
        f"{number:x}", count, place, name, f"{frame}.{name}", "uint", big, 64, item.width, "1.0", "0.0", "FALSE", -1, hidden, "FALSE", "FALSE", "FALSE"
    )


def made(plan):
    """Each table's text, by the name of its file."""
    numbers = {frame: number for number, frame in enumerate(plan.signals, 1)}
    lists = [(numbers[frame], frame, items(signals, plan.payload_bytes)) for frame, signals in plan.signals.items()]
    return {
        "Signal_PDU_identifiers": "".join(line(f"{number:x}", frame) for frame, number in numbers.items()),
        "Signal_PDU_signal_list": "".join(
            item_line(number, frame, len(found), place, item) for number, frame, found in lists for place, item in enumerate(found)
        ),
        "Signal_PDU_Binding_FlexRay": "".join(
            line(CHANNELS[cell.channel], f"{cell.cycle:x}", f"{cell.slot:x}", f"{numbers[frame]:x}") for cell, frame in sorted(plan.cells.items())
        ),
    }


def write(folder, plan):
    """Writes the tables into a folder, which is made where there is none."""
    folder.mkdir(parents=True, exist_ok=True)
    for name, text in made(plan).items():
        (folder / name).write_text(text)
