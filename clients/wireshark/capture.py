"""A capture of a plan's bus: in each cycle the frames that the plan sends there, with values by chance.

It is a pcap file of link type 210, that of FlexRay."""
import random
import struct
from itertools import groupby
from typing import NamedTuple

from .packing import packed
from .plan import Cell, Frame

LINK_TYPE = 210
# The first byte of a packet that is a frame, and the bit of a frame's header that says that it is no null frame.
FRAME_ON = {"A": 0x01, "B": 0x81}
DATA_FRAME = 1 << 37
# The header checksum of FlexRay: 11 bits, with this first value and this polynomial.
CHECK_BITS, CHECK_BEGIN, CHECK_POLYNOMIAL = 11, 0x01A, 0x385


class Sent(NamedTuple):
    """What was sent in a cell: the frame, and the value of each signal by its name."""

    cell: Cell
    frame: Frame
    values: dict


def value_of(signal, dice):
    """A value for the signal: none of its bits, all of them, or some; each of these is met often."""
    greatest = (1 << signal.length) - 1
    return dice.choice((0, greatest, dice.randint(0, greatest), dice.randint(0, greatest)))


def sent(plan, cycles, seed):
    """What is sent in so many cycles from cycle 0 on, each time with its cycle's number from the first. The seed chooses the values."""
    dice = random.Random(seed)
    cells_of = {cycle: list(cells) for cycle, cells in groupby(sorted(plan.cells), key=lambda cell: cell.cycle)}
    for number in range(cycles):
        for cell in cells_of.get(number % plan.cycles, ()):
            frame = plan.cells[cell]
            yield number, Sent(cell, frame, {signal.name: value_of(signal, dice) for signal in plan.signals[frame]})


def header_check(slot, words):
    """The checksum over the sync and startup bits, which are 0, the slot and the payload's words."""
    check = CHECK_BEGIN
    for place in reversed(range(20)):
        bit = (slot << 7 | words) >> place & 1
        out = check >> CHECK_BITS - 1
        check = check << 1 & (1 << CHECK_BITS) - 1
        if bit != out:
            check ^= CHECK_POLYNOMIAL
    return check


def packet(cell, payload):
    """A data frame as link type 210 has it: a byte that names the channel, one that tells of no fault, five of FlexRay's header, and the payload."""
    words = len(payload) // 2
    header = DATA_FRAME | cell.slot << 24 | words << 17 | header_check(cell.slot, words) << 6 | cell.cycle
    return bytes([FRAME_ON[cell.channel], 0]) + header.to_bytes(5, "big") + payload


def microseconds(plan, number, cell):
    """When the cell's slot begins, as many microseconds from the first cycle as macroticks."""
    return number * plan.figures["macroticks_per_cycle"] + (cell.slot - 1) * plan.figures["slot_macroticks"]


def write(path, plan, cycles, seed):
    """Writes a capture of so many cycles. Gives what was sent, in the order of its packets."""
    told = []
    with open(path, "wb") as file:
        file.write(struct.pack("<IHHiIII", 0xA1B2C3D4, 2, 4, 0, 0, 65535, LINK_TYPE))
        for number, it in sent(plan, cycles, seed):
            payload = packed(plan.signals[it.frame], it.values.values(), plan.payload_bytes)
            data = packet(it.cell, payload)
            seconds, rest = divmod(microseconds(plan, number, it.cell), 1_000_000)
            file.write(struct.pack("<IIII", seconds, rest, len(data), len(data)) + data)
            told.append(it)
    return told
