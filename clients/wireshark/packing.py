"""How a payload holds its signals' values, a bit at a time, by the rules of docs/FORMATS.md."""
from ..slotplan_plans.bits import bits


def packed(signals, values, payload_bytes):
    """The payload in which these signals have these values. All other bits are 0."""
    payload = bytearray(payload_bytes)
    for signal, value in zip(signals, values, strict=True):
        for bit, place in enumerate(bits(signal)):
            payload[place // 8] |= (value >> bit & 1) << place % 8
    return bytes(payload)
