"""Where the bits of a signal lie in a payload."""


def bits(signal):
    """The payload bit of each bit of the signal's value, from its least to its greatest."""
    if signal.order == "little":
        return list(range(signal.start, signal.start + signal.length))
    found = [signal.start]
    while len(found) < signal.length:
        found.append(found[-1] - 1 if found[-1] % 8 else found[-1] + 15)
    return found[::-1]
