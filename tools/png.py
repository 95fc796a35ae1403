"""Pictures as PNG, of a browser's kind: packed as tight as one without filters gets, since a page repeats itself."""
import struct
import zlib

SIGN = b"\x89PNG\r\n\x1a\n"
# A pixel of red, green and blue, of a byte each, without interlacing.
COLOURS, WIDE = bytes([8, 2, 0, 0, 0]), 3


def chunks(data):
    """The kinds and bodies of its chunks."""
    at = len(SIGN)
    while at < len(data):
        (size,) = struct.unpack_from(">I", data, at)
        yield data[at + 4 : at + 8], data[at + 8 : at + 8 + size]
        at += size + 12


def chunk(kind, body):
    return struct.pack(">I", len(body)) + kind + body + struct.pack(">I", zlib.crc32(kind + body))


def nearest(left, above, corner):
    """Paeth's guess: the one of the three that is nearest to left + above - corner."""
    guess = left + above - corner
    return min((left, above, corner), key=lambda it: abs(guess - it))


GUESSES = (
    lambda left, above, corner: 0,
    lambda left, above, corner: left,
    lambda left, above, corner: above,
    lambda left, above, corner: (left + above) // 2,
    nearest,
)


def lines(raw, size):
    """The lines without their filters, each of so many bytes."""
    before = bytes(size)
    for at in range(0, len(raw), size + 1):
        guess, line = GUESSES[raw[at]], bytearray(raw[at + 1 : at + 1 + size])
        for place, above in enumerate(before):
            left, corner = (line[place - WIDE], before[place - WIDE]) if place >= WIDE else (0, 0)
            line[place] = line[place] + guess(left, above, corner) & 255
        yield line
        before = line


def packed(data):
    """The same picture in fewer bytes; one of another kind is left as it is."""
    found = list(chunks(data))
    head = found[0][1]
    if head[8:] != COLOURS:
        return data
    (width,) = struct.unpack_from(">I", head)
    raw = zlib.decompress(b"".join(body for kind, body in found if kind == b"IDAT"))
    plain = b"".join(b"\0" + line for line in lines(raw, width * WIDE))
    return SIGN + chunk(b"IHDR", head) + chunk(b"IDAT", zlib.compress(plain, 9)) + chunk(b"IEND", b"")
