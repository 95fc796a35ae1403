"""Files of rows as the register reads them: their headers, and how many rows one may have."""

# The columns of each file, by what its rows are.
COLUMNS = {
    "frames": ("frame", "node"),
    "placements": ("frame", "node", "slot", "channels", "base", "repetition"),
    "signals": ("frame", "signal", "start", "length", "order"),
    "wishes": ("frame", "node", "channels", "repetition"),
}
# How many rows a file may have.
ROWS = 512


def text_of(kind, rows):
    """The file of these rows."""
    return "".join(f"{','.join(map(str, row))}\n" for row in (COLUMNS[kind], *rows))


def parts(rows):
    """The rows in parts of at most so many. Those of one frame, whose name they begin with, stay together: a replacement takes away what it had."""
    frames = {}
    for row in rows:
        frames.setdefault(row[0], []).append(row)
    part = []
    for group in frames.values():
        if part and len(part) + len(group) > ROWS:
            yield part
            part = []
        part = part + group
    if part:
        yield part
