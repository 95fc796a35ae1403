"""What differs between two plans, in the words of `slotplan diff` but for gaps."""


def rows(plan):
    """The rows of a plan as lines, each with the key by which lines are sorted."""
    for it in plan.grants:
        yield (0, *it.lane), line_of_grant(it)
    for frame in plan.frames:
        yield (1, *frame.key), f"FRAME {frame.name} {frame.node} {frame.supplier}"
        for it in frame.placements:
            yield (2, *frame.key, it), f"AT {frame.name} {it.slot:04} {it.channels} {it.base:02} {it.repetition:02} {frame.supplier}"
        for it in frame.signals:
            yield (3, *frame.key, it.start), f"SIGNAL {frame.name} {it.start:04} {it.length:02} {it.order} {it.name} {frame.supplier}"


def line_of_grant(grant):
    return f"GRANT {grant.slot:04} {grant.channel} {grant.node} {grant.supplier}"


def differences(before, after):
    """A line for each row that one plan alone has: `-` of the first, `+` of the second."""
    old, new = dict(map(reversed, rows(before))), dict(map(reversed, rows(after)))
    gone = [(key, "-", line) for line, key in old.items() if line not in new]
    come = [(key, "+", line) for line, key in new.items() if line not in old]
    return [f"{sign} {line}" for _, sign, line in sorted(gone + come, key=lambda it: (it[0], "-+".index(it[1])))]
