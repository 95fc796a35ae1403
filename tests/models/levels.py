"""Rows of registers whose variants are laid over their parents, and so keep their differences alone, and what each variant shows.

The rows are those of docs/FORMATS.md, and what each variant shows is worked out by hand."""
from .formats import overlay_query
from .scripts import DEPTH

# Each of v2, v3 and v4 is laid over the one before, v6 over none, and v5 has its own rows alone.
# v2 has another f2 and a new f5, and drops f3. v3 drops f1, f4 and f5, and adds f3 and f4 again. v4 differs in nothing.
LEVELS = [
    "INSERT INTO nodes VALUES ('s1', 'n1'), ('s1', 'n2'), ('s2', 'n3')",
    "INSERT INTO variants VALUES ('v1', NULL, 1, 1, 0), ('v2', 'v1', 2, 1, 1), ('v3', 'v2', 3, 1, 1), ('v4', 'v3', 4, 0, 1)",
    "INSERT INTO variants VALUES ('v5', 'v2', 3, 0, 0), ('v6', NULL, 1, 0, 1)",
    "INSERT INTO grants SELECT name, 1, 'A', 's1', 'n1' FROM variants UNION ALL SELECT name, 1, 'B', 's1', 'n2' FROM variants",
    "INSERT INTO grants SELECT name, 2, 'A', 's1', 'n1' FROM variants WHERE name <> 'v6'",
    "INSERT INTO grants VALUES ('v3', 3, 'B', 's1', 'n2'), ('v1', 4, 'A', 's2', 'n3'), ('v3', 4, 'A', 's2', 'n3')",
    "INSERT INTO frames VALUES ('v1', 's1', 'f1', 'n1'), ('v1', 's1', 'f2', 'n1'), ('v1', 's1', 'f3', 'n1'), ('v1', 's1', 'f4', 'n2')",
    "INSERT INTO frames VALUES ('v2', 's1', 'f5', 'n2'), ('v2', 's1', 'f2', 'n1'), ('v3', 's1', 'f4', 'n1'), ('v3', 's1', 'f3', 'n2')",
    "INSERT INTO frames VALUES ('v5', 's1', 'f2', 'n2'), ('v6', 's1', 'f1', 'n2'), ('v1', 's2', 'f2', 'n3'), ('v1', 's2', 'f6', 'n3')",
    "INSERT INTO placements VALUES ('v1', 's1', 'f1', 1, 'A', 0, 2), ('v1', 's1', 'f2', 1, 'A', 1, 4), ('v1', 's1', 'f3', 2, 'A', 0, 1)",
    "INSERT INTO placements VALUES ('v1', 's1', 'f4', 1, 'B', 0, 64), ('v2', 's1', 'f2', 1, 'A', 1, 2), ('v3', 's1', 'f4', 2, 'A', 1, 2)",
    "INSERT INTO placements VALUES ('v1', 's2', 'f2', 4, 'A', 0, 1)",
    "INSERT INTO signals VALUES ('v1', 's1', 'f1', 'x', 0, 8, 0), ('v1', 's1', 'f2', 'w', 0, 4, 0), ('v1', 's1', 'f3', 'y', 7, 8, 1)",
    "INSERT INTO signals VALUES ('v2', 's1', 'f2', 'z', 4, 4, 0), ('v2', 's1', 'f2', 'w', 0, 4, 0), ('v2', 's1', 'f5', 'a', 0, 1, 0)",
    "INSERT INTO dropped VALUES ('v2', 's1', 'f3'), ('v3', 's1', 'f5'), ('v3', 's1', 'f1'), ('v3', 's1', 'f4'), ('v3', 's2', 'f2')",
    "INSERT INTO dropped VALUES ('v5', 's1', 'f2'), ('v1', 's1', 'f1'), ('v3', 's1', 'f9')",
]

NODES = ["node n1", "node n2"]
GRANTS = ["grant 1 A n1", "grant 1 B n2", "grant 2 A n1"]
F1 = ["frame f1 n1", "place f1 1 A 0 2", "signal f1 x 0 8 little"]
F4 = ["frame f4 n2", "place f4 1 B 0 64"]
ANOTHER_F2 = ["frame f2 n1", "place f2 1 A 1 2", "signal f2 w 0 4 little", "signal f2 z 4 4 little"]
IN_V3 = [*ANOTHER_F2, "frame f3 n2", "frame f4 n1", "place f4 2 A 1 2"]

SHOWN = {
    "page s1 v1": [
        *["s1 v1 true", *NODES, *GRANTS, *F1],
        *["frame f2 n1", "place f2 1 A 1 4", "signal f2 w 0 4 little"],
        *["frame f3 n1", "place f3 2 A 0 1", "signal f3 y 7 8 big", *F4],
    ],
    "page s1 v2": ["s1 v2 true", *NODES, *GRANTS, *F1, *ANOTHER_F2, *F4, "frame f5 n2", "signal f5 a 0 1 little"],
    "page s1 v3": ["s1 v3 true", *NODES, *GRANTS, "grant 3 B n2", *IN_V3],
    "page s1 v4": ["s1 v4 false", *NODES, *GRANTS, *IN_V3],
    "page s1 v5": ["s1 v5 false", *NODES, *GRANTS, "frame f2 n2"],
    "page s1 v6": ["s1 v6 false", *NODES, "grant 1 A n1", "grant 1 B n2", "frame f1 n2"],
    "page s2 v1": ["s2 v1 true", "node n3", "grant 4 A n3", "frame f2 n3", "place f2 4 A 0 1", "frame f6 n3"],
    "page s2 v3": ["s2 v3 true", "node n3", "grant 4 A n3", "frame f6 n3"],
    "page s2 v4": ["s2 v4 false", "node n3", "frame f6 n3"],
}


def chain(levels):
    """Each variant is laid over the one before. It has a frame of its own, and drops that of the one before."""
    yield "INSERT INTO nodes VALUES ('s1', 'n1')"
    yield "INSERT INTO variants VALUES ('v1', NULL, 1, 1, 0)"
    yield "INSERT INTO frames VALUES ('v1', 's1', 'f1', 'n1'), ('v1', 's1', 'g', 'n1')"
    for at in range(2, levels + 1):
        yield f"INSERT INTO variants VALUES ('v{at}', 'v{at - 1}', {min(at, DEPTH)}, 1, 1)"
        yield f"INSERT INTO frames VALUES ('v{at}', 's1', 'f{at}', 'n1')"
        yield f"INSERT INTO dropped VALUES ('v{at}', 's1', 'f{at - 1}')"


def frames_found(conn, variant, supplier):
    """What the query finds of the supplier's frames, and SQLite of their placements and signals, in the words of a page."""
    for owner, frame, node, stored in conn.execute(overlay_query(), {"variant": variant}).fetchall():
        if owner == supplier:
            yield f"frame {frame} {node}"
            key = (stored, supplier, frame)
            for row in conn.execute("SELECT slot, channels, base, repetition FROM placements WHERE (variant, supplier, frame) = (?, ?, ?)", key):
                yield f"place {frame} {' '.join(map(str, row))}"
            for *row, big in conn.execute("SELECT name, start, length, big FROM signals WHERE (variant, supplier, frame) = (?, ?, ?) ORDER BY start", key):
                yield f"signal {frame} {' '.join(map(str, row))} {'big' if big else 'little'}"
