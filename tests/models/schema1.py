"""Registers of schema 1, as earlier programs made them, by the SQLite of python3. They are to be migrated.

Their statements stay here as they were, whatever the schema is by now."""
import sqlite3
from contextlib import closing

from .scripts import CLUSTER, cluster_numbers, suppliers_of

STATEMENTS = """
CREATE TABLE register (
    id INTEGER NOT NULL PRIMARY KEY CHECK (id = 1),
    schema INTEGER NOT NULL
) STRICT;
CREATE TABLE cluster (
    id INTEGER NOT NULL PRIMARY KEY CHECK (id = 1),
    static_slots INTEGER NOT NULL,
    slot_macroticks INTEGER NOT NULL,
    dynamic_macroticks INTEGER NOT NULL,
    symbol_macroticks INTEGER NOT NULL,
    idle_macroticks INTEGER NOT NULL,
    macroticks_per_cycle INTEGER NOT NULL,
    payload_words INTEGER NOT NULL,
    channels TEXT NOT NULL,
    integrator TEXT NOT NULL
) STRICT;
CREATE TABLE suppliers (
    name TEXT NOT NULL PRIMARY KEY,
    key TEXT NOT NULL UNIQUE
) STRICT;
CREATE TABLE nodes (
    supplier TEXT NOT NULL REFERENCES suppliers (name),
    name TEXT NOT NULL,
    PRIMARY KEY (supplier, name)
) STRICT;
CREATE TABLE variants (
    name TEXT NOT NULL PRIMARY KEY,
    parent TEXT,
    depth INTEGER NOT NULL CHECK (depth >= 1 AND depth <= 16),
    released INTEGER NOT NULL CHECK (released = 0 OR released = 1),
    overlay INTEGER NOT NULL CHECK (overlay = 0 OR overlay = 1)
) STRICT;
CREATE TABLE grants (
    variant TEXT NOT NULL,
    slot INTEGER NOT NULL,
    channel TEXT NOT NULL,
    supplier TEXT NOT NULL,
    node TEXT NOT NULL,
    PRIMARY KEY (variant, slot, channel),
    FOREIGN KEY (supplier, node) REFERENCES nodes (supplier, name)
) STRICT;
CREATE TABLE frames (
    variant TEXT NOT NULL,
    supplier TEXT NOT NULL,
    name TEXT NOT NULL,
    node TEXT NOT NULL,
    PRIMARY KEY (variant, supplier, name),
    FOREIGN KEY (supplier, node) REFERENCES nodes (supplier, name)
) STRICT;
CREATE TABLE placements (
    variant TEXT NOT NULL,
    supplier TEXT NOT NULL,
    frame TEXT NOT NULL,
    slot INTEGER NOT NULL,
    channels TEXT NOT NULL,
    base INTEGER NOT NULL,
    repetition INTEGER NOT NULL,
    PRIMARY KEY (variant, supplier, frame, slot, channels, base, repetition),
    FOREIGN KEY (variant, supplier, frame) REFERENCES frames (variant, supplier, name) ON DELETE CASCADE
) STRICT;
CREATE TABLE signals (
    variant TEXT NOT NULL,
    supplier TEXT NOT NULL,
    frame TEXT NOT NULL,
    name TEXT NOT NULL,
    start INTEGER NOT NULL,
    length INTEGER NOT NULL,
    big INTEGER NOT NULL CHECK (big = 0 OR big = 1),
    PRIMARY KEY (variant, supplier, frame, name),
    FOREIGN KEY (variant, supplier, frame) REFERENCES frames (variant, supplier, name) ON DELETE CASCADE
) STRICT;
CREATE TABLE imports (
    supplier TEXT NOT NULL,
    label TEXT NOT NULL,
    variant TEXT NOT NULL,
    body BLOB NOT NULL,
    rows INTEGER NOT NULL,
    PRIMARY KEY (supplier, label)
) STRICT;
CREATE TABLE dropped (
    variant TEXT NOT NULL,
    supplier TEXT NOT NULL,
    frame TEXT NOT NULL,
    PRIMARY KEY (variant, supplier, frame)
) STRICT;
CREATE INDEX grants_by_supplier ON grants (variant, supplier);
"""

# The tables with the book's rows, each after those that its rows refer to.
OF_THE_BOOK = ("nodes", "variants", "grants", "frames", "placements", "signals", "imports", "dropped")


def statements():
    return [statement for statement in STATEMENTS.split(";") if statement.strip()]


def cluster_row(cluster):
    return (1, *cluster_numbers(cluster), cluster["channels"].strip('"'), cluster["integrator"].strip('"'))


def filled(path, rows, cluster=CLUSTER, pragmas=(), more=()):
    """A register of the cluster, its suppliers and these rows of a book; then these statements are carried out. An older file at the
    path is gone."""
    path.unlink(missing_ok=True)
    with closing(sqlite3.connect(path, isolation_level=None)) as conn:
        for pragma in ("foreign_keys = ON", *pragmas):
            conn.execute(f"PRAGMA {pragma}").fetchall()
        conn.execute("BEGIN")
        for statement in statements():
            conn.execute(statement)
        conn.execute("INSERT INTO register (schema) VALUES (1)")
        conn.execute(f"INSERT INTO cluster VALUES ({','.join('?' * 10)})", cluster_row(cluster))
        conn.executemany("INSERT INTO suppliers VALUES (?, ?)", rows.get("suppliers", suppliers_of(cluster)))
        for table in OF_THE_BOOK:
            if rows.get(table):
                of_table = list(rows[table])
                conn.executemany(f"INSERT INTO {table} VALUES ({','.join('?' * len(of_table[0]))})", of_table)
        for statement in more:
            conn.execute(statement)
        conn.execute("COMMIT")
    return path
