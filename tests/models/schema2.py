"""Registers of schema 2, which is this program's, made and read by the SQLite of python3 with the statements of docs/FORMATS.md."""
import re
import sqlite3
from contextlib import closing

from .formats import FORMATS
from .scripts import CLUSTER, cluster_numbers, suppliers_of


def plain(statement):
    """The statement with no more white space than it needs."""
    return " ".join(statement.split()).replace("( ", "(").replace(" )", ")")


def statements():
    """Those that make the tables, as they stand in docs/FORMATS.md."""
    text = re.search(r"```sql\n(.*?)```", FORMATS, re.DOTALL)[1]
    return [plain(statement) for statement in text.split(";") if statement.strip()]


def tables():
    return [statement.split()[2] for statement in statements() if statement.startswith("CREATE TABLE")]


def cluster_row(cluster):
    return (1, *cluster_numbers(cluster), cluster["channels"].strip('"'), cluster["integrator"].strip('"'), int(cluster.get("cycles", "64")))


def of_cluster(cluster):
    """The rows of a new register."""
    return {table: [] for table in tables()} | {"register": [(1, 2)], "cluster2": [cluster_row(cluster)], "suppliers": sorted(suppliers_of(cluster))}


def connected(path):
    conn = sqlite3.connect(path, isolation_level=None)
    conn.execute("PRAGMA foreign_keys = ON")
    return conn


def filled(path, cluster=CLUSTER, schema=2, pragmas=(), more=()):
    """A register of the cluster, its suppliers in falling order; then these statements are carried out."""
    with closing(connected(path)) as conn:
        for pragma in pragmas:
            conn.execute(f"PRAGMA {pragma}").fetchall()
        for statement in statements():
            conn.execute(statement)
        conn.execute("INSERT INTO register (schema) VALUES (?)", (schema,))
        conn.execute(f"INSERT INTO cluster2 VALUES ({','.join('?' * 11)})", cluster_row(cluster))
        conn.executemany("INSERT INTO suppliers VALUES (?, ?)", sorted(suppliers_of(cluster), reverse=True))
        for statement in more:
            conn.execute(statement)
    return path


def made_by(path, *texts):
    """A database that these statements make."""
    with closing(connected(path)) as conn:
        for text in texts:
            conn.execute(text)
    return path


def rows(conn):
    return {table: sorted(conn.execute(f"SELECT * FROM {table}"), key=repr) for table in tables()}
