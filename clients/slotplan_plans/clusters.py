"""Where a command has a cluster's figures from: its file, or a register."""
import tomllib
from fractions import Fraction

from . import reading
from .faults import Fault
from .files import key_in
from .plan import FIGURES, Cluster
from .sources import RegisterFile, Server
from .spans import Clock
from .words import is_server


def add_cluster(parser):
    """Words for the cluster, where no register is needed."""
    parser.add_argument("--cluster", metavar="FILE", help="the cluster file, which has the cluster's figures")
    parser.add_argument("--source", metavar="SOURCE", help="a register's file, or where its server is: it tells the cluster's figures too")
    parser.add_argument("--program", metavar="PATH", default="slotplan", help="of a file: the program that reads it")
    parser.add_argument("--key", metavar="FILE", help="of a server: the file whose first line is the key; - is standard input")
    parser.add_argument("--macrotick", metavar="MICROSECONDS", help="how long a macrotick lasts, as 1 or 1.375; for gaps in ms")


def source_in(given):
    """The register that --source names, or none."""
    if given.source is None:
        return None
    if is_server(given.source):
        if not given.key:
            raise Fault("a server is asked with --key: it tells what the key's owner sees")
        return Server(given.source, key_in(given.key))
    if given.key:
        raise Fault("a file is read without --key; the address of a server begins with http:// or https://")
    return RegisterFile(given.source, given.program)


def cluster_of(given):
    """The cluster of a file or a register; none where neither is named."""
    if given.cluster and given.source:
        raise Fault("--cluster and --source are one too many: a register knows its cluster")
    if given.cluster:
        return cluster_in(given.cluster)
    source = source_in(given)
    if source is None:
        return None
    with source.opened() as told:
        return reading.cluster(told)


def cluster_in(path):
    """The cluster of a cluster file. Its keys are not looked at."""
    try:
        with open(path, "rb") as file:
            told = tomllib.loads(file.read().decode("utf-8-sig"))
        figures = {key: told.get(key, 64 if key == "cycles" else None) for key in FIGURES}
        if told["channels"] in ("A", "B", "AB") and are_whole(figures):
            return Cluster(told["channels"], figures, tuple(sorted(told["suppliers"])))
    except OSError as fault:
        raise Fault(f"{path}: {fault.strerror}") from fault
    except (ValueError, KeyError, TypeError):
        pass
    raise Fault(f"{path}: it is no cluster file; `slotplan check {path}` says what is wrong")


def are_whole(figures):
    """Whether figures are those of a cluster: numbers in their ranges, whose segments fill the cycle."""
    if any(type(it) is not int or it < 0 for it in figures.values()):
        return False
    filled = figures["static_slots"] * figures["slot_macroticks"] + sum(figures[f"{it}_macroticks"] for it in ("dynamic", "symbol", "idle"))
    in_range = 2 <= figures["static_slots"] <= 1023 and figures["cycles"] in range(8, 65, 2) and figures["slot_macroticks"] > 0
    return in_range and filled == figures["macroticks_per_cycle"]


def clock_of(cluster, macrotick=None):
    """The clock of a cluster, of which each macrotick lasts so many microseconds, where they are known."""
    return Clock(cluster.figures["macroticks_per_cycle"], cluster.figures["cycles"], None if macrotick is None else Fraction(macrotick))
