"""A server of the program, and what it replies."""
import os
import socket
import subprocess
from contextlib import contextmanager, suppress
from functools import cache
from itertools import cycle, islice
from pathlib import Path
from threading import Lock

from .program import SECONDS, program, with_more

HERE = "127.0.0.1"
# Ports that the system gives to no client lie below its own. They are parted into blocks, of which each process has one.
BLOCK = 200
FIRST = 10_000
LAST = 65_536
# So often a server is started anew whose port somebody else has taken.
TRIES = 5
one_at_a_time = Lock()


def first_of_clients():
    """The least port that the system gives to clients."""
    try:
        return int(Path("/proc/sys/net/ipv4/ip_local_port_range").read_text().split()[0])
    except (OSError, ValueError):
        return 32_768


def bound(port, again=False):
    """A socket that has this port, or an OSError. Where it is bound again, connections that have ended are no hindrance."""
    one = socket.socket()
    try:
        one.setsockopt(socket.SOL_SOCKET, socket.SO_REUSEADDR, again)
        one.bind((HERE, port))
    except OSError:
        one.close()
        raise
    return one


@cache
def block():
    """The ports of this process, in turn, and the socket by which they are its own: it has the first of them as long as the process runs."""
    end = first_of_clients()
    blocks = range(FIRST, (end if end >= FIRST + BLOCK else LAST) - BLOCK + 1, BLOCK)
    begin = os.getpid() % len(blocks)
    for first in *blocks[begin:], *blocks[:begin]:
        with suppress(OSError):
            return bound(first), cycle(range(first + 1, first + BLOCK))
    raise OSError("no block of ports is free")


def free_port():
    """A port on which nobody listens, of the process's own: another one each time, until all were given."""
    with one_at_a_time:
        _, ports = block()
        for port in islice(ports, BLOCK):
            with suppress(OSError):
                bound(port, again=True).close()
                return port
    raise OSError("no port is free")


def could_not_listen(server, line):
    """Whether a server that began with this line has ended, since its port was somebody else's. What it said can be read still."""
    return not line and server.wait(SECONDS) == 1 and (not server.stderr or server.stderr.peek() == b"slotplan: CannotListen\n")


@contextmanager
def started(folder, *more, db="car.db", env=None, err=subprocess.PIPE):
    """A server of the register in the folder, the line with which it begins, and its port. `err` is its standard error."""
    pipes = {"stdin": subprocess.DEVNULL, "stdout": subprocess.PIPE, "stderr": err}
    for left in reversed(range(TRIES)):
        port = free_port()
        with subprocess.Popen([program(), "serve", db, str(port), *more], cwd=folder, env=with_more(env), **pipes) as server:
            try:
                line = server.stdout.readline()
                if not left or not could_not_listen(server, line):
                    yield server, line, port
                    return
            finally:
                server.kill()


def listens_on(port):
    """The line with which a server begins that listens."""
    return f"listening on {HERE}:{port}\n".encode()


def sent(port, data, end=False, seconds=SECONDS):
    """What the server replies to these bytes, within so many seconds."""
    with socket.create_connection((HERE, port), seconds) as stream:
        stream.sendall(data)
        if end:
            stream.shutdown(socket.SHUT_WR)
        reply = b""
        while piece := stream.recv(65536):
            reply += piece
    return reply
