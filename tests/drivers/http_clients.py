"""Clients of a server: they are silent, send piece by piece, read late or not at all, end half of a connection or break down; and many at once. And
what the system tells of the server meanwhile."""
import fcntl
import os
import re
import resource
import signal
import socket
import struct
import termios
import time
from contextlib import contextmanager, suppress
from pathlib import Path
from threading import Event, Thread

from .program import SECONDS
from .server import HERE

# How many seconds a connection lasts where the server is told of none, how many most servers here are told, and how much later
# its end may be seen on a slow machine.
LIMIT, SHORT, LATE = 10, 2, 7
# For how many seconds a test waits for what comes to be.
PATIENCE = 20


# ---- one client


def connected(port):
    return socket.create_connection((HERE, port), SECONDS)


def narrow(port):
    """A connection that holds little of what its client does not read: the smallest segments, and few of them."""
    stream = socket.socket()
    stream.settimeout(SECONDS)
    stream.setsockopt(socket.IPPROTO_TCP, socket.TCP_MAXSEG, 88)
    stream.setsockopt(socket.SOL_SOCKET, socket.SO_RCVBUF, 1)
    stream.connect((HERE, port))
    return stream


def received(stream, count=None):
    """What comes, up to so many bytes, or up to the stream's end."""
    got = b""
    while (count is None or len(got) < count) and (piece := stream.recv(65536 if count is None else count - len(got))):
        got += piece
    return got


def had(stream):
    """What comes up to the stream's end, or up to where the server breaks it off."""
    got = b""
    with suppress(ConnectionError):
        while piece := stream.recv(65536):
            got += piece
    return got


def put(stream, data):
    """Sends these bytes, if the server still takes them."""
    with suppress(ConnectionError):
        stream.sendall(data)


def is_open(stream):
    """Whether the server has neither sent anything nor ended the connection."""
    stream.setblocking(False)
    try:
        return stream.recv(1, socket.MSG_PEEK) is None
    except BlockingIOError:
        return True
    except ConnectionError:
        return False
    finally:
        stream.settimeout(SECONDS)


def has_arrived(stream):
    """Whether all that was sent comes to lie at the server, read or not."""
    until = time.monotonic() + SECONDS
    while unread := struct.unpack("i", fcntl.ioctl(stream, termios.TIOCOUTQ, bytes(4)))[0]:
        if time.monotonic() > until:
            return unread
        time.sleep(0.01)
    return True


@contextmanager
def meanwhile(act, pause):
    """Does this again and again, with so many seconds between, until it fails or the block is left."""
    left = Event()

    def repeated():
        with suppress(OSError):
            while not left.wait(pause):
                act()

    worker = Thread(target=repeated, daemon=True)
    worker.start()
    try:
        yield
    finally:
        left.set()
        worker.join(SECONDS)


def trickled(stream, data):
    """Sends these bytes, one each half second, until the server replies or ends the connection; gives what it replies."""
    stream.settimeout(0.5)
    for at in range(len(data)):
        try:
            stream.sendall(data[at : at + 1])
            return received(stream)
        except socket.timeout:
            continue
        except ConnectionError:
            break
    return b""


def reset(stream):
    """Ends the connection at once, as a client does that breaks down."""
    stream.setsockopt(socket.SOL_SOCKET, socket.SO_LINGER, struct.pack("ii", 1, 0))
    stream.close()


# ---- the server


def interrupt(server):
    """Stops the server and lets it go on: where it waits, or reads or writes and nothing was taken yet, that is interrupted."""
    for _ in range(4):
        time.sleep(0.2)
        server.send_signal(signal.SIGSTOP)
        time.sleep(0.05)
        server.send_signal(signal.SIGCONT)


@contextmanager
def stopped(server):
    """The server stands still, and what comes in waits for it."""
    server.send_signal(signal.SIGSTOP)
    try:
        yield
    finally:
        server.send_signal(signal.SIGCONT)


def memory_of(server):
    """How many bytes of memory it has."""
    return int(re.search(r"VmRSS:\s+(\d+) kB", Path(f"/proc/{server.pid}/status").read_text())[1]) * 1024


def work_of(server):
    """How many seconds of a processor it has had."""
    return int(Path(f"/proc/{server.pid}/schedstat").read_text().split()[0]) / 1e9


def unread_at(port):
    """How many bytes and connections wait at the sockets whose own port this is."""
    rows = (line.split() for line in Path("/proc/net/tcp").read_text().splitlines()[1:])
    return sum(int(row[4].partition(":")[2], 16) for row in rows if int(row[1].partition(":")[2], 16) == port)


def is_heard(port):
    """Whether the server comes to accept whoever waits at its port, and to read what came."""
    return comes_to(0, lambda: unread_at(port)) == 0


def open_at(server):
    """How many connections the server has open, beside the socket at which they come in."""
    with suppress(OSError):
        links = {os.readlink(path) for path in Path(f"/proc/{server.pid}/fd").iterdir()}
        return max(0, sum(link.startswith("socket:") for link in links) - 1)
    return 0


def comes_to(wanted, seen):
    """What is seen, once it is as wanted, or when a test has waited long enough for that."""
    until = time.monotonic() + PATIENCE
    while (got := seen()) != wanted and time.monotonic() < until:
        time.sleep(0.005)
    return got


@contextmanager
def descriptors(count):
    """What is started here may have so many files and connections open."""
    before = resource.getrlimit(resource.RLIMIT_NOFILE)
    resource.setrlimit(resource.RLIMIT_NOFILE, (count, max(count, before[1])))
    try:
        yield
    finally:
        resource.setrlimit(resource.RLIMIT_NOFILE, before)


# ---- time


def limited(seconds):
    """The words for a server whose connections last so long."""
    return [] if seconds == LIMIT else ["--seconds", str(seconds)]


def waited(begun, seconds):
    """Whether it was waited so long since then, and not much longer."""
    passed = time.monotonic() - begun
    return seconds - 0.1 <= passed <= seconds + LATE or passed
