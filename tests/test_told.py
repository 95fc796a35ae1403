"""What no contract says of a server's standard error: a word that comes again is counted, and nobody waits for who does not read it.

What is wanted was typed by hand from docs/HTTP.md; none of it is the program's own output."""
import fcntl
import os
import time
from contextlib import suppress

from tests.drivers.connections import TRUNCATED, WHOLE, HeldCase, each_line
from tests.drivers.http_clients import connected, had, limited
from tests.drivers.program import SECONDS
from tests.drivers.server import started


def breaks_off(port):
    """A client that ends within its request."""
    with connected(port) as stream:
        stream.sendall(WHOLE[:-1])
        stream.shutdown(1)
        had(stream)


class Counted(HeldCase):
    """A word that comes again within a second is counted, and how often it came is told."""

    def test_at_once(self):
        count = 200
        with self.served("--count", str(count), *limited(SECONDS)) as (server, port):
            for _ in range(count):
                breaks_off(port)
            self.see("the server ends", 0, server.wait(SECONDS))
            said = server.stderr.read()
        self.see("as often as it came", TRUNCATED * count, each_line(said))
        self.see("in a few lines", True, said.count(b"\n") < count / 4 or said)

    def test_a_second_later(self):
        with self.served("--count", "4", *limited(SECONDS)) as (server, port):
            for _ in range(3):
                breaks_off(port)
            time.sleep(1.2)
            breaks_off(port)
            self.see("the server ends", 0, server.wait(SECONDS))
            self.see("what it said", b"slotplan: Truncated\nslotplan: Truncated (2 more)\nslotplan: Truncated\n", server.stderr.read())


class Full(HeldCase):
    """Where standard error is a pipe that is full, a line is dropped and counted, and the server goes on."""

    def filled(self, end):
        """The pipe is full from now on. How many bytes that are."""
        flags = fcntl.fcntl(end, fcntl.F_GETFL)
        fcntl.fcntl(end, fcntl.F_SETFL, flags | os.O_NONBLOCK)
        count = 0
        with suppress(BlockingIOError):
            while True:
                count += os.write(end, b"." * 4096)
        fcntl.fcntl(end, fcntl.F_SETFL, flags)
        return count

    def test_dropped(self):
        reads, writes = os.pipe()
        with os.fdopen(reads, "rb", 0) as reader, os.fdopen(writes, "wb", 0) as writer:
            count = self.filled(writes)
            with started(self.folder, *limited(SECONDS), err=writer) as (server, _, port):
                breaks_off(port)
                self.honest(port)
                self.see("what filled it", count, sum(len(os.read(reads, 4096)) for _ in range(count // 4096)))
                time.sleep(1.2)
                breaks_off(port)
                self.see("what is told then", b"slotplan: lines dropped: 1\nslotplan: Truncated\n", reader.read(65536))
