"""What no contract says of a server with as many connections as it may have open, and more: who goes, that each is answered its own request, and that
what was answered is kept where it is stopped or ends.

What is wanted was typed by hand from docs/HTTP.md and docs/FORMATS.md, or is made by their rules; none of it is the program's own output."""
import signal
import socket
import time
from contextlib import ExitStack, suppress
from random import Random
from threading import Event, Thread

from tests.drivers.connections import (
    EXISTS, FRAMES, HONEST, NOTHING, READ_FAILED, SCHEDULE, TRUNCATED, WHOLE, HeldCase, LongCase, PlannedCase, add_frame, adds,
    each_line, long_schedule, soon,
)
from tests.drivers.http_clients import (
    LATE, SHORT, comes_to, connected, descriptors, had, interrupt, is_heard, is_open, limited, narrow, open_at, put, received, reset, stopped,
    work_of,
)
from tests.drivers.preload import Stopper, calls_from
from tests.drivers.program import SECONDS
from tests.drivers.server import sent
from tests.drivers.states import UNAVAILABLE, server_of
from tests.models.messages import DONE, command, head, json, text
from tests.runner.case import TURN
from tests.runner.parameters import for_each

# How many connections may be open, and within how many seconds so many are served, on a slow machine too.
OPEN, ALL_SOON = 1_024, 20
# How many make room at once.
ROOM = 64


# ---- many at once


class Crowd(HeldCase):
    """Of connections so many are open at once; where one more comes, some go. Each client is answered its own request."""

    def test_more_than_may_be_open(self):
        """Those go that sent nothing, the first of them first and so many at once; one that sent a byte stays, however long ago it came."""
        more = 76
        with descriptors(2 * OPEN), ExitStack() as held:
            server, port = held.enter_context(self.served("--count", str(OPEN + more + HONEST), *limited(SECONDS)))
            streams = [held.enter_context(connected(port)) for _ in range(OPEN)]
            self.see("as many as may be", OPEN, comes_to(OPEN, lambda: open_at(server)))
            streams[0].sendall(FRAMES[0][:1])
            streams += [held.enter_context(connected(port)) for _ in range(more)]
            self.see("they are heard", True, is_heard(port))
            gone = range(1, 2 * ROOM + 1)
            stay = OPEN + more - len(gone)
            self.see("how many are open then", stay, comes_to(stay, lambda: open_at(server)))
            self.see("who went", [*gone], [number for number, stream in enumerate(streams) if not is_open(stream)])
            self.see("what they were sent", {b""}, {had(streams[number]) for number in gone})
            self.honest(port)
            self.see("nobody goes for those who find room", len(gone), sum(not is_open(stream) for stream in streams))
            streams[0].sendall(FRAMES[0][1:])
            for stream in streams[gone.stop:]:
                stream.sendall(FRAMES[0])
            self.see("to each of the others", {FRAMES[1]}, {received(stream) for stream in [streams[0], *streams[gone.stop:]]})
            self.ends(server, READ_FAILED * len(gone))

    def test_one_that_only_ends(self):
        """Where one has its reply and does not close, that goes, and no word is said; who is silent stays."""
        with descriptors(2 * OPEN), ExitStack() as held:
            server, port = held.enter_context(self.served("--count", str(OPEN + 1), *limited(SECONDS)))
            streams = [held.enter_context(connected(port)) for _ in range(OPEN)]
            self.see("as many as may be", OPEN, comes_to(OPEN, lambda: open_at(server)))
            streams[-1].sendall(NOTHING[0])
            self.see("a reply", NOTHING[1], received(streams[-1]))
            self.served_at_once(port)
            self.see("who is silent", [*range(OPEN - 1)], [number for number, stream in enumerate(streams) if is_open(stream)])
            held.callback(self.ends, server, TRUNCATED * (OPEN - 1))
            for stream in streams:
                stream.close()

    def test_requests_at_once(self):
        """Each has its reply; nobody goes whose request is there."""
        asked = [(adds(f"q{n}"), json(DONE)) if n % 10 == 0 else FRAMES if n % 2 else NOTHING for n in range(1_100)]
        with descriptors(2 * OPEN), ExitStack() as held:
            server, port = held.enter_context(self.served("--count", str(len(asked)), *limited(SECONDS)))
            begun, streams = time.monotonic(), []
            for data, _ in asked:
                streams.append(held.enter_context(connected(port)))
                streams[-1].sendall(data)
            begin, end = (FRAMES[1].partition(b"\r\n\r\n")[2], b"FRAME q")
            for number, (stream, (data, wanted)) in enumerate(zip(streams, asked, strict=True)):
                got = received(stream)
                is_own = got == wanted or data == FRAMES[0] and got.partition(b"\r\n\r\n")[2].startswith(begin + end)
                self.see(f"to request {number}", True, is_own or got)
            self.see("nobody holds them up", True, soon(begun, ALL_SOON))
            self.ends(server)

    def test_few_descriptors(self):
        """A server that may have 64 files open serves on behind 200 silent clients, changes too, and rests where nothing comes."""
        silent = 200
        with ExitStack() as held:
            with descriptors(64):
                server, port = held.enter_context(self.served("--count", str(silent + HONEST + 1), *limited(SECONDS)))
            streams = [held.enter_context(connected(port)) for _ in range(silent)]
            self.honest(port)
            self.see("a change", json(DONE), sent(port, WHOLE))
            worked = work_of(server)
            time.sleep(1)
            self.see("the server rests", True, work_of(server) - worked < 0.2 or work_of(server) - worked)
            self.see("most are let go", True, sum(map(is_open, streams)) < 64 or sum(map(is_open, streams)))
            self.see("it goes on", None, server.poll())
            for stream in streams:
                stream.close()
            self.see("the server ends", 0, server.wait(SECONDS))
            said = server.stderr.read()
            said = each_line(said)
            self.see("what it said", {READ_FAILED[:-1], TRUNCATED[:-1]}, set(said.splitlines()))
            self.see("once of each", silent, said.count(b"\n"))

    def test_that_come_and_go(self):
        """Clients that break down, close at once or say what is no request leave nothing behind."""
        kinds = [b"", b"GET", FRAMES[0], WHOLE[:-1], b"\x01"]
        with self.served(*limited(SECONDS)) as (server, port):
            for data, breaks in [(data, breaks) for data in kinds for breaks in (True, False)] * 40:
                stream = connected(port)
                put(stream, data)
                reset(stream) if breaks else stream.close()
            self.honest(port)
            self.see("nobody is left", 0, comes_to(0, lambda: open_at(server)))
            self.see("it goes on", None, server.poll())


class Behind(HeldCase):
    """Those that come while the server is at work wait for it, more than may be open; then they are accepted, and nobody is shut out."""

    def test_many_silent(self):
        with descriptors(4 * OPEN), self.served(*limited(SECONDS)) as (server, port), ExitStack() as held:
            with stopped(server):
                begun = time.monotonic()
                for _ in range(2 * OPEN):
                    held.enter_context(connected(port))
                self.see("they come at once", True, soon(begun))
            self.honest(port)


class Taken(LongCase):
    """A reply that its client takes slowly is not cut by those that send nothing, however many come."""

    def test_among_silent(self):
        with descriptors(4 * OPEN), self.served(*limited(SECONDS)) as (server, port), ExitStack() as held:
            taking = held.enter_context(narrow(port))
            taking.sendall(SCHEDULE)
            taking.recv(1, socket.MSG_PEEK)
            silent = [held.enter_context(connected(port)) for _ in range(OPEN + ROOM)]
            self.see("the first that sent nothing goes", False, comes_to(False, lambda: is_open(silent[0])))
            self.see("a long reply", True, received(taking) == text(long_schedule()))


class Waiting(HeldCase):
    """Where no descriptor is left and each request is complete, no more are accepted until a connection ends; then the next one is served."""

    def test_in_turn(self):
        asked = [FRAMES if number % 2 else (adds("f1"), EXISTS) for number in range(100)]
        with ExitStack() as held:
            with descriptors(24):
                server, port = held.enter_context(self.served("--count", str(len(asked)), *limited(SECONDS)))
            with stopped(server):
                streams = [held.enter_context(connected(port)) for _ in asked]
                for stream, (data, _) in zip(streams, asked, strict=True):
                    stream.sendall(data)
            for number, (stream, (_, wanted)) in enumerate(zip(streams, asked, strict=True)):
                self.see(f"to request {number}", wanted, had(stream))
            self.ends(server)


class OwnCase(PlannedCase):
    """Over frames, each with a signal of its own."""

    frames = 60

    def setUp(self):
        super().setUp()
        signal_of = b'supplier01 {"do":"add_signal","variant":"v1","frame":"g%d","signal":"x%d","start":%d,"length":1,"order":"little"}'
        lines = [b"supplier01 " + add_frame(f"g{n}") for n in range(self.frames)] + [signal_of % (n, n, n % 8) for n in range(self.frames)]
        self.ask(b"\n".join(lines) + b"\n", (DONE + b"\n") * len(lines))

    def asked(self, number):
        """A request that changes the register, or that is answered as no other frame's is, and its reply."""
        frame = number % self.frames
        layout = b"%04d 01 little x%d\n" % (frame % 8, frame)
        query = b'{"do":"layout","variant":"v1","frame":"g%d"}' % frame
        return [
            (adds(f"h{number}"), json(DONE)),
            (head("GET", f"/v1/variants/v1/frames/g{frame}/layout", "supplier01"), text(layout)),
            (command("supplier01", query), json(b'{"lines":["%s"],"ok":"layout"}' % layout[:-1])),
        ][number % 3]

    def added(self):
        """The frames that such requests added."""
        return {name for (name,) in self.rows("SELECT name FROM frames WHERE name LIKE 'h%'")}


class Own(OwnCase):
    """Each of many clients, whose requests come in pieces among one another's, is answered its own request."""

    def test_pieces_among_others(self):
        random, count = Random(69), 400
        asked = [self.asked(number) for number in range(count)]
        with self.served("--count", str(count), *limited(SECONDS)) as (server, port), ExitStack() as held:
            streams = [held.enter_context(connected(port)) for _ in asked]
            left = {number: data for number, (data, _) in enumerate(asked)}
            while left:
                number = random.choice([*left])
                size = random.choice([1, 7, 60, 200])
                streams[number].sendall(left[number][:size])
                left[number] = left[number][size:]
                if not left[number]:
                    del left[number]
            for stream, (data, wanted) in zip(streams, asked, strict=True):
                self.see(f"to {data!r}", wanted, received(stream))
            self.ends(server)
        self.see("the changes", {f"h{number}" for number in range(0, count, 3)}, self.added())


ENDS, FAILS = ("end", "half"), ("EIO", "ENOSPC")
WAYS = (*ENDS, *FAILS, "short")


@for_each([(way, way) for way in WAYS])
class Stopped(OwnCase):
    """A server that is stopped at a call on files while several clients wait, or whose call fails: each answered change is kept, one more at most,
    and each client has its own answer, `Unavailable`, or none."""

    in_memory, waits, step, clients = True, False, 4, 12

    def anew(self):
        for file in self.folder.glob("car.db*"):
            file.unlink()
        (self.folder / "car.db").write_bytes(self.kept)

    def replies(self, server, port, asked):
        """What the clients are replied who all wait before the first is."""
        with ExitStack() as held:
            streams = []
            with stopped(server):
                for data, _ in asked:
                    streams.append(held.enter_context(connected(port)))
                    streams[-1].sendall(data)
            return [had(stream) for stream in streams]

    def stopped_so(self, what, more, way):
        """What a server keeps that is stopped so."""
        asked = [self.asked(number) for number in range(self.clients)]
        with server_of(self.folder, self.clients, more) as (server, port):
            replies = self.replies(server, port, asked) if port else [b""] * len(asked)
            ended = server.wait(SECONDS), server.stderr.read()
        may_end = [(0, b""), *([(-9, b"")] if way in ENDS else [(1, b"slotplan: Unavailable\n")] if way in FAILS else [])]
        self.see(f"{what}: the end", True, ended in may_end or ended)
        for got, (data, wanted) in zip(replies, asked, strict=True):
            others = [] if way == "short" else [b"", *([UNAVAILABLE] if way in FAILS else [])]
            self.see(f"{what}: to {data[-60:]!r}", True, got in [wanted, *others] or got)
        answered = {f"h{number}" for number, got in enumerate(replies) if number % 3 == 0 and got == json(DONE)}
        self.see(f"{what}: answered changes that are not there", set(), answered - self.added())
        self.see(f"{what}: others that are there", True, len(self.added() - answered) <= 1 or self.added())
        self.sound()
        return len(answered)

    def tried(self, way):
        self.kept, stopper, counts = (self.folder / "car.db").read_bytes(), Stopper(self.folder), []
        for call in calls_from(TURN + WAYS.index(way), self.each):
            self.anew()
            count = self.stopped_so(f"{way} at call {call}", stopper.stopping(call, way), way)
            if not stopper.has_acted():
                break
            counts.append(count)
        self.see("all are answered where nothing is stopped", len(range(0, self.clients, 3)), count)
        self.see(f"it has calls that {way} stops", True, len(counts) > 0)
        print(f"Stopped: {way} at {len(counts)} calls, answered changes {counts}", flush=True)


# ---- the end


class Counted(HeldCase):
    """With a count no more are accepted after so many, whoever they are, and the server ends when these have."""

    def test_no_more(self):
        with self.served("--count", "3", *limited(SECONDS)) as (server, port), ExitStack() as held:
            one, other = (held.enter_context(connected(port)) for _ in range(2))
            one.sendall(WHOLE[:-1])
            self.served_at_once(port)
            more = held.enter_context(connected(port))
            more.sendall(adds("f8"))
            time.sleep(0.5)
            self.see("who comes behind them is sent nothing", True, is_open(more))
            one.sendall(WHOLE[-1:])
            self.see("one of them", json(DONE), received(one))
            self.see("it does not end before the last", None, server.poll())
            other.close()
            self.ends(server, TRUNCATED)
            self.see("who came behind them", b"", had(more))
        self.see("the frames", [("f1",), ("f7",)], self.rows("SELECT name FROM frames ORDER BY name"))


class CountedLong(LongCase):
    """A server that ends waits for those that still take their replies, and no longer than they have time."""

    def test_takes_it(self):
        with self.served("--count", "2", *limited(SECONDS)) as (server, port), narrow(port) as stream:
            stream.sendall(SCHEDULE)
            self.see("the last one is served", NOTHING[1], sent(port, NOTHING[0]))
            time.sleep(1)
            self.see("it does not end before the reply is taken", None, server.poll())
            self.see("a long reply", True, received(stream) == text(long_schedule()))
            self.ends(server)

    def test_does_not(self):
        with self.served("--count", "1", *limited(SHORT)) as (server, port), narrow(port) as stream:
            stream.sendall(SCHEDULE)
            stream.recv(1, socket.MSG_PEEK)
            begun = time.monotonic()
            self.ends(server)
            self.see("it ends when the time is over", True, time.monotonic() - begun <= SHORT + LATE)


class Signals(HeldCase):
    """A server that is interrupted among many clients goes on; one that is ended by a signal keeps what it answered."""

    def test_interrupted(self):
        names = [f"i{n}" for n in range(12)]
        with self.served("--count", str(len(names) + HONEST), *limited(SECONDS)) as (server, port), ExitStack() as held:
            asked = [(held.enter_context(connected(port)), adds(name), 12 * number) for number, name in enumerate(names)]
            for stream, data, cut in asked:
                stream.sendall(data[:cut])
            interrupt(server)
            self.honest(port)
            for stream, data, cut in asked:
                stream.sendall(data[cut:-1])
            interrupt(server)
            for stream, data, _ in asked:
                stream.sendall(data[-1:])
                self.see("behind interruptions", json(DONE), received(stream))
            self.ends(server)

    def ended_by(self, number):
        """Clients change the register side by side until the server ends, and others are silent."""
        answered, left = [], Event()

        def change(port, client):
            for turn in range(10_000):
                with suppress(OSError):
                    if left.is_set() or sent(port, adds(f"c{client}x{turn}")) != json(DONE):
                        return
                    answered.append(f"c{client}x{turn}")

        with self.served(*limited(SECONDS)) as (server, port), ExitStack() as held:
            for _ in range(20):
                held.enter_context(connected(port)).sendall(WHOLE[:-1])
            workers = [Thread(target=change, args=(port, client), daemon=True) for client in range(4)]
            for worker in workers:
                worker.start()
            comes_to(True, lambda: len(answered) >= 20)
            server.send_signal(number)
            self.see("the server ends", -number, server.wait(SECONDS))
            left.set()
            for worker in workers:
                worker.join(SECONDS)
        names = {name for (name,) in self.rows("SELECT name FROM frames")}
        self.see("it came to changes", True, len(answered) >= 20)
        self.see("answered changes that are not there", set(), set(answered) - names)
        self.see("what is there without an answer: one for each client", True, len(names - set(answered) - {"f1"}) <= 4 or names)
        self.sound()

    def test_terminated(self):
        self.ended_by(signal.SIGTERM)

    def test_killed(self):
        self.ended_by(signal.SIGKILL)
