"""What no contract says of a server that many use at once: whoever is silent or slow, or does not take its reply, holds up nobody; how long each has,
and when a request is answered. Who goes where more come, and that what was answered is kept, is tried in test_crowds.

What is wanted was typed by hand from docs/HTTP.md and docs/FORMATS.md, or is made by their rules; none of it is the program's own output."""
import socket
import time
from contextlib import ExitStack, closing
from functools import partial
from itertools import cycle
from threading import Thread

from tests.drivers.connections import (
    EXISTS, FRAMES, HONEST, NOTHING, READ_FAILED, SCHEDULE, TRUNCATED, WHOLE, HeldCase, LongCase, add_frame, adds, long_schedule, soon,
)
from tests.drivers.http_clients import (
    LIMIT, SHORT, comes_to, connected, had, is_heard, is_open, limited, meanwhile, memory_of, narrow, open_at, received, stopped, trickled, waited,
    work_of,
)
from tests.drivers.preload import Stopper
from tests.drivers.program import SECONDS
from tests.drivers.server import sent
from tests.models.messages import CONTINUE, DONE, UNKNOWN, command, engine, head, json, refused, text

# How many bytes of replies may be kept beside the last.
KEPT = 67_108_864
# How many clients are each in the way of the next.
HOLDERS = 8
HEAD_ENDS = len(WHOLE) - len(add_frame("f7"))


# ---- clients that are silent or slow


class Silent(HeldCase):
    """Clients that are silent or slow within their requests hold up nobody, and each is let go after so many seconds; told of more, they may take
    longer."""

    def lets_go(self, cuts, seconds, send=None):
        with self.served("--count", str(len(cuts) + HONEST), *limited(seconds)) as (server, port), ExitStack() as held:
            begun = time.monotonic()
            streams = [held.enter_context(connected(port)) for _ in cuts]
            for stream, cut in zip(streams, cuts, strict=True):
                stream.sendall(WHOLE[:cut])
            self.honest(port, seconds / 2)
            for stream, cut in zip(streams, cuts, strict=True):
                self.see(f"sent to one that stops behind {cut} bytes", b"", send(stream, WHOLE[cut:]) if send else received(stream))
            self.see(f"each is let go after {seconds} seconds", True, waited(begun, seconds))
            self.ends(server, READ_FAILED * len(cuts))

    def test_told_of_no_seconds(self):
        self.lets_go([20], LIMIT)

    def test_before_the_last_byte(self):
        self.lets_go([-1], 2 * SHORT)

    def test_several(self):
        """Side by side: all after as many seconds as one."""
        self.lets_go([0, 1, 20, HEAD_ENDS, -1], 2 * SHORT)

    def test_slow_from_the_first_byte(self):
        """A client that sends a byte each half second is let go at the same time."""
        self.lets_go([0], 2 * SHORT, trickled)

    def test_slow_behind_the_head(self):
        self.lets_go([HEAD_ENDS], 2 * SHORT, trickled)

    def test_longer(self):
        """A connection may last longer than those of a server that is told nothing."""
        with self.served("--count", "1", *limited(3_600)) as (server, port):
            with connected(port) as stream:
                stream.sendall(WHOLE[:20])
                time.sleep(LIMIT + 1)
                stream.sendall(WHOLE[20:])
                self.see("a request that takes its time", json(DONE), received(stream))
            self.ends(server)

    def behind(self, count):
        """Clients come behind so many that are silent at each place of a request, and then go."""
        with self.served("--count", str(count + HONEST), *limited(SECONDS)) as (server, port), ExitStack() as held:
            cuts = cycle([0, 1, 20, HEAD_ENDS - 1, HEAD_ENDS, len(WHOLE) - 1])
            for _, cut in zip(range(count), cuts):
                held.enter_context(connected(port)).sendall(WHOLE[:cut])
            self.see("they are heard", True, is_heard(port))
            self.see("they are connected", count, open_at(server))
            self.honest(port)
            worked = work_of(server)
            time.sleep(1)
            self.see("the server rests meanwhile", True, work_of(server) - worked < 0.2 or work_of(server) - worked)
            held.close()
            self.ends(server, TRUNCATED * count)

    def test_behind_one(self):
        self.behind(1)

    def test_behind_5(self):
        self.behind(5)

    def test_behind_500(self):
        self.behind(500)


class Slow(HeldCase):
    """Clients that send one byte after another, side by side, each have their own reply in time, and hold up nobody."""

    def test_by_bytes(self):
        frames = [f"s{n}" for n in range(20)]
        asked = [(adds(frame), json(DONE)) for frame in frames] + [FRAMES, NOTHING] * 10
        with self.served("--count", str(len(asked) + HONEST + 1), *limited(SECONDS)) as (server, port), ExitStack() as held:
            streams = [held.enter_context(connected(port)) for _ in asked]
            for at in range(max(len(data) for data, _ in asked) - 1):
                for stream, (data, _) in zip(streams, asked, strict=True):
                    stream.sendall(data[:-1][at : at + 1])
                if at == 100:
                    self.honest(port)
            for stream, (data, wanted) in reversed([*zip(streams, asked, strict=True)]):
                stream.sendall(data[-1:])
                self.see(f"to {data[:40]!r} by bytes", wanted, received(stream))
            wanted = text(FRAMES[1].partition(b"\r\n\r\n")[2] + b"".join(b"FRAME %s n1\n" % name.encode() for name in sorted(frames)))
            self.see("what was added", wanted, sent(port, FRAMES[0]))
            self.ends(server)


# ---- clients that do not take their replies


class Unread(LongCase):
    """A client that takes nothing of its reply, or a little now and then, holds up nobody; it is let go so many seconds after its reply was made, and
    no word is said. One that begins late has its reply whole."""

    def let_go(self, server, port, streams, begun):
        self.see("the next one is served", NOTHING[1], sent(port, NOTHING[0]))
        self.see("nobody holds it up", True, soon(begun))
        self.ends(server)
        self.see(f"they are let go after {2 * SHORT} seconds", True, waited(begun, 2 * SHORT))
        whole = text(long_schedule())
        for stream in streams:
            got = had(stream)
            self.see("what it was sent is a front of its reply", True, len(got) < len(whole) and whole.startswith(got) or got[-100:])

    def test_nothing(self):
        with self.served("--count", str(HOLDERS + 1), *limited(2 * SHORT)) as (server, port), ExitStack() as held:
            begun = time.monotonic()
            streams = [held.enter_context(closing(narrow(port))) for _ in range(HOLDERS)]
            for stream in streams:
                stream.sendall(SCHEDULE)
            self.let_go(server, port, streams, begun)

    def test_a_little(self):
        with self.served("--count", "2", *limited(2 * SHORT)) as (server, port), narrow(port) as stream:
            begun = time.monotonic()
            stream.sendall(SCHEDULE)
            with meanwhile(partial(received, stream, 5_000), 0.25):
                self.let_go(server, port, [], begun)

    def test_behind_a_late_request(self):
        """Its reply has as much time as its request had, counted anew."""
        with self.served("--count", "1", *limited(LIMIT + 4)) as (server, port), narrow(port) as stream:
            stream.sendall(SCHEDULE[:-1])
            time.sleep(LIMIT + 1)
            stream.sendall(SCHEDULE[-1:])
            time.sleep(4)
            self.see("a long reply", True, received(stream) == text(long_schedule()))
            self.ends(server)

    def test_more_than_are_kept(self):
        """Of many such replies so many bytes are kept beside the last. Those go whose time ends first."""
        whole = text(long_schedule())
        count = KEPT // len(whole) + 12
        with self.served(*limited(3_600)) as (server, port), ExitStack() as held:
            self.see("before them", NOTHING[1], sent(port, NOTHING[0]))
            before, streams = memory_of(server), []
            for _ in range(count):
                streams.append(held.enter_context(closing(narrow(port))))
                streams[-1].sendall(SCHEDULE)
                streams[-1].recv(1, socket.MSG_PEEK)  # its reply has begun, of which nothing is taken
            time.sleep(0.5)
            grown, gone = memory_of(server) - before, count - open_at(server)
            print(f"{gone} of {count} are gone; its memory has grown by {grown} bytes", flush=True)
            self.see("by how many bytes its memory has grown", True, grown <= 2 * KEPT + 8_000_000 or grown)
            # The system holds some of each reply, so that some more than 75 are kept, but not all.
            self.see("how many are gone", True, 0 < gone <= 12 or gone)
            for number in {0, gone - 1, gone, count - 1}:
                got = had(streams[number])
                self.see(f"whether reply {number} of {count} is whole", number >= gone, got == whole)
                self.see(f"reply {number} is its front", True, whole.startswith(got) or got[-100:])


class Staying(HeldCase):
    """A client that has its reply and does not close, or that goes on sending behind its request, is not waited for."""

    def waits_for_none(self, hold):
        """Each client has its reply or not, as `hold` has it, and stays."""
        with self.served("--count", str(HOLDERS + HONEST)) as (server, port), ExitStack() as held:
            for _ in range(HOLDERS):
                stream = held.enter_context(connected(port))
                stream.sendall(FRAMES[0])
                hold(stream, held)
            self.honest(port)
            self.ends(server)

    def test_connected(self):
        self.waits_for_none(lambda stream, held: self.see("the reply", FRAMES[1], received(stream)))

    def sends_behind(self, piece, pause):
        self.waits_for_none(lambda stream, held: held.enter_context(meanwhile(partial(stream.sendall, piece), pause)))

    def test_sends_a_byte_now_and_then(self):
        self.sends_behind(b"x", 0.5)

    def test_sends_on(self):
        self.sends_behind(b"x" * 200_000, 0)


# ---- where a request ends


class Whole(HeldCase):
    """A request is answered once it is complete, by its own bytes alone, whatever stands behind it and whether its client has ended its half."""

    def test_halves(self):
        """A whole request behind which its client ends its half is answered; one that ends early is not."""
        asked = [FRAMES, (WHOLE, json(DONE)), (WHOLE, EXISTS), (SCHEDULE, text(b"00 0001 A f1 n1 s1\n")), NOTHING]
        cuts = [b"", b"\r\n", FRAMES[0][:-1], WHOLE[:HEAD_ENDS], WHOLE[:-1]]
        with self.served("--count", str(len(asked) + len(cuts))) as (server, port):
            for data, wanted in asked:
                self.see(f"to {data[:40]!r} and the end", wanted, sent(port, data, end=True))
            for data in cuts:
                self.see(f"to {data[-40:]!r} and the end", b"", sent(port, data, end=True))
            self.ends(server, TRUNCATED * len(cuts))

    def test_pipelined(self):
        """Of requests behind one another the first is answered, and the others are not asked."""
        other, both = adds("f8"), text(b"FRAME f1 n1\nAT 0001 A 00 64\nFRAME f7 n1\n")
        asked = [
            (FRAMES[0] * 3, FRAMES[1]),
            (FRAMES[0] + b"x" * 20_000, FRAMES[1]),
            (WHOLE + other, json(DONE)),
            (other[:-1] + b"?" + WHOLE, json(refused(1, "BadText"), "400 Bad Request")),
            (NOTHING[0] + other + b"x" * 100_000, NOTHING[1]),
            (head("GET", "/v1/variants/v1/frames", "supplier01", f"Content-Length: {len(other)}") + other, both),
            (head("POST", "/v1/commands", "supplier01") + other, engine("411 Length Required")),
        ]
        with self.served("--count", str(len(asked) + 1)) as (server, port):
            for data, wanted in asked:
                self.see(f"to {data[:150]!r}", wanted, sent(port, data))
            self.see("the second of two was not asked", both, sent(port, FRAMES[0]))
            self.ends(server)

    def test_body_in_two(self):
        """A body that is cut at each byte is awaited, and its command is carried out once."""
        ends = range(HEAD_ENDS, len(WHOLE))
        with self.served("--count", str(len(ends) + 1), *limited(SECONDS)) as (server, port), ExitStack() as held:
            streams = [held.enter_context(connected(port)) for _ in ends]
            asked = [adds(f"f{end}") for end in ends]
            for stream, data, end in zip(streams, asked, ends, strict=True):
                stream.sendall(data[: min(end, len(data) - 1)])
            self.see("they are heard", True, is_heard(port))
            self.see("nobody is answered yet", [], [stream for stream in streams if not is_open(stream)])
            for stream, data, end in zip(streams, asked, ends, strict=True):
                stream.sendall(data[min(end, len(data) - 1) :])
                self.see(f"to a request cut behind {end} bytes", json(DONE), received(stream))
            self.see("each is there", len(ends) + 1, sent(port, FRAMES[0]).count(b"FRAME f"))
            self.ends(server)


    def test_refused_before_its_end(self):
        """Bytes of which no head can come any more, or a head that is refused, are answered at once: no more is awaited, whoever stays."""
        field, many = b"x: 1\r\n", engine("431 Request Header Fields Too Large")
        begun = b"GET /v1/nothing HTTP/1.1\r\n"
        asked = [
            *((data, engine("400 Bad Request")) for data in (b"\0", b"GET /\x7f", b"GET /\xff ", b"GET / HTTP/2")),
            *((begun + data, engine("400 Bad Request")) for data in (b"x\0", b"x: \x7f", b":")),
            (b"GET /" + b"x" * 8_187, many),
            (begun + b"x: " + b"x" * (8_192 - 3 - len(begun)), many),
            (begun + field * 65, many),
            (begun + b"\r\n", NOTHING[1]),
            (head("GET", "/v1/nothing", None, "Content-Length: 9"), NOTHING[1]),
            (head("GET", "/v1/variants/v1/frames", "supplier01", "Content-Length: 9"), FRAMES[1]),
            (head("PUT", "/v1/commands", "supplier01", "Content-Length: 9"), engine("405 Method Not Allowed", "allow: POST")),
            (head("POST", "/v1/commands", "supplier01"), engine("411 Length Required")),
            (head("POST", "/v1/commands", "supplier01", "Content-Length: 9", "Content-Length: 9"), engine("400 Bad Request")),
            (head("POST", "/v1/commands", "supplier01", "Content-Length: 65537"), engine("413 Payload Too Large")),
            (head("POST", "/v1/commands", "supplier01", "Transfer-Encoding: chunked"), engine("501 Not Implemented")),
        ]
        with self.served("--count", str(len(asked)), *limited(3_600)) as (server, port), ExitStack() as held:
            streams = [held.enter_context(connected(port)) for _ in asked]
            for stream, (data, _) in zip(streams, asked, strict=True):
                stream.sendall(data[:-1])
            self.see("they are heard", True, is_heard(port))
            self.see("nobody is answered yet", [], [data for stream, (data, _) in zip(streams, asked, strict=True) if not is_open(stream)])
            for stream, (data, wanted) in zip(streams, asked, strict=True):
                stream.sendall(data[-1:])
                self.see(f"to {data[:80]!r}, of {len(data)} bytes", wanted, received(stream))
            self.ends(server)


class Invited(HeldCase):
    """A client that asks for `100 Continue` gets it once, when its head is there and before its body is awaited; others are served meanwhile."""

    def test_many(self):
        """The bodies come in another order than the heads."""
        names = [f"w{n}" for n in range(40)]
        with self.served("--count", str(len(names) + HONEST), *limited(SECONDS)) as (server, port), ExitStack() as held:
            asked = [(held.enter_context(connected(port)), adds(name, "Expect: 100-continue"), len(add_frame(name))) for name in names]
            for stream, data, size in asked:
                stream.sendall(data[: -size - 1])
            self.see("they are heard", True, is_heard(port))
            self.see("nobody is invited before the head's end", [], [data for stream, data, _ in asked if not is_open(stream)])
            for stream, data, size in asked:
                stream.sendall(data[-size - 1 : -size])
                self.see("behind the head", CONTINUE, received(stream, len(CONTINUE)))
            self.honest(port)
            for stream, data, size in reversed(asked):
                stream.sendall(data[-size:-1])
                stream.sendall(data[-1:])
                self.see("behind the body", json(DONE), received(stream))
            self.ends(server)

    def test_once(self):
        """However much of the body came with the head."""
        data = adds("f7", "Expect: 100-continue")
        ends = len(data) - len(add_frame("f7"))
        cuts = [ends, ends + 1, len(data) - 1, len(data)]
        with self.served("--count", str(len(cuts)), *limited(SECONDS)) as (server, port):
            for cut, wanted in zip(cuts, [json(DONE), EXISTS, EXISTS, EXISTS], strict=True):
                with connected(port) as stream:
                    stream.sendall(data[:cut])
                    self.see(f"behind {cut} bytes", CONTINUE, received(stream, len(CONTINUE)))
                    stream.sendall(data[cut:])
                    self.see("behind the rest", wanted, received(stream))
            self.ends(server)

    def test_body_that_ends(self):
        data = adds("f7", "Expect: 100-continue")
        ends = range(len(data) - len(add_frame("f7")), len(data))
        with self.served("--count", str(len(ends) + 1), *limited(SECONDS)) as (server, port), ExitStack() as held:
            streams = [held.enter_context(connected(port)) for _ in ends]
            for stream, end in zip(streams, ends, strict=True):
                stream.sendall(data[:end])
                stream.shutdown(socket.SHUT_WR)
            for stream, end in zip(streams, ends, strict=True):
                self.see(f"to a body that ends behind {end} bytes", CONTINUE, received(stream))
            self.see("nothing was asked", FRAMES[1], sent(port, FRAMES[0]))
            self.ends(server, TRUNCATED * len(ends))

    def test_who_is_not(self):
        """HTTP/1.0, no body, and what is refused by its head."""
        asked = [
            (adds("f7", "Expect: 100-continue").replace(b"HTTP/1.1", b"HTTP/1.0"), json(DONE)),
            (command("supplier01", b"", "Expect: 100-continue"), json(refused(1, "BadText"), "400 Bad Request")),
            (head("POST", "/v1/commands", "supplier01", "Content-Length: 65537", "Expect: 100-continue"), engine("413 Payload Too Large")),
            (head("POST", "/v1/nothing", "supplier01", "Content-Length: 1", "Expect: 100-continue"), NOTHING[1]),
            (head("GET", "/v1/variants/v1/frames", None, "Content-Length: 1", "Expect: 100-continue"), UNKNOWN),
            (adds("f8", "Expect: 200-ok"), json(DONE)),
        ]
        with self.served("--count", str(len(asked))) as (server, port):
            for data, wanted in asked:
                self.see(f"to {data[:150]!r}", wanted, sent(port, data))
            self.ends(server)


# ---- time that does not count


class Turns(HeldCase):
    """The register's own work, and the wait for one's turn, count for nobody's time."""

    def setUp(self):
        super().setUp()
        self.stopper = Stopper(self.folder)

    def works_long(self, server):
        """The register takes longer over a change than a connection may last."""
        self.see("it works", True, comes_to(True, self.stopper.held.exists))
        time.sleep(2 * SHORT + 1)
        self.stopper.mark.unlink()

    def test_await_their_turn(self):
        """Requests that are complete wait behind one that takes long, and are answered, and so is that one."""
        names = [f"t{n}" for n in range(20)]
        with self.served("--count", str(len(names)), *limited(2 * SHORT), env=self.stopper.holding()) as (server, port), ExitStack() as held:
            streams = [held.enter_context(connected(port)) for _ in names]
            with stopped(server):
                self.stopper.mark.touch()
                for stream, name in zip(streams, names, strict=True):
                    stream.sendall(adds(name))
            self.works_long(server)
            for stream, name in zip(streams, names, strict=True):
                self.see(f"to the one that adds {name}", json(DONE), received(stream))
            self.ends(server)

    def test_came_meanwhile(self):
        """What came while the register worked is read before its client's time is over."""
        with self.served("--count", "4", *limited(2 * SHORT), env=self.stopper.holding()) as (server, port), ExitStack() as held:
            half, one, silent = (held.enter_context(connected(port)) for _ in range(3))
            half.sendall(WHOLE[:-20])
            self.see("they are heard", True, is_heard(port))
            self.stopper.mark.touch()
            one.sendall(adds("f6"))
            self.see("it works", True, comes_to(True, self.stopper.held.exists))
            half.sendall(WHOLE[-20:])
            late = held.enter_context(connected(port))
            late.sendall(adds("f8"))
            self.works_long(server)
            for who, stream in ("asked first", one), ("sent the rest meanwhile", half), ("came meanwhile", late):
                self.see(f"to who {who}", json(DONE), had(stream))
            self.see("to who is silent", b"", had(silent))
            self.ends(server, READ_FAILED)


class LongTurns(LongCase):
    """A client that takes its reply as it comes has it whole, though the register works longer for others meanwhile than a connection may last."""

    def test_replies_meanwhile(self):
        stopper, got = Stopper(self.folder), []
        node = command("integrator1", b'{"do":"add_node","supplier":"%s","node":"n2"}' % (b"s" * 32))
        with self.served("--count", "2", *limited(2 * SHORT), env=stopper.holding()) as (server, port), narrow(port) as slow, connected(port) as one:
            slow.sendall(SCHEDULE)
            slow.recv(1, socket.MSG_PEEK)
            stopper.mark.touch()
            one.sendall(node)
            self.see("it works", True, comes_to(True, stopper.held.exists))
            reader = Thread(target=lambda: got.append(had(slow)), daemon=True)
            reader.start()
            time.sleep(2 * SHORT + 1)
            stopper.mark.unlink()
            self.see("to who changes", json(DONE), received(one))
            reader.join(SECONDS)
            self.see("to who reads on", True, got == [text(long_schedule())] or [len(it) for it in got])
            self.ends(server)
