#!/usr/bin/env python3
"""Measures the server: serve.py [--program PROGRAM] [--requests N].

A register file with variants of 4, 64 and 256 frames of 8 placements is made by the program's own server. Then schedules are read and
placements made and taken back, a request a connection, from `slotplan serve` and from a server of python3: `http.server` that keeps
the same rows by `sqlite3` in a file of its own. Their answers have to be the same. What is printed is how many times as many
requests a second the program serves.

Then 1, 8 and 64 clients side by side read the least schedule and make changes, each its next request once it has its reply: how many
requests a second each server answers, within how many milliseconds half of them, and all but one in a hundred. Then a client comes
behind others that are silent, slow, or do not take their replies: within how many milliseconds it is answered, and how much memory the
server has. All holds for its machine."""
import argparse
import json
import multiprocessing
import os
import selectors
import shutil
import socket
import sqlite3
import subprocess
import sys
import tempfile
import time
from contextlib import ExitStack, closing, contextmanager, suppress
from functools import partial
from http.client import HTTPConnection
from http.server import BaseHTTPRequestHandler, HTTPServer
from itertools import chain, repeat
from pathlib import Path

TOP = Path(__file__).resolve().parent.parent
sys.path.append(str(TOP))
from tests.drivers.connections import LONG_CLUSTER, SCHEDULE, fill_long
from tests.drivers.http_clients import connected, descriptors, meanwhile, memory_of, narrow, work_of
from tests.drivers.server import HERE, free_port, started
from tests.models.messages import command as command_of
from tests.models.messages import head

FRAMES = (4, 64, 256)
PLACEMENTS = 8
ROWS = 512
CLIENTS = (1, 8, 64)
# How many connections a server may have open, and how many bytes a request may have.
OPEN, REQUEST = 1_024, 73_728
# How many seconds a client waits for an answer behind others.
PATIENCE = 14
CLUSTER = """\
channels = "AB"
static_slots = 1023
slot_macroticks = 1
dynamic_macroticks = 0
symbol_macroticks = 0
idle_macroticks = 1
macroticks_per_cycle = 1024
payload_words = 127
integrator = "integrator1"
suppliers = {s1 = "supplier01"}
"""


# ---- a register, and a plain server of python3 that keeps the same rows


def asked(port, method, path, key, body=None):
    """The status and the body of one request, on a connection of its own."""
    link = HTTPConnection(HERE, port, timeout=60)
    link.request(method, path, body, {"X-Office-Key": key})
    reply = link.getresponse()
    text = reply.read()
    link.close()
    return reply.status, text


def command(port, key, **request):
    status, text = asked(port, "POST", "/v1/commands", key, json.dumps(request))
    assert status == 200, (request, status, text)


def fill(port):
    """Variants of so many frames, each in a slot of its own, in 8 cycles."""
    command(port, "integrator1", do="add_node", supplier="s1", node="n1")
    for frames in FRAMES:
        variant = f"v{frames}"
        command(port, "integrator1", do="open_variant", variant=variant)
        for slot in range(1, frames + 1):
            command(port, "integrator1", do="grant", variant=variant, slot=slot, channel="A", supplier="s1", node="n1")
        rows = [f"f{slot},n1,{slot},A,{base},64\n" for slot in range(1, frames + 1) for base in range(PLACEMENTS)]
        for at in range(0, len(rows), ROWS):
            file = "frame,node,slot,channels,base,repetition\n" + "".join(rows[at : at + ROWS])
            status, text = asked(port, "POST", f"/v1/variants/{variant}/imports/{variant}x{at}", "supplier01", file)
            assert status == 200, text


def handler_of(file):
    """A plain handler that keeps the same rows."""
    rows = sqlite3.connect(file, check_same_thread=False)
    keys = {"supplier01": "s1"}

    class Handler(BaseHTTPRequestHandler):
        def log_message(self, *_):
            pass

        def reply(self, kind, body):
            self.send_response(200)
            self.send_header("Content-Type", kind)
            self.send_header("Content-Length", str(len(body)))
            self.end_headers()
            self.wfile.write(body)

        def do_GET(self):
            variant, supplier = self.path.split("/")[3], keys[self.headers["X-Office-Key"]]
            query = "SELECT p.slot, p.channels, p.base, p.repetition, p.frame, f.node FROM placements p JOIN frames f ON f.variant = p.variant AND f.supplier = p.supplier AND f.name = p.frame WHERE p.variant = ? AND p.supplier = ?"
            sent = [
                (cycle, slot, channel, frame, node)
                for slot, channels, base, repetition, frame, node in rows.execute(query, (variant, supplier))
                for cycle in range(base, 64, repetition)
                for channel in channels
            ]
            lines = (f"{cycle:02} {slot:04} {channel} {frame} {node}\n" for cycle, slot, channel, frame, node in sorted(sent))
            self.reply("text/plain", "".join(lines).encode())

        def do_POST(self):
            request = json.loads(self.rfile.read(int(self.headers["Content-Length"])))
            supplier = keys[self.headers["X-Office-Key"]]
            row = (request["variant"], supplier, request["frame"], request["slot"], request["channels"], request["base"], request["repetition"])
            if request["do"] == "place":
                taken = rows.execute("SELECT base, repetition FROM placements WHERE variant = ? AND supplier = ? AND slot = ?", (row[0], supplier, row[3]))
                least = lambda base, repetition: any(c % repetition == base for c in range(row[5], 64, row[6]))
                assert not any(least(*other) for other in taken)
                rows.execute("INSERT INTO placements VALUES (?, ?, ?, ?, ?, ?, ?)", row)
            else:
                rows.execute("DELETE FROM placements WHERE variant = ? AND supplier = ? AND frame = ? AND slot = ? AND channels = ? AND base = ? AND repetition = ?", row)
            rows.commit()
            self.reply("application/json", b'{"ok":"done"}')

    return Handler


class Peer(HTTPServer):
    """As many connections wait for it as for the program."""

    request_queue_size = 128


@contextmanager
def peer(file):
    """Such a server, in a process of its own, and its port."""
    port = free_port()
    other = multiprocessing.get_context("fork").Process(target=lambda: Peer((HERE, port), handler_of(file)).serve_forever(), daemon=True)
    other.start()
    while True:
        with suppress(ConnectionRefusedError):
            connected(port).close()
            break
        time.sleep(0.05)
    try:
        yield other, port
    finally:
        other.kill()


# ---- one request after another


def schedules(port, variant, count):
    start = time.perf_counter()
    for _ in range(count):
        got = asked(port, "GET", f"/v1/variants/{variant}/schedule", "supplier01")
    return time.perf_counter() - start, got


def turned(variant, at, slot=1):
    """A placement taken back, or made again."""
    return dict(do=("unplace", "place")[at % 2], variant=variant, frame=f"f{slot}", slot=slot, channels="A", base=0, repetition=64)


def changes(port, variant, count):
    """Placements taken back and made again."""
    start = time.perf_counter()
    for at in range(count):
        command(port, "supplier01", **turned(variant, at))
    return time.perf_counter() - start, None


def one_by_one(ours, theirs, count):
    for what, measure in ("schedule", schedules), ("change", changes):
        for frames in FRAMES:
            both = [measure(port, f"v{frames}", count) for port in (ours, theirs)]
            assert both[0][1] == both[1][1], (what, frames)
            (ours_took, _), (theirs_took, _) = both
            times, each = theirs_took / ours_took, 1e6 * ours_took / count
            print(f"{what:9} {frames:4} frames: {times:5.1f} times as many requests a second, {each:6.0f} microseconds each", flush=True)


# ---- clients side by side


def side_by_side(port, requests, count):
    """The seconds that each of some more than so many requests took, and all: a client for each of these lists asks its requests again and again, one
    after another, and ends with the last."""
    times, poll, begun = [], selectors.DefaultSelector(), time.perf_counter()

    def ask(client, turn):
        start, stream = time.perf_counter(), connected(port)
        stream.sendall(requests[client][turn % len(requests[client])])
        poll.register(stream, selectors.EVENT_READ, (client, turn, start, []))

    for client in range(len(requests)):
        ask(client, 0)
    while poll.get_map():
        for ready, _ in poll.select():
            client, turn, start, got = ready.data
            got.append(ready.fileobj.recv(65536))
            if not got[-1]:
                times.append(time.perf_counter() - start)
                assert b"".join(got).partition(b" ")[2].startswith(b"200 "), got
                poll.unregister(ready.fileobj)
                ready.fileobj.close()
                if len(times) < count or (turn + 1) % len(requests[client]):
                    ask(client, turn + 1)
    return times, time.perf_counter() - begun


def of_each(clients):
    """What each of so many clients asks: the same schedule, or a placement of its own."""
    report = head("GET", "/v1/variants/v4/schedule", "supplier01")
    yield "schedule", [[report]] * clients
    yield "change", [[command_of("supplier01", json.dumps(turned("v64", at, slot)).encode()) for at in range(2)] for slot in range(1, clients + 1)]


def told(server, port, requests, count):
    """How such clients are served: requests a second, the time of half of them and of 99 of 100, and the server's processor."""
    worked = work_of(server)
    times, total = side_by_side(port, requests, count)
    worked, ordered = work_of(server) - worked, sorted(times)
    half, most = (1e3 * ordered[len(ordered) * share // 100] for share in (50, 99))
    worked *= 1e6 / len(times)
    return f"{len(times) / total:6.0f} a second, half in {half:8.2f} ms, 99 of 100 in {most:8.2f} ms, processor {worked:6.0f} us each"


def compared(servers, count):
    for clients in CLIENTS:
        for what, requests in of_each(clients):
            for name, (server, port) in servers.items():
                print(f"{what:9} {clients:4} clients, {name:8}: {told(server, port, requests, count)}", flush=True)


# ---- a client behind others


def behind(server, port, what):
    """Within how many milliseconds a client is answered now, and what memory the server has."""
    start = time.perf_counter()
    try:
        with socket.create_connection((HERE, port), PATIENCE) as stream:
            stream.settimeout(PATIENCE)
            stream.sendall(head("GET", "/v1/nothing"))
            while stream.recv(65536):
                pass
        took = f"{1e3 * (time.perf_counter() - start):9.1f} ms"
    except TimeoutError:
        took = f"none in {PATIENCE} s"
    print(f"behind {what:52}: {took:>14}, {memory_of(server) / 2**20:6.1f} MiB", flush=True)


def crowd(port, count, data=b""):
    """So many clients that send this, and are silent from there on: fewer where the server lets no more come."""
    for _ in range(count):
        stream = socket.create_connection((HERE, port), 2)
        stream.sendall(data)
        yield stream


def narrow_ones(port, count):
    """So many clients that take nothing of a long reply, which has begun: fewer where the server does not come to it."""
    for _ in range(count):
        stream = narrow(port)
        stream.sendall(SCHEDULE)
        stream.settimeout(5)
        stream.recv(1, socket.MSG_PEEK)
        yield stream


@contextmanager
def slow_one(port):
    """A client that sends 20 bytes a second."""
    left = chain(SCHEDULE, repeat(10))
    with connected(port) as stream, meanwhile(lambda: stream.sendall(bytes([next(left)])), 0.05):
        yield


def behind_others(folder):
    """Each row has a server of its own, over a register with a reply of some 900,000 bytes."""
    large = command_of("supplier01", b"x" * 65_536)[:-1]
    filled = large.replace(b"Host: localhost", b"Host: localhost\r\nx: " + b"x" * (REQUEST - 1 - len(large) - 5))
    rows = [
        ("nobody", lambda port: ()),
        *((f"{count} silent", partial(crowd, count=count)) for count in (1, 5, 500, OPEN)),
        (f"{OPEN - 1} requests of {len(filled)} bytes that lack one", partial(crowd, count=OPEN - 1, data=filled)),
        ("one that sends 20 bytes a second", lambda port: slow_one(port)),
        *((f"{count} that take nothing of 900,000 bytes", partial(narrow_ones, count=count)) for count in (1, 20, 100)),
    ]
    for what, others in rows:
        with ExitStack() as held, descriptors(2 * OPEN), started(folder, db="long.db") as (server, _, port):
            with suppress(TimeoutError):
                came = others(port)
                held.enter_context(came) if hasattr(came, "__enter__") else [held.enter_context(closing(it)) for it in came]
            time.sleep(0.5)
            behind(server, port, what)


def prepared(folder, program):
    """Registers that are filled, and one more of the first for the peer."""
    for name, cluster in ("car", CLUSTER.encode()), ("long", LONG_CLUSTER):
        (folder / f"{name}.toml").write_bytes(cluster)
        subprocess.run([program, "create", f"{name}.db", f"{name}.toml"], cwd=folder, check=True)
    fill_long(folder / "long.db")
    with started(folder) as (_, _, port):
        fill(port)
    with closing(sqlite3.connect(folder / "car.db")) as file:
        file.execute("PRAGMA wal_checkpoint(TRUNCATE)")
    shutil.copy(folder / "car.db", folder / "other.db")


def main():
    parser = argparse.ArgumentParser(description=__doc__.splitlines()[0])
    parser.add_argument("--program", default=str(TOP / "crates/slotplan/out/slotplan"))
    parser.add_argument("--requests", type=int, default=400)
    words = parser.parse_args()
    os.environ["SLOTPLAN"] = words.program
    with tempfile.TemporaryDirectory() as folder:
        folder = Path(folder)
        prepared(folder, words.program)
        with started(folder) as (server, _, ours), peer(folder / "other.db") as (other, theirs):
            one_by_one(ours, theirs, words.requests)
            compared({"slotplan": (server, ours), "python3": (other, theirs)}, 4 * words.requests)
        behind_others(folder)
    return 0


if __name__ == "__main__":
    sys.exit(main())
