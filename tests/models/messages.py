"""Requests and replies, as docs/FORMATS.md and docs/HTTP.md have them."""

from tests import TOP

FIRST = (TOP / "examples/first.script").read_bytes()
CLUSTER, REQUESTS = FIRST.split(b"---\n")
FIRST_ANSWERS = (TOP / "examples/first.answers").read_bytes()
# What is told of its cluster, but for the suppliers.
FIGURE_LINES = b"""\
channels AB
static_slots 4
slot_macroticks 10
dynamic_macroticks 40
symbol_macroticks 10
idle_macroticks 10
macroticks_per_cycle 100
payload_words 1
cycles 64
"""
DONE = b'{"ok":"done"}'
CONTINUE = b"HTTP/1.1 100 Continue\r\n\r\n"


def refused(number, name):
    return f'{{"no":{number},"refused":"{name}"}}'.encode()


def head(method, path, key=None, *fields):
    keys = [f"X-Office-Key: {key}"] if key else []
    return "\r\n".join([f"{method} {path} HTTP/1.1", "Host: localhost", *keys, *fields, "", ""]).encode()


def post(path, key, body, *fields):
    return head("POST", path, key, f"Content-Length: {len(body)}", *fields) + body


def put(path, key, body, *fields):
    return head("PUT", path, key, f"Content-Length: {len(body)}", *fields) + body


def command(key, text, *fields):
    return post("/v1/commands", key, text, *fields)


def reply(status, kind, body, *fields):
    fields = [f"content-type: {kind}", f"content-length: {len(body)}", *fields, "connection: close"]
    return "\r\n".join([f"HTTP/1.1 {status}", *fields, "", ""]).encode() + body


def json(body, status="200 OK", *fields):
    return reply(status, "application/json", body, *fields)


def text(body):
    return reply("200 OK", "text/plain; charset=us-ascii", body)


def lines(do, report):
    """The lines of a report, as they are told in JSON to who asked for them so."""
    quoted = b",".join(b'"%s"' % line for line in report.splitlines())
    return json(b'{"lines":[%s],"ok":"%s"}' % (quoted, do.encode()))


def csv(body):
    return reply("200 OK", "text/csv; charset=utf-8", body)


def html(body):
    return reply("200 OK", "text/html; charset=utf-8", body)


def engine(status, *fields):
    """A reply of the engine, which the register was not asked for."""
    return "\r\n".join([f"HTTP/1.1 {status}", "content-length: 0", *fields, "connection: close", "", ""]).encode()


UNKNOWN = json(refused(2, "UnknownKey"), "401 Unauthorized", "www-authenticate: Office-Key")


def done(key, *commands):
    """Commands that are carried out, each with its reply."""
    return [(command(key, text), json(DONE)) for text in commands]


def read(path, body):
    """What `s1` reads there."""
    return head("GET", f"/v1/variants/{path}", "supplier01"), text(body)


def in_cycles(cycles):
    """The lines of a schedule in which `s1` sends `f1` in these cycles."""
    return "".join(f"{cycle:02} 0001 A f1 n1\n" for cycle in cycles).encode()


def first_requests():
    """The first script's requests, each with its reply."""
    lines = [line.split(b" ", 1) for line in REQUESTS.splitlines()]
    for key, line in lines[:-1]:
        yield command(key.decode(), line), json(DONE)
    yield command(lines[-1][0].decode(), lines[-1][1]), json(b'{"lines":["00 0001 A f1 n1"],"ok":"schedule"}')
