"""A server of a test's own, which answers each connection beside the others."""
import http.client
import http.server
import threading
from contextlib import contextmanager

from .program import SECONDS
from .server import HERE

# Fields of a message that belong to one connection, or that are made anew.
OF_A_CONNECTION = {"host", "connection", "content-length", "transfer-encoding"}


def kept(fields):
    """The fields that are handed on."""
    return {name: value for name, value in fields if name.lower() not in OF_A_CONNECTION}


class Answering(http.server.BaseHTTPRequestHandler):
    """A connection with one request, as the register has them. What a kind of it answers stands in `answer`."""

    protocol_version = "HTTP/1.1"

    def body(self):
        """The body of the request, after which the connection ends."""
        self.close_connection = True
        return self.rfile.read(int(self.headers.get("content-length") or 0))

    def reply(self, status, fields, body):
        self.send_response_only(status)
        for name, value in [*fields, ("content-length", len(body)), ("connection", "close")]:
            self.send_header(name, str(value))
        self.end_headers()
        self.wfile.write(body)

    def hand_on(self, port, path):
        """Asks the server of this port the same at a path of it, and replies as it does."""
        body, link = self.body(), http.client.HTTPConnection(HERE, port, timeout=SECONDS)
        try:
            link.request(self.command, path, body or None, kept(self.headers.items()))
            with link.getresponse() as got:
                self.reply(got.status, kept(got.getheaders()).items(), got.read())
        except OSError:
            self.reply(502, [], b"")
        finally:
            link.close()

    def do_GET(self):
        self.answer()

    do_POST = do_PUT = do_GET

    def log_message(self, *_):
        """Nothing is said of requests."""


class Server(http.server.ThreadingHTTPServer):
    """Its port is one that the system gives. A browser may leave a connection open for longer than the test lasts."""

    daemon_threads, block_on_close, request_queue_size = True, False, 128

    def handle_error(self, *_):
        """A browser that goes in the midst of a reply is no fault."""


@contextmanager
def serving(handler, **known):
    """The port of a server whose connections are of this kind. They find what is known as fields of `server`."""
    with Server((HERE, 0), handler) as server:
        vars(server).update(known)
        threading.Thread(target=server.serve_forever, args=(0.05,), daemon=True).start()
        try:
            yield server.server_port
        finally:
            server.shutdown()
