"""Serves the page for work on it: python3 page/serve.py PORT REGISTER answers the page's parts on PORT, and hands /v1 on to a `slotplan serve` on
REGISTER.

The parts are made of their sources for each request, so a change shows when the page is loaded again; a fault in them is told in their place. Both are
on 127.0.0.1. It ends with Ctrl+C."""
import hashlib
import http.client
import sys
from contextlib import suppress
from http.server import BaseHTTPRequestHandler, ThreadingHTTPServer

import build

HERE = "127.0.0.1"
SECONDS = 60
# Fields of a request that are handed on, and of a reply.
ASKED = "X-Office-Key", "Content-Type"
TOLD = "content-type", "www-authenticate", "allow"
# What a browser may do with the page: run its program, show its style, and ask the server that it came from.
POLICY = (
    "default-src 'none'; script-src 'self'; style-src 'self'; connect-src 'self'; img-src data:; base-uri 'none'; form-action 'none'; "
    "frame-ancestors 'none'; require-trusted-types-for 'script'; trusted-types 'none'"
)


def fields(part):
    """The fields with which a part of the page is answered, as the register has them, but for those that each reply has."""
    told = {"content-security-policy": POLICY, "cross-origin-opener-policy": "same-origin"} if part.path == "/" else {}
    each = {"x-content-type-options": "nosniff", "referrer-policy": "no-referrer", "cache-control": "no-cache"}
    return {"content-type": f"{part.type}; charset=utf-8", "etag": f'"{hashlib.sha256(part.text.encode()).hexdigest()}"', **told, **each}


class Handler(BaseHTTPRequestHandler):
    """One connection with one request: the page, or what the register answers."""

    protocol_version = "HTTP/1.1"
    register = 0

    def answer(self):
        path = self.path.split("?")[0]
        if path.startswith("/v1/"):
            self.handed()
        else:
            self.page(path)

    do_GET = do_POST = do_PUT = answer

    def page(self, path):
        try:
            found = [part for part in build.parts() if part.path == path and self.command == "GET"]
        except build.Fault as fault:
            return self.reply(500, {"content-type": "text/plain"}, f"{fault}\n".encode())
        for part in found:
            told = fields(part)
            if told["etag"] in self.headers.get("if-none-match", ""):
                return self.reply(304, {"etag": told["etag"]}, b"")
            return self.reply(200, told, part.text.encode())
        return self.reply(404, {}, b"")

    def handed(self):
        """Hands the request on, and the reply back."""
        body = self.rfile.read(int(self.headers.get("content-length") or 0))
        link = http.client.HTTPConnection(HERE, self.register, timeout=SECONDS)
        try:
            link.request(self.command, self.path, None if self.command == "GET" else body, {name: self.headers[name] for name in ASKED if name in self.headers})
            answer = link.getresponse()
            content = answer.read()
        except OSError:
            return self.reply(502, {}, b"")
        finally:
            link.close()
        return self.reply(answer.status, {name: answer.headers[name] for name in TOLD if name in answer.headers}, content)

    def reply(self, status, told, body):
        self.send_response_only(status)
        for name, value in (told | {"content-length": str(len(body)), "connection": "close"}).items():
            self.send_header(name, value)
        self.end_headers()
        self.wfile.write(body)
        self.close_connection = True

    def log_message(self, *_):
        """Says nothing."""


def main():
    if len(sys.argv) != 3 or not all(word.isdecimal() for word in sys.argv[1:]):
        sys.exit(__doc__)
    port, Handler.register = map(int, sys.argv[1:])
    with ThreadingHTTPServer((HERE, port), Handler) as server, suppress(KeyboardInterrupt):
        print(f"http://{HERE}:{port}/", flush=True)
        server.serve_forever()


if __name__ == "__main__":
    main()
