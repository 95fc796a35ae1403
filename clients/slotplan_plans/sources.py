"""Where a register is read and asked: its file, by the program `slotplan`, or a server, over HTTP."""
import json
import subprocess
from contextlib import contextmanager, suppress
from http.client import HTTPConnection, HTTPException, HTTPSConnection
from urllib.parse import quote, urlsplit

from .copying import copied, keys_in
from .faults import Fault

# How many seconds a server may be silent.
SECONDS = 60


class Source:
    """What is read: reports by their names, as lines; and the register's keys, where it tells them."""

    keys = None

    @contextmanager
    def opened(self):
        """The source, as long as it is read."""
        yield self

    def cluster(self):
        return self.report("cluster")

    def variants(self):
        return self.report("variants")

    def nodes(self):
        return self.report("nodes")

    def rows(self, variant):
        return self.report("rows", variant)


class RegisterFile:
    """A register's file. It is read as the integrator sees it, or as this supplier does; with a key it is asked.

    What is read is a copy, so it is the register at one moment. The program answers all reports in one start, by the keys that the copy has."""

    def __init__(self, path, program="slotplan", supplier=None, key=None):
        self.path, self.program, self.supplier, self.key = str(path), str(program), supplier, key

    def fault(self, said):
        return Fault(f"{self.path}: {said.strip().removeprefix('slotplan: ') or 'the program ended'}")

    @contextmanager
    def opened(self):
        with copied(self.path) as copy:
            keys = keys_in(copy)
            if keys and self.supplier and self.supplier not in keys.suppliers:
                raise self.fault('{"no":14,"refused":"NoSupplier"}')
            # (a file without keys is no register, and the program says what it is)
            with self.desk(copy, keys.of(self.supplier) if keys else "none") as ask:
                yield Asked(ask, self, keys)

    @contextmanager
    def asked(self):
        """A call that sends a request and gives its answer. The file is the program's own until the end."""
        with self.desk(self.path, self.key) as ask:
            yield ask

    @contextmanager
    def desk(self, path, key):
        """The program that answers each request at this path, as a call. Its end is waited for."""
        pipes = {"stdin": subprocess.PIPE, "stdout": subprocess.PIPE, "stderr": subprocess.PIPE}
        try:
            job = subprocess.Popen([self.program, "ask", path], text=True, **pipes)
        except OSError as fault:
            raise Fault(f"the program {self.program} cannot be started: {fault.strerror}; --program names another") from fault

        def ask(request):
            try:
                job.stdin.write(f"{key} {json_of(request)}\n")
                job.stdin.flush()
                answer = job.stdout.readline()
            except BrokenPipeError:
                answer = ""
            if not answer:
                raise self.fault(job.stderr.read())
            return json.loads(answer)

        try:
            yield ask
        finally:
            # (an unsent request is no fault: the program has ended, and said why)
            with suppress(BrokenPipeError):
                job.stdin.close()
            job.stdout.close()
            job.stderr.close()
            job.wait()


class Asked(Source):
    """A register that is read by requests, sent by such a call."""

    def __init__(self, ask, source, keys=None):
        self.ask, self.source, self.keys = ask, source, keys

    def lines(self, do, **fields):
        answer = self.ask({"do": do, **fields})
        if "lines" not in answer:
            raise self.source.fault(json_of(answer))
        return answer["lines"]

    def report(self, name, *variant):
        return self.lines(name, **dict(zip(["variant"], variant)))


class Server(Source):
    """A server of the register. It tells what the key's owner sees. The key goes to this host alone: a reply that leads elsewhere is a fault."""

    def __init__(self, url, key):
        self.url, self.key = url, key
        try:
            self.parts = urlsplit(url)
        except ValueError as fault:
            raise Fault(f"{url}: {fault}") from fault

    def reply(self, method, path, body=None):
        """The status of a reply, its reason, and its text."""
        kind = HTTPSConnection if self.parts.scheme == "https" else HTTPConnection
        connection = None
        try:
            connection = kind(self.parts.netloc, timeout=SECONDS)
            connection.request(method, f"{self.parts.path.rstrip('/')}/v1/{path}", body, {"X-Office-Key": self.key})
            reply = connection.getresponse()
            return reply.status, reply.reason, reply.read().decode(errors="replace")
        except (OSError, HTTPException, ValueError) as fault:
            raise Fault(f"{self.url}: {str(fault) or type(fault).__name__}") from fault
        finally:
            if connection:
                connection.close()

    def fault(self, status, reason, text):
        if status == 404 and not text.startswith("{"):
            return Fault(f"{self.url}: there is no register; SOURCE is the address of its page, without /v1")
        return Fault(" ".join(f"{self.url}: {status} {reason} {text:.200}".split()))

    def lines(self, *path):
        status, reason, text = self.reply("GET", "/".join(map(quote, path)))
        if status != 200:
            raise self.fault(status, reason, text)
        return text.splitlines()

    def report(self, name, *variant):
        return self.lines(*(("variants", *variant) if variant else ()), name)

    @contextmanager
    def asked(self):
        """A call that sends a request and gives its answer."""

        def ask(request):
            told = self.reply("POST", "commands", json_of(request))
            try:
                return dict(json.loads(told[-1]))
            except ValueError:
                raise self.fault(*told) from None

        yield ask


def json_of(request):
    return json.dumps(request, separators=(",", ":"))
