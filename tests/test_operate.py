"""The backup script and the files for nginx of docs/OPERATE.md, taken from the page and run beside a server of the program, as their user has them.

Their folders and ports are the test's own. What is wanted was typed by hand."""
import os
import re
import shutil
import signal
import socket
import ssl
import subprocess
import time
from contextlib import ExitStack, closing
from json import loads
from threading import Event, Thread

from tests import TOP
from tests.drivers.http_clients import comes_to, connected, had
from tests.drivers.program import SECONDS, program, ran
from tests.drivers.registers import RegisterCase
from tests.drivers.server import HERE, free_port, sent, started
from tests.models.messages import DONE, UNKNOWN, command, head, json, post, put, refused, text

PAGE = (TOP / "docs/OPERATE.md").read_text()
SCRIPT = re.search(r"^Put this at `/usr/local/sbin/slotplan-backup`[^\n]*\n\n```sh\n(.*?)```\n", PAGE, re.M | re.DOTALL)[1]
# What it must not call.
SYSTEMCTL = 'echo "$*" >> "$ROOM/asked"\n'
# In place of sqlite3: one that loses grants as it copies, one that finds a copy unsound, and one that takes its time, as long as a file is there.
LACKING = '"$SQLITE3" "$@"\ncase "$2" in .backup*) "$SQLITE3" "$ROOM"/copies/new.*/copy.db "DELETE FROM grants" ;; esac\n'
UNSOUND = 'case "$2" in PRAGMA*) echo "wrong # of entries in index grants_by_supplier" ;; *) exec "$SQLITE3" "$@" ;; esac\n'
SLOW = 'touch "$ROOM/begun"\nwhile test -e "$ROOM/begun"; do sleep 0.1; done\nexit 1\n'
# In place of cp: one behind whose copy of the database the log gets another head, as where it is emptied, to the first letter of a file's next line.
EMPTIED = """\
cp "$@"
case "$1" in *.db) if test -s "$ROOM/times"; then
    head -c 1 "$ROOM/times" | dd of="$1-wal" bs=1 seek=20 conv=notrunc status=none
    sed -i 1d "$ROOM/times"
fi ;; esac
"""
EMPTY_LOG = 41  # so many bytes has a log that has nothing
DAY = 24 * 60 * 60


def opens(name):
    return command("integrator1", b'{"do":"open_variant","variant":"%s"}' % name)


class Backups(RegisterCase):
    """The script keeps a copy that tells what the register tells, or none. The server goes on meanwhile, and one that was stopped stays so."""

    waits = in_memory = True

    def setUp(self):
        super().setUp()
        if not shutil.which("sqlite3"):
            self.skipTest("there is no sqlite3: apt-get install sqlite3")
        self.registers, self.copies, self.commands = (self.folder / name for name in ("registers", "copies", "commands"))
        for folder in self.registers, self.copies, self.commands:
            folder.mkdir()
        self.plan("registers/car.db")
        self.is_command("systemctl", SYSTEMCTL)
        (self.commands / "slotplan").symlink_to(program())
        self.server, _, self.port = self.enterContext(started(self.registers))

    def is_command(self, name, text):
        path = self.commands / name
        path.write_text(f"#!/bin/sh\n{text}")
        path.chmod(0o755)

    def stop(self):
        self.server.terminate()
        self.server.wait(SECONDS)

    def script(self, name="car"):
        """The script as it runs: that of the page, over the test's folders."""
        text = SCRIPT.replace("/var/lib/slotplan/", f"{self.registers}/").replace("=/var/backups/slotplan\n", f"={self.copies}\n")
        (self.folder / "slotplan-backup").write_text(text)
        more = {"PATH": f"{self.commands}:{os.environ['PATH']}", "ROOM": str(self.folder), "SQLITE3": shutil.which("sqlite3")}
        return subprocess.Popen(["sh", self.folder / "slotplan-backup", name], env={**os.environ, **more}, stderr=subprocess.PIPE)

    def backed_up(self, status=0, said=b"", name="car"):
        """It is run, and ends so; the new copies that it leaves."""
        before = self.kept()
        with self.script(name) as script:
            got = script.stderr.read()
            self.see("the script's status", status, script.wait(SECONDS))
        self.see(f"it says {said}", True, said in got if said else got == b"" or got)
        self.see("it asks nothing of systemd", False, (self.folder / "asked").exists())
        return sorted(self.kept() - before)

    def kept(self):
        return {path.name for path in self.copies.iterdir()}

    def replies(self, data, wanted=json(DONE), port=None):
        self.see(f"to {data[:120]!r}", wanted, sent(port or self.port, data))

    def copy_tells(self, copy, variants):
        """All variants of the copy, as the program tells them, and what SQLite says of it; its log has nothing."""
        self.tell(["variants", f"copies/{copy}"], variants)
        self.sound(f"copies/{copy}")

    def test_another_on_the_day(self):
        """The first copy is served and changed, and its server is killed, so that a log lies beside it. The second is the register's all the same."""
        first = self.backed_up()
        self.see("one copy and nothing else", 1, len(first))
        with started(self.copies, db=first[0]) as (server, _, port):
            self.replies(opens(b"of_the_copy"), port=port)
            server.send_signal(signal.SIGKILL)
            server.wait(SECONDS)
        self.see("a log lies beside the first copy", True, (self.copies / f"{first[0]}-wal").stat().st_size > EMPTY_LOG)
        self.replies(opens(b"of_the_register"))
        time.sleep(1)  # (a copy is named by the second)
        second = self.backed_up()
        self.see("one more copy and nothing else", 1, len(second))
        self.copy_tells(second[0], b"of_the_register - 1 open\nv1 - 1 open\n")
        self.copy_tells(first[0], b"of_the_copy - 1 open\nv1 - 1 open\n")
        self.see("the server goes on", None, self.server.poll())

    def test_copy_that_lacks_rows(self):
        """A copy that a supplier's report tells apart from the register is not kept."""
        self.is_command("sqlite3", LACKING)
        self.see("copies", [], self.backed_up(1, b"slotplan-backup: the copy does not tell what the register tells\n"))

    def test_copy_that_lacks_signals(self):
        """So with one that lacks what stands in the second part of an export alone."""
        for frame in range(9):
            rows = b"".join(b"g%d,x%d,%d,1,little\n" % (frame, bit, bit) for bit in range(16))
            self.replies(command("supplier01", b'{"do":"add_frame","variant":"v1","frame":"g%d","node":"n1"}' % frame))
            body = b"frame,signal,start,length,order\n" + rows
            self.replies(post(f"/v1/variants/v1/imports/g{frame}", "supplier01", body), json(b'{"ok":"imported","rows":16}'))
        self.is_command("sqlite3", LACKING.replace("DELETE FROM grants", "DELETE FROM signals WHERE frame = 'g8'"))
        self.see("copies", [], self.backed_up(1, b"slotplan-backup: the copy does not tell what the register tells\n"))

    def test_no_register(self):
        self.see("copies", [], self.backed_up(1, f"slotplan-backup: there is no {self.registers}/bus.db\n".encode(), "bus"))

    def test_copy_that_is_not_sound(self):
        self.is_command("sqlite3", UNSOUND)
        self.see("copies", [], self.backed_up(1, b"slotplan-backup: the copy is not sound\n"))

    def test_register_that_a_command_has(self):
        """So it is while somebody works on the register by hand."""
        self.stop()
        with subprocess.Popen([program(), "ask", "car.db"], cwd=self.registers, stdin=subprocess.PIPE, stdout=subprocess.PIPE, bufsize=0) as asks:
            asks.stdin.write(b'integrator1 {"do":"open_variant","variant":"by_hand"}\n')
            asks.stdout.readline()
            (copy,) = self.backed_up()
            asks.communicate()
        self.copy_tells(copy, b"by_hand - 1 open\nv1 - 1 open\n")

    def test_server_that_was_stopped(self):
        """It stays stopped; the copy has what stood in its log alone."""
        self.replies(opens(b"in_the_log"))
        self.server.send_signal(signal.SIGKILL)
        self.server.wait(SECONDS)
        self.see("the log has it", True, (self.registers / "car.db-wal").stat().st_size > EMPTY_LOG)
        (copy,) = self.backed_up()
        self.copy_tells(copy, b"in_the_log - 1 open\nv1 - 1 open\n")

    def test_log_that_is_emptied_meanwhile(self):
        """It copies again; of 20 such copies none is kept."""
        self.replies(opens(b"more"))
        self.stop()
        self.is_command("cp", EMPTIED.replace("cp ", f"{shutil.which('cp')} ", 1))
        self.is_command("sleep", "exit 0\n")
        (self.folder / "times").write_text("a\nb\n" * 10)
        self.see("copies", [], self.backed_up(1, b"slotplan-backup: of 20 copies none was whole\n"))

    def test_beside_changes(self):
        """A copy has each change that was answered before it, and of those that were sent meanwhile the first ones, whole."""
        header, ends = b"frame,node\n", Event()
        count = {"sent": 0, "answered": 0}

        def change():
            while not ends.is_set():
                count["sent"] += 1
                body = header + b"".join(b"f%d_%d,n1\n" % (count["sent"], row) for row in range(100))
                sent(self.port, put("/v1/variants/v1/rows/whole", "supplier01", body))
                count["answered"] = count["sent"]

        changes = Thread(target=change)
        changes.start()
        self.addCleanup(changes.join)
        self.addCleanup(ends.set)
        self.see("changes are answered", True, comes_to(True, lambda: count["answered"] > 2))
        for _ in range(3):
            before = count["answered"]
            (copy,) = self.backed_up()
            behind = count["sent"]
            told = ran(["frames", f"copies/{copy}", "v1", "--supplier", "s1"], self.folder)[1].decode().split()[1::3]
            numbers = {int(name.partition("_")[0][1:]) for name in told}
            self.see("all frames are of one change", (100, 1), (len(told), len(numbers)))
            self.see("of which", True, before <= min(numbers) <= behind)
            time.sleep(1)

    def test_two_at_once(self):
        """The second waits for the first; each has its copy."""
        self.is_command("sqlite3", SLOW.replace("exit 1", 'exec "$SQLITE3" "$@"'))
        with self.script() as first:
            self.see("the first is at work", True, comes_to(True, (self.folder / "begun").exists))
            with self.script() as second:
                time.sleep(1)
                self.see("the second waits", (None, 1), (second.poll(), len(self.kept())))
                self.is_command("sqlite3", 'exec "$SQLITE3" "$@"\n')
                (self.folder / "begun").unlink()
                self.see("both end", (0, 0), (first.wait(SECONDS), second.wait(SECONDS)))
        self.see("copies", 2, len(self.kept()))

    def test_killed_while_it_copies(self):
        """Nothing is left."""
        self.is_command("sqlite3", SLOW)
        with self.script() as script:
            until = time.monotonic() + SECONDS
            while not (self.folder / "begun").exists() and time.monotonic() < until:
                time.sleep(0.01)
            script.terminate()
            (self.folder / "begun").unlink()
            self.see("the script's status", 1, script.wait(SECONDS))
        self.see("what is left", set(), self.kept())

    def test_old_copies(self):
        """Copies and logs of 31 days ago go; so old ones of another register stay, and younger ones."""
        old, others = ["car-2026-01-02-023000.db", "car-2026-01-02-023000.db-wal"], ["bus-2026-01-02-023000.db", "car-2026-01-03-023000.db"]
        for name in old + others:
            (self.copies / name).touch()
        for name in old + others[:1]:
            os.utime(self.copies / name, (time.time() - 31.5 * DAY,) * 2)
        os.utime(self.copies / others[1], (time.time() - 29 * DAY,) * 2)
        new = self.backed_up()
        self.see("what is kept", {*new, *others}, self.kept())


# ---- nginx in front


def shown(words, kind="nginx"):
    """The block of this kind that stands on the page first behind these words."""
    return re.search(rf"{re.escape(words)}.*?\n *```{kind}\n(.*?) *```\n", PAGE, re.DOTALL)[1]


FRONT, OWNERS = shown("`/etc/nginx/conf.d/slotplan.conf`"), shown("A key that is not there has the owner `nobody`", "")
SHUT, REFUSES = shown("Shut it out at once, in nginx"), re.search(r"`(if \(\$shut\) \{[^`]*)`", PAGE)[1]
AS_ROOT = "daemon off; master_process off;"
# What nginx needs besides, which Debian has in files of its own.
AROUND = """\
pid %(room)s/nginx.pid;
error_log %(room)s/error.log;
events { worker_connections %(connections)s; }
http {
client_body_temp_path %(room)s/bodies;
proxy_temp_path %(room)s/proxied;
fastcgi_temp_path %(room)s/fast;
uwsgi_temp_path %(room)s/uwsgi;
scgi_temp_path %(room)s/scgi;
%(front)s
}
"""
NAME, CLOSE = "slots.example.org", "Connection: close"
SCHEDULE_PATH = "/v1/variants/v1/schedule"
# So many requests of an address may be under way; a crowd of slow ones is tried, and nginx has so many connections.
AT_ONCE, CROWD, CONNECTIONS = 32, 80, 64
# So long is a line of the log at most of who has no key that is known.
LINE = 256


def is_let_go(stream):
    """Whether a connection by TLS which is not waited for has ended without a word."""
    try:
        return stream.recv(1) == b""
    except ssl.SSLWantReadError:
        return False


class Proxied(RegisterCase):
    """nginx in front, as the page has it: it hands on what it is to, by TLS; no byte beside a key gets past its maps; its log names who asked, and
    without a key that is known nobody fills it; slow bodies of one address keep no other waiting."""

    may_be_skipped = waits = in_memory = True

    def setUp(self):
        super().setUp()
        for name in "nginx", "openssl":
            if not shutil.which(name):
                self.skipTest(f"there is no {name}")
        self.plan()
        words = re.search(r"A certificate for a try-out:\n\n```\n(.*?)```", PAGE, re.DOTALL)[1]
        subprocess.run(["sh", "-c", words.replace("/etc/ssl/", f"{self.folder}/")], check=True, stderr=subprocess.DEVNULL)
        self.trusting = ssl.create_default_context(cafile=self.folder / "slotplan/cert.pem")
        (self.folder / "owners").write_text(OWNERS)
        self.log, self.port = self.folder / "slotplan.log", free_port()
        self.server, _, self.behind = self.enterContext(started(self.folder))

    def begin(self, front=FRONT):
        """Starts it with this file."""
        for old, new in (
            ("listen 443 ssl;", f"listen {HERE}:{self.port} ssl;"),
            ("/etc/nginx/slotplan.owners", f"{self.folder}/owners"),
            ("/etc/ssl/", f"{self.folder}/"),
            ("/var/log/slotplan/requests.log", str(self.log)),
            ("http://127.0.0.1:8080", f"http://{HERE}:{self.behind}"),
        ):
            self.see(f"the page has {old}", True, old in front)
            front = front.replace(old, new)
        (self.folder / "nginx.conf").write_text(AROUND % {"room": self.folder, "front": front, "connections": CONNECTIONS})
        words = ["nginx", "-p", self.folder, "-e", self.folder / "error.log", "-c", self.folder / "nginx.conf", "-g", AS_ROOT]
        proxy = self.enterContext(subprocess.Popen(words))
        self.addCleanup(proxy.terminate)
        self.see("it listens", True, comes_to(True, self.listens))

    def listens(self):
        try:
            connected(self.port).close()
            return True
        except ConnectionRefusedError:
            return False

    def stream(self, source=HERE):
        """A connection by TLS, from this address of this machine."""
        plain = socket.create_connection((HERE, self.port), SECONDS, (source, 0))
        return self.trusting.wrap_socket(plain, server_hostname=NAME)

    def sent(self, data, source=HERE):
        """What is replied to these bytes."""
        with closing(self.stream(source)) as stream:
            stream.sendall(data)
            return had(stream)

    def asked(self, data, source=HERE):
        """The status and the body of the reply to these bytes, and its head."""
        said, _, body = self.sent(data, source).partition(b"\r\n\r\n")
        return said.split(b" ")[1].decode(), body, said

    def replies(self, data, wanted, what=""):
        """The reply has the status and the body of this one."""
        said, _, body = wanted.partition(b"\r\n\r\n")
        self.see(f"to {what or data[:120]!r}", (said.split(b" ")[1].decode(), body), self.asked(data)[:2])

    def lines(self, count):
        """So many lines of the log, once they are there: each line, and what it says."""
        self.see("lines of the log", count, comes_to(count, lambda: self.log.read_bytes().count(b"\n")))
        return [(line, loads(line)) for line in self.log.read_text().splitlines()]

    def test_what_comes_through(self):
        self.begin()
        self.replies(head("GET", SCHEDULE_PATH, "supplier01", CLOSE), text(b"00 0001 A f1 n1\n"))
        self.replies(head("GET", SCHEDULE_PATH, "nobody123", CLOSE), UNKNOWN)
        self.replies(command("supplier01", b'{"do":"release","variant":"v1"}', CLOSE), json(refused(3, "NotYours"), "403 Forbidden"))
        chunked = head("POST", "/v1/commands", "supplier01", CLOSE, "Transfer-Encoding: chunked")
        grants = json(b'{"lines":["0001 A n1"],"ok":"grants"}')
        self.replies(chunked + b'1e\r\n{"do":"grants","variant":"v1"}\r\n0\r\n\r\n', grants)
        _, page, said = self.asked(head("GET", "/", None, CLOSE))
        direct, _, wanted = sent(self.behind, head("GET", "/")).partition(b"\r\n\r\n")
        self.see("the page is as the server gives it", True, page == wanted and b"</html>" in page)
        fields = [line for line in direct.split(b"\r\n")[1:] if not line.startswith((b"content-length", b"content-type", b"connection"))]
        self.see("its fields come along", (6, []), (len(fields), [line for line in fields if line not in said.split(b"\r\n")]))
        self.see("a path outside", "404", self.asked(head("GET", "/v2/variants", "supplier01", CLOSE))[0])
        self.see("a body that is too long", "413", self.asked(head("POST", "/v1/commands", "supplier01", CLOSE, "Content-Length: 65537"))[0])
        wanted = [("s1", f"GET {SCHEDULE_PATH}", 200), ("nobody", f"GET {SCHEDULE_PATH}", 401), ("s1", "POST /v1/commands", 403)]
        told = [said for _, said in self.lines(7)]
        self.see("who asked what", wanted, [(said["owner"], said["asked"], said["status"]) for said in told[:3]])
        self.see("the body of a known owner", '{"do":"release","variant":"v1"}', told[2]["body"])

    def test_beside_a_key(self):
        """Blanks do not count, as in the register. Any other byte is answered 400, and the register is not asked."""
        self.begin()
        added = b'{"do":"add_frame","variant":"v1","frame":"f9","node":"n1"}'
        tabs = "\tsupplier01", "supplier01\t", " \t supplier01", "supplier01 \t ", "supp\tlier01", "\t"
        others = "supplier01\x0b", "\x0csupplier01", "supplier01,", "\u00a0supplier01", "supplier01;"
        for value in tabs + others:
            data = head("POST", "/v1/commands", None, f"X-Office-Key:{value}", f"Content-Length: {len(added)}", CLOSE) + added
            self.see(f"to the key {value!r}", "400", self.asked(data)[0])
        told = self.lines(len(tabs + others))
        self.see("none of them is taken for its owner's", {("nobody", 400)}, {(said["owner"], said["status"]) for _, said in told})
        for value in "supplier01", "  supplier01  ":
            self.replies(head("GET", "/v1/variants/v1/frames", None, f"X-Office-Key:{value}", CLOSE), text(b"FRAME f1 n1\nAT 0001 A 00 64\n"))

    def test_shut_out(self):
        """A key that has leaked is shut out, whatever stands beside it; others are not."""
        outside, inside = FRONT.split("server {", 1)
        before, place, behind = inside.partition("    location /v1/ {\n")
        keys = SHUT.replace("leakedKey1", "integrator1")
        self.see("the page says what is changed for that", (True, True), (keys != SHUT, bool(place)))
        self.begin(f"{outside}{keys}server {{{before}{place}        {REFUSES}\n{behind}")
        statuses = {"integrator1": "403", "  integrator1 ": "403", "\tintegrator1": "400", "integrator1\t": "400", "Integrator1": "401"}
        for value, status in statuses.items():
            self.see(f"to the key {value!r}", status, self.asked(head("GET", SCHEDULE_PATH, None, f"X-Office-Key: {value}", CLOSE))[0])
        self.replies(head("GET", SCHEDULE_PATH, "supplier01", CLOSE), text(b"00 0001 A f1 n1\n"))

    def test_log(self):
        """Without a key that is known a line is short, whatever is sent. No key is in the log."""
        self.begin()
        long, many = "x" * 7_900, b"\x01" * 65_536
        asked = [
            head("POST", "/v1/commands", None, "Content-Length: 65536", CLOSE) + many,
            head("POST", "/v1/commands", "nobody123", "Content-Length: 65536", CLOSE) + many,
            head("POST", "/v1/commands", None, "X-Office-Key:\tsupplier01", "Content-Length: 65536", CLOSE) + many,
            head("GET", f"/v1/{long}", None, CLOSE),
            head("GET", "/v1/" + "%01" * 2_600, None, CLOSE),
            head("GET", f"/v1/variants?{long}", None, CLOSE),
            head("G" * 7_900, "/v1/variants", None, CLOSE),
            head("GET", SCHEDULE_PATH, "k" * 7_900, CLOSE),
            head("GET", SCHEDULE_PATH, None, f"X-Office-Key:\t{long}", CLOSE),
        ]
        for data in asked:
            self.see(f"{data[:60]!r} is refused", "4", self.asked(data)[0][:1])
        for line, said in self.lines(len(asked)):
            self.see("whose it is", "nobody", said["owner"])
            self.see("how long its line is", True, len(line) <= LINE or line[:LINE])

    def test_bodies_of_the_log(self):
        """Those of known owners are logged where they have no key, and take twice their length at most."""
        self.begin()
        rows, secret = b"frame,node\nf7,n1\n", b'integrator1 {"do":"variants"}\n'
        shown = {
            command("supplier01", b'{"do":"grants","variant":"v1"}', CLOSE): '{"do":"grants","variant":"v1"}',
            command("supplier01", b' {"do":"replace","variant":"v1","body":"frame,node\\nf7,n1\\n"}\n', CLOSE): None,
            put("/v1/variants/v1/rows", "supplier01", rows, CLOSE): rows.decode(),
            post("/v1/variants/v1/tries", "supplier01", b"\xef\xbb\xbf" + rows, CLOSE): "\ufeff" + rows.decode(),
            head("GET", SCHEDULE_PATH, "supplier01", CLOSE): "",
        }
        longest = post("/v1/variants/v1/tries", "supplier01", b"frame," + b'"\n' * 32_765, CLOSE)
        hidden = [
            post("/v1/checks/requests", "supplier01", secret, CLOSE),
            post("/v1/checks/rows", "supplier01", rows, CLOSE),
            post("/v1/commands", "supplier01", secret, CLOSE),
            post("/v1/variants/v1/imports/w1", "supplier01", secret, CLOSE),
            post("/v1/variants/v1/imports/w1", "supplier01", rows + secret, CLOSE),
            command("integrator1", b'{"do":"variants"}\n' + secret + b"{}", CLOSE),
            command("integrator1", b'{"do":"set_key","supplier":"s1","key":"supplier02"}', CLOSE),
            command("integrator1", b'{"do":"set_key","supplier":"s1","k\\u0065y":"newKey2026"}', CLOSE),
            command("integrator1", b"\x01" * 65_536, CLOSE),
            post("/v1/variants/v1/tries", "integrator1", b"frame," + b"\x01" * 65_530, CLOSE),
        ]
        for data in (*shown, longest, *hidden):
            self.asked(data)
        told = self.lines(len(shown) + 1 + len(hidden))
        wanted = [text if text is not None else data.partition(b"\r\n\r\n")[2].decode() for data, text in shown.items()]
        self.see("bodies that are shown", wanted, [said["body"] for _, said in told[: len(shown)]])
        line, said = told[len(shown)]
        self.see("the longest body is there", 65_536, len(said["body"]))
        self.see("how long its line is", True, len(line) <= 2 * 65_536 + LINE)
        others = told[len(shown) + 1 :]
        self.see("bodies that are not", {"(not shown)", "(not shown: it may have a key)"}, {said["body"] for _, said in others})
        self.see("whose they are", {"s1", "integrator"}, {said["owner"] for _, said in others})
        self.see("keys in the log", [], [key for key in ("supplier01", "supplier02", "integrator1", "newKey2026") if key in self.log.read_text()])

    def test_two_keys(self):
        """Who shows two keys is the one that the log names, or nobody."""
        self.begin()
        pairs = ("supplier01", "integrator1"), ("integrator1", "supplier01"), ("nobody123", "integrator1")
        for count, (first, second) in enumerate(pairs, 1):
            status, body, _ = self.asked(head("GET", "/v1/nodes", first, f"X-Office-Key: {second}", CLOSE))
            owner = {b"n1\n": "s1", b"n1 s1\n": "integrator"}.get(body, "nobody")
            self.see(f"to {first} and {second}", owner, self.lines(count)[-1][1]["owner"])
            self.see("its status", owner == "nobody", status != "200")

    def test_unknown_bodies(self):
        """Of who is nobody no body comes to the register, and the answer is the register's; what is asked without a body goes on."""
        self.begin()
        for data in command("nobody123", b"{", CLOSE), put("/v1/variants/v1/rows", "nobody123", b"x", CLOSE), command(None, b"{}", CLOSE):
            self.replies(data, UNKNOWN)
        self.replies(head("GET", "/v1/explanations/Taken", None, CLOSE), text(sent(self.behind, head("GET", "/v1/explanations/Taken")).partition(b"\r\n\r\n")[2]))

    def test_fields(self):
        """What a key's owner alone may see nobody keeps; a browser comes by TLS alone; texts are compressed for who takes that."""
        self.begin()
        for path in SCHEDULE_PATH, "/v1/nothing":
            said = self.asked(head("GET", path, "supplier01", CLOSE))[2].lower()
            for field in b"cache-control: no-store", b"vary: x-office-key", b"strict-transport-security: max-age=31536000":
                self.see(f"{path}: {field}", 1, said.count(b"\r\n" + field))
        page = self.asked(head("GET", "/", None, CLOSE))[2].lower()
        self.see("the page", (1, 1), (page.count(b"\r\nstrict-transport-security: "), page.count(b"\r\ncache-control: no-cache")))
        sent_rows = b"frame,node\n" + b"".join(b"frame_of_a_long_name_%d,n1\n" % row for row in range(200))
        self.asked(put("/v1/variants/v1/rows", "supplier01", sent_rows, CLOSE))
        for path in "/v1/variants/v1/frames", "/v1/variants/v1/exports/frames/0":
            reply = self.sent(head("GET", path, "supplier01", CLOSE, "Accept-Encoding: gzip"))
            plain = self.sent(head("GET", path, "supplier01", CLOSE))
            self.see(f"{path} is compressed", (True, True), (b"content-encoding: gzip" in reply.lower(), len(reply) < len(plain) / 3))

    def test_slow_bodies(self):
        """Of one address so many may be under way. Others are let go, so that nginx has connections left, and who comes from another is answered."""
        self.begin()
        with ExitStack() as held:
            slow = []
            for _ in range(CROWD):
                slow.append(held.enter_context(closing(self.stream())))
                slow[-1].sendall(head("POST", "/v1/commands", "supplier01", "Content-Length: 50", CLOSE) + b"x")
                slow[-1].setblocking(False)
            self.see("others are let go", True, comes_to(True, lambda: sum(map(is_let_go, slow)) >= CROWD - AT_ONCE))
            data = head("GET", SCHEDULE_PATH, "supplier01", CLOSE)
            self.see("one more of that address", b"", self.sent(data))
            self.see("one of another address", ("200", b"00 0001 A f1 n1\n"), self.asked(data, "127.0.0.2")[:2])
