"""Mishaps of users of the built program, each as it was seen: a file that is put away, a full disk, closed streams, lines that are too long, ..

What is wanted was typed by hand from docs/FORMATS.md, docs/OPERATE.md and docs/HTTP.md; none of it is the program's own output."""
import os
import socket
import sqlite3
import stat
import subprocess
import time
from contextlib import closing, contextmanager, suppress
from pathlib import Path

from tests.drivers.preload import Failing
from tests.drivers.program import SECONDS, program, with_more
from tests.drivers.registers import RegisterCase
from tests.drivers.server import HERE, free_port, sent
from tests.models import schema1
from tests.models.messages import DONE, command, head, json, refused, text

BEGUN = (
    b'integrator1 {"do":"open_variant","variant":"v1"}',
    b'integrator1 {"do":"add_node","supplier":"s1","node":"n1"}',
    b'integrator1 {"do":"grant","variant":"v1","slot":1,"channel":"A","supplier":"s1","node":"n1"}',
)
GRANTS = head("GET", "/v1/variants/v1/grants", "integrator1"), text(b"0001 A n1 s1\n")
PIPES = dict.fromkeys(("stdin", "stdout", "stderr"), subprocess.PIPE)
UNAVAILABLE = refused(28, "Unavailable")
UNAVAILABLE_REPLY = json(UNAVAILABLE, "503 Service Unavailable")
SHUT = b"slotplan: Unavailable\n"
EMPTY_LOG = 41  # so many bytes has a log that has nothing
# What a line has at most, without its line feed.
LINE_BYTES = 1_048_576


def opens(variant):
    return b'integrator1 {"do":"open_variant","variant":"%s"}' % variant


def opens_over_http(variant):
    return command("integrator1", opens(variant).partition(b" ")[2])


def idle(process):
    """Waits until the process waits for what comes next: it looks at its files behind an answer too."""
    looks, until = 0, time.monotonic() + SECONDS
    while looks < 3 and time.monotonic() < until:
        state = Path(f"/proc/{process.pid}/stat").read_text().rpartition(")")[2].split()[0]
        looks = looks + 1 if state == "S" else 0
        time.sleep(0.02)


class MishapCase(RegisterCase):
    """A test with registers that were begun, and with a process that is asked step by step."""

    def begun(self, db="car.db"):
        """A register with a variant, a node and a grant."""
        self.create(db)
        self.ask(b"\n".join(BEGUN), (DONE + b"\n") * len(BEGUN), db=db)

    @contextmanager
    def asking(self, more=None):
        """`ask`, which is sent lines one by one."""
        with subprocess.Popen([program(), "ask", "car.db"], cwd=self.folder, env=with_more(more), bufsize=0, **PIPES) as asks:
            try:
                yield asks
            finally:
                asks.kill()

    def answers(self, asks, line, answer):
        asks.stdin.write(line + b"\n")
        self.see(f"to the line {line}", answer + b"\n", asks.stdout.readline())

    def replies(self, port, data, wanted):
        self.see(f"to {data[:120]!r}", wanted, sent(port, data))

    def ends_with(self, process, status, said):
        self.see("how it ends", (status, said), (process.wait(SECONDS), process.stderr.read()))

    def ends_line(self, line, wanted, given=b""):
        """A line of the shell, in which "$1" is the program, ends so: its status, what it writes, what it says."""
        self.see(line, wanted, self.shell(line, given))

    def variants(self, written, db="car.db"):
        self.tell(["variants", db], written)


class CannotGoOn(MishapCase):
    """A program whose register a fault has shut says so and ends."""

    def setUp(self):
        super().setUp()
        self.failing = Failing(self.folder)
        self.begun()

    def test_server_that_is_shut(self):
        """The next one finds the register, and the request whole or not at all."""
        with self.served(env=self.failing.more()) as (server, port):
            self.replies(port, *GRANTS)
            self.failing.fail("fdatasync")
            self.replies(port, opens_over_http(b"v2"), UNAVAILABLE_REPLY)
            self.ends_with(server, 1, SHUT)
        variants = [(name,) for name in ("v1", "v2")]
        self.see("the variants that are left", True, self.rows("SELECT name FROM variants ORDER BY name") in (variants[:1], variants))
        with self.served("--count", "1") as (server, port):
            self.replies(port, *GRANTS)

    def test_server_whose_write_failed(self):
        with self.served("--count", "3", env=self.failing.more()) as (server, port):
            self.failing.fail("pwrite")
            self.replies(port, opens_over_http(b"v2"), UNAVAILABLE_REPLY)
            self.replies(port, *GRANTS)
            self.replies(port, opens_over_http(b"v2"), json(DONE))
            self.ends_with(server, 0, b"")

    def test_ask_that_is_shut(self):
        with self.asking(self.failing.more()) as asks:
            self.answers(asks, opens(b"v2"), DONE)
            self.failing.fail("fdatasync")
            self.answers(asks, opens(b"v3"), UNAVAILABLE)
            self.ends_with(asks, 1, SHUT)

    def left(self, wanted, *under_way):
        """The variants that another SQLite, and then the program, find: these, and the one that was under way or not."""
        names = [name for (name,) in self.rows("SELECT name FROM variants ORDER BY name")]
        self.see("the variants that are left", True, names in (wanted, [*wanted, *under_way]) or names)
        self.variants("".join(f"{name} - 1 open\n" for name in names).encode())

    def keeps_its_log(self):
        log = self.folder / "car.db-wal"
        self.see("the log has what was answered", True, log.exists() and log.stat().st_size > EMPTY_LOG)

    def test_ask_whose_file_fails_to_close(self):
        """From some sync on each one fails, those of closing too. What was answered is in the log, which stays."""
        with self.asking(self.failing.more()) as asks:
            self.answers(asks, opens(b"v2"), DONE)
            self.failing.fail("fdatasync", 10_000)
            self.answers(asks, opens(b"v3"), UNAVAILABLE)
            self.ends_with(asks, 1, SHUT)
        self.keeps_its_log()
        self.left(["v1", "v2"], "v3")

    def test_server_whose_file_fails_to_close(self):
        with self.served(env=self.failing.more()) as (server, port):
            self.replies(port, opens_over_http(b"v2"), json(DONE))
            self.failing.fail("fdatasync", 10_000)
            self.replies(port, opens_over_http(b"v3"), UNAVAILABLE_REPLY)
            self.ends_with(server, 1, SHUT)
        self.keeps_its_log()
        self.left(["v1", "v2"], "v3")

    def test_ask_that_ends_whose_file_fails_to_close(self):
        """All was answered; that the file did not close is told, and its log stays."""
        with self.asking(self.failing.more()) as asks:
            self.answers(asks, opens(b"v2"), DONE)
            self.failing.fail("fdatasync", 10_000)
            asks.stdin.close()
            self.ends_with(asks, 1, SHUT)
        self.keeps_its_log()
        self.left(["v1", "v2"])


class Watched(MishapCase):
    """A program sees that its register's file is put away, or is no longer where its path leads."""

    def put(self, here, there):
        os.rename(self.folder / here, self.folder / there)

    def linked(self):
        """The register's path is a link to one of two registers, and another link lies beside it."""
        self.begun("r1.db")
        self.begun("r2.db")
        (self.folder / "car.db").symlink_to("r1.db")
        (self.folder / "new").symlink_to("r2.db")

    def test_ask_over_another_file(self):
        """The file that was moved there is whole, and has nothing of what was refused."""
        self.begun()
        self.begun("other.db")
        with self.asking() as asks:
            self.answers(asks, opens(b"v2"), DONE)
            idle(asks)
            self.put("other.db", "car.db")
            self.answers(asks, opens(b"v3"), UNAVAILABLE)
            self.ends_with(asks, 1, SHUT)
        (self.folder / "car.db-wal").unlink()
        self.variants(b"v1 - 1 open\n")

    def test_ask_what_its_text_refuses(self):
        self.begun()
        with self.asking() as asks:
            self.answers(asks, opens(b"v2"), DONE)
            idle(asks)
            self.put("car.db", "away.db")
            self.answers(asks, opens(b"2v"), refused(4, "BadName"))
            self.ends_with(asks, 1, SHUT)

    def test_server_whose_link_leads_elsewhere(self):
        self.linked()
        with self.served() as (server, port):
            self.replies(port, opens_over_http(b"v2"), json(DONE))
            idle(server)
            self.put("new", "car.db")
            self.replies(port, opens_over_http(b"v3"), UNAVAILABLE_REPLY)
            self.ends_with(server, 1, SHUT)
        self.variants(b"v1 - 1 open\nv2 - 1 open\n", "r1.db")
        self.variants(b"v1 - 1 open\n", "r2.db")

    def test_ask_whose_link_leads_elsewhere(self):
        self.linked()
        with self.asking() as asks:
            self.answers(asks, opens(b"v2"), DONE)
            idle(asks)
            self.put("new", "car.db")
            self.answers(asks, opens(b"v3"), UNAVAILABLE)
            self.ends_with(asks, 1, SHUT)

    def test_new_link_to_the_same_file(self):
        self.begun("r1.db")
        (self.folder / "car.db").symlink_to("r1.db")
        (self.folder / "new").symlink_to(self.folder / "r1.db")
        with self.served("--count", "2") as (server, port):
            self.replies(port, opens_over_http(b"v2"), json(DONE))
            self.put("new", "car.db")
            self.replies(port, opens_over_http(b"v3"), json(DONE))
            self.ends_with(server, 0, b"")


class LongLines(MishapCase):
    """A line of `ask` has at most 1,048,576 bytes, and takes no more memory than FORMATS says."""

    def setUp(self):
        super().setUp()
        self.begun()

    def test_longest(self):
        whole = opens(b"v2").ljust(LINE_BYTES)
        self.ask(whole + b"\n", DONE + b"\n")
        self.ask(whole, refused(19, "Exists") + b"\n")
        for variant, end in (b"v3", b""), (b"v4", b"\n"):
            self.ask(opens(variant) + b"\n" + whole + b" " + end, DONE + b"\n", b"slotplan: TooLong\n", 1)

    def test_memory(self):
        for count, wanted in (15_000_000 // 8, (1, b"", b"slotplan: TooLong\n")), (1_000_000 // 8, (0, refused(1, "BadText") + b"\n", b"")):
            self.ends_line('ulimit -v 524288; exec "$1" ask car.db', wanted, b"integrator1 [" + b'{"a":0},' * count + b"0]\n")


class Keys(MishapCase):
    """A register's keys are read by its owner alone, and an import may take its key from standard input."""

    def mode(self, name):
        return oct(stat.S_IMODE((self.folder / name).stat().st_mode))

    def importing(self):
        """The words of an import into a register, whose key comes from standard input."""
        self.begun()
        (self.folder / "rows.csv").write_bytes(b"frame,node,slot,channels,base,repetition\nf1,n1,1,A,0,64\n")
        return ["import", "car.db", "-", "v1", "a", "rows.csv"]

    def test_modes(self):
        """The log that is made anew has the mode of the file."""
        self.ends_line('umask 022; exec "$1" create car.db cluster.toml', (0, b"", b""))
        self.see("modes", ["0o600", "0o600"], [self.mode(name) for name in ("car.db", "car.db-wal")])
        (self.folder / "car.db-wal").unlink()
        self.ends_line('umask 022; exec "$1" ask car.db', (0, DONE + b"\n", b""), opens(b"v1"))
        self.see("the mode of a log that is made anew", "0o600", self.mode("car.db-wal"))

    def test_mode_of_a_file_that_is_there(self):
        (self.folder / "car.db").touch()
        (self.folder / "car.db").chmod(0o640)
        self.create()
        self.see("the mode that the file had", "0o640", self.mode("car.db"))

    def test_bad_cluster_file(self):
        (self.folder / "bad.toml").write_bytes(b"channels = 1\n")
        self.fault(["create", "car.db", "bad.toml"], "BadField")
        self.see("a file is made", False, (self.folder / "car.db").exists())

    def test_key_from_standard_input(self):
        words, imported = self.importing(), b'{"ok":"imported","rows":1}\n'
        for given in b"supplier01\n", b"supplier01", b"supplier01\r\n", b"supplier01\nsupplier02\n":
            self.tell(words, imported, given=given)
        for given in b"", b"\n", b"nobody123\n", b"\nsupplier01\n", b"-\n", b"\xff\n":
            self.tell(words, said=refused(2, "UnknownKey") + b"\n", status=1, given=given)
        self.tell(words, said=b"slotplan: TooLong\n", status=1, given=b"k" * 8193)
        self.tell([*words[:2], "supplier01", *words[3:]], imported, given=b"nobody123\n")

    def test_key_that_comes_late(self):
        words = self.importing()
        with subprocess.Popen([program(), *words], cwd=self.folder, bufsize=0, **PIPES) as imports:
            self.see("the key among the words", False, b"supplier01" in Path(f"/proc/{imports.pid}/cmdline").read_bytes())
            imports.stdin.write(b"supplier01\n")
            self.see("how it ends, with its input open", (0, b'{"ok":"imported","rows":1}\n'), (imports.wait(SECONDS), imports.stdout.read()))

    def test_key_that_cannot_be_read(self):
        self.importing()
        self.ends_line('exec "$1" import car.db - v1 a rows.csv < /', (1, b"", b"slotplan: ReadFailed\n"))


class Accepted(MishapCase):
    """A connection that is gone before it is accepted is passed over, and where there is room for no more the server waits; else it ends."""

    def setUp(self):
        super().setUp()
        self.failing = Failing(self.folder)
        self.begun()

    def test_next_one_is_served(self):
        for call in "aborted", "protocol", "crowded":
            self.failing.fail(call, times=2)
        with self.served("--count", "1", env=self.failing.more()) as (server, port):
            self.replies(port, *GRANTS)
            self.ends_with(server, 0, b"")

    def test_another_failure(self):
        self.failing.fail("deaf")
        with self.served(env=self.failing.more()) as (server, _):
            self.ends_with(server, 1, b"slotplan: CannotListen\n")


class Streams(MishapCase):
    """Standard streams that were closed stay so, and no client gets what is meant for them; a file that may not grow is `Unavailable`."""

    def setUp(self):
        super().setUp()
        self.begun()

    @contextmanager
    def served_without(self, streams):
        """A server without these streams, and its port."""
        port = free_port()
        line = f'exec "$1" serve car.db {port} --count 1 {streams}'
        nothing = dict.fromkeys(("stdin", "stdout", "stderr"), subprocess.DEVNULL)
        with subprocess.Popen(["sh", "-c", line, "sh", program()], cwd=self.folder, **nothing) as server:
            try:
                yield server, port
            finally:
                server.kill()

    def connected(self, port):
        """A connection to a server that may not listen yet."""
        until = time.monotonic() + SECONDS
        while time.monotonic() < until:
            with suppress(ConnectionRefusedError):
                return socket.create_connection((HERE, port), SECONDS)
            time.sleep(0.01)
        self.fail("nobody listens")

    def test_no_client_gets_a_fault(self):
        for streams in "<&- 2>&-", "2>&-", "<&-":
            with self.served_without(streams) as (server, port):
                with self.connected(port) as stream:
                    stream.sendall(GRANTS[0][:-4])
                    stream.shutdown(socket.SHUT_WR)
                    self.see(f"what a client gets that is cut, {streams}", b"", stream.recv(65_536))
                self.see(f"how the server ends, {streams}", 0, server.wait(SECONDS))

    def test_server_that_cannot_say_where_it_listens(self):
        with self.served_without("<&- >&- 2>&-") as (server, _):
            self.see("how it ends", 1, server.wait(SECONDS))

    def test_closed(self):
        self.ends_line('exec "$1" variants car.db >&-', (1, b"", b"slotplan: WriteFailed\n"))
        self.ends_line('exec "$1" run <&-', (1, b"", b"slotplan: ReadFailed\n"))
        self.ends_line('exec "$1" variants car.db 2>&-', (0, b"v1 - 1 open\n", b""))

    def test_file_that_may_not_grow(self):
        """The program itself has no way to ignore the signal."""
        self.ends_line("""trap '' XFSZ; ulimit -f 1; exec "$1" create new.db cluster.toml""", (1, b"", SHUT))


class Words(MishapCase):
    """A supplier that is not there is `NoSupplier` for each report, and a refusal's number is explained as its name."""

    def test_supplier_that_is_not_there(self):
        self.begun()
        held = ([report, "car.db"] for report in ("cluster", "variants", "nodes"))
        of_variant = ([report, "car.db", "v1"] for report in ("grants", "frames", "schedule", "gaps", "picture"))
        for words in *held, *of_variant, ["layout", "car.db", "v1", "f1"], ["grants", "car.db", "v9"]:
            for name in "brake", "no name", "":
                self.turned_down([*words, "--supplier", name], refused(14, "NoSupplier"))
        self.turned_down(["grants", "car.db", "v9", "--supplier", "s1"], refused(10, "NoVariant"))

    def test_numbers(self):
        for number, name in ("24", "Taken"), ("1", "BadText"), ("28", "Unavailable"), ("29", "BadRow"), ("31", "KeyTaken"), ("32", "NoRoom"):
            told = self.shell(f'exec "$1" explain {name}')
            self.see(f"{name} is explained", 0, told[0])
            self.ends_line(f'exec "$1" explain {number}', told)
        for word in "0", "33", "024", "+24":
            self.see(f"the status of explain {word}", 1, self.shell(f'exec "$1" explain {word}')[0])


class Hindrances(MishapCase):
    """`check --register` tells what stands in the way of using a register, each case as it is made, and changes nothing."""

    def setUp(self):
        super().setUp()
        # Whoever is started as another user finds the folder, and the register is nobody else's.
        self.folder.chmod(0o755)
        self.begun()
        self.db, self.log = self.folder / "car.db", self.folder / "car.db-wal"

    def seen(self):
        """What lies in the folder: each file with its bytes, and what the system says of it, but for when it was read."""
        files = sorted(self.folder.rglob("*"))
        bytes_of = [it.read_bytes() if stat.S_ISREG(it.lstat().st_mode) else b"" for it in files]
        kept = [(it.lstat().st_mode, it.lstat().st_ino, it.lstat().st_nlink, it.lstat().st_mtime_ns, it.lstat().st_ctime_ns) for it in files]
        return list(zip(map(str, files), kept, bytes_of))

    def ended(self, words, other):
        """How the program ends, as this user or as another who has no rights of its own."""
        user = {"user": 65534, "group": 65534, "extra_groups": []} if other and os.getuid() == 0 else {}
        got = subprocess.run([program(), *words], cwd=self.folder, capture_output=True, stdin=subprocess.DEVNULL, timeout=SECONDS, **user)
        return got.returncode, got.stdout, got.stderr

    def hinders(self, *ways, word="Unavailable", db="car.db", other=False):
        """These stand in the way, nothing else is said, and nothing is changed; and a report ends with this word."""
        before = self.seen()
        said = b"".join(b"slotplan: %s\n" % way.encode() for way in ways)
        self.see(f"check --register {db}", (int(bool(ways)), b"", said), self.ended(["check", "--register", db], other))
        self.see("nothing is changed", before, self.seen())
        if ways:
            self.see(f"variants {db}", (1, b"", f"slotplan: {word}\n".encode()), self.ended(["variants", db], other))
        else:
            self.see(f"variants {db}", 0, self.ended(["variants", db], other)[0])

    def test_nothing(self):
        self.hinders()
        (self.folder / "link.db").symlink_to("car.db")
        self.hinders(db="link.db")
        self.log.unlink()
        self.hinders()
        self.hinders(db=str(self.db))
        (self.folder / "car.db-journal").write_bytes(b"")
        self.hinders()

    def test_no_such_file(self):
        self.hinders("there is no such file", word="NotARegister", db="cra.db")
        self.hinders("there is no such file", word="NotARegister", db="cra/car.db")

    def test_no_file(self):
        no_file = "it is a folder, a pipe or a device"
        (self.folder / "folder.db").mkdir()
        os.mkfifo(self.folder / "pipe.db")
        for db in "folder.db", "pipe.db", "/dev/null":
            self.hinders(no_file, db=db)

    def test_permissions(self):
        for file in self.db, self.log:
            file.chmod(0o666)
        self.hinders(other=True)
        self.db.chmod(0o444)
        self.hinders("you may not write it, as each command does", other=True)
        self.db.chmod(0o222)
        self.hinders("you may not read it", "you may not write it, as each command does", other=True)
        self.db.chmod(0o666)
        self.log.chmod(0)
        self.hinders("you may not read its log, or not write it", other=True)
        self.log.unlink()
        self.folder.chmod(0o555)
        self.hinders("its log is not there, and you may not make it in the folder", other=True)
        self.folder.chmod(0o755)

    def test_another_program(self):
        in_use = "another program has it: a server, another command, or another SQLite"
        with self.served():
            self.hinders(in_use)
        self.hinders()
        with closing(sqlite3.connect(self.db, isolation_level=None)) as file:
            file.execute("BEGIN")
            file.execute("SELECT * FROM register").fetchall()
            self.see("another SQLite has it", (1, b"", f"slotplan: {in_use}\n".encode()), self.ended(["check", "--register", "car.db"], False))

    def test_names(self):
        os.link(self.db, self.folder / "other.db")
        self.hinders("it has a second name, a hard link")
        self.hinders("it has a second name, a hard link", db="other.db")
        (self.folder / "other.db").unlink()
        os.link(self.log, self.folder / "other-wal")
        self.hinders("its log has a second name, a hard link")

    def test_log(self):
        no_log = "its log is a symbolic link, a folder or a pipe"
        self.log.rename(self.folder / "elsewhere")
        self.log.symlink_to("elsewhere")
        self.hinders(no_log)
        self.log.unlink()
        self.log.mkdir()
        self.hinders(no_log)
        self.log.rmdir()
        os.mkfifo(self.log)
        self.hinders(no_log)

    def test_journal(self):
        (self.folder / "car.db-journal").write_bytes(b"\xd9\xd5\x05\xf9\x20\xa1\x63\xd7")
        self.hinders("a -journal lies beside it: another SQLite was ended as it changed the file")

    def test_no_register(self):
        (self.folder / "text.db").write_bytes(b"no database\n")
        self.hinders("it is no SQLite database", word="NotARegister", db="text.db")
        (self.folder / "empty.db").write_bytes(b"")
        self.see("an empty file", (1, b"", b"slotplan: it is no SQLite database\n"), self.ended(["check", "--register", "empty.db"], False))
        with closing(sqlite3.connect(self.folder / "other.db")) as file:
            file.execute("CREATE TABLE other (id INTEGER)")
        self.hinders("it is a database without a register", word="NotARegister", db="other.db")

    def test_schema(self):
        schema1.filled(self.folder / "old.db", {})
        self.hinders("its schema is not 2: slotplan migrate takes one of schema 1", word="WrongSchema", db="old.db")

    def test_another_table(self):
        with closing(sqlite3.connect(self.db)) as file:
            file.execute("CREATE TABLE other (id INTEGER)")
        self.hinders("the database is damaged, or its tables and rows make no register")

    def test_several(self):
        os.link(self.db, self.folder / "other.db")
        (self.folder / "car.db-journal").mkdir()
        self.log.unlink()
        self.log.mkdir()
        self.hinders(
            "it has a second name, a hard link", "a -journal lies beside it: another SQLite was ended as it changed the file",
            "its log is a symbolic link, a folder or a pipe",
        )

    def test_explained(self):
        for word in "Unavailable", "NotARegister":
            self.see(f"explain {word}", True, b"slotplan check --register DB" in self.shell(f'"$1" explain {word}')[1])
