"""The built program, stopped at each of its calls on files, and given a disk and files that fail it.

A small library that cc makes, loaded before the C library, ends the program in place of the Nth call that writes, syncs, cuts or renames a file, or
half-way through it, or lets it fail with EIO or ENOSPC, or has it write a part; N is 1, 2, .. until nothing is left to stop, or every so many, others in
each way of stopping. Each request to `ask` and to a server is asked once more where it is answered Unavailable.

The rows that are wanted were typed by hand from docs/FORMATS.md. The program and the SQLite of python3 read the same."""
import os
import shutil
import sqlite3
import subprocess
import sys
import time
from concurrent.futures import ThreadPoolExecutor
from contextlib import closing, contextmanager
from pathlib import Path

from tests import TOP
from tests.drivers.preload import Stopper, calls_from
from tests.drivers.program import program
from tests.drivers.states import (
    ALL, BOOKS, NOTHING, NOT_YOURS, PLACED, REQUESTS, SECONDS, UNAVAILABLE, StateCase, copied, count_in, ended_after, lined, performed, replied,
    schema_in, server_of,
)
from tests.models import schema1
from tests.models.messages import DONE, command, head, json, refused, text
from tests.runner.case import TURN, folder_in_memory
from tests.runner.parameters import for_each

ENDS, FAILS = ("end", "half"), ("EIO", "ENOSPC")
WAYS = (*ENDS, *FAILS, "short")
AT_REST = 0.5  # seconds, after which a server has ended a connection and waits for the next

CREATE, MIGRATE, SCHEDULE = ["create", "car.db", "cluster.toml"], ["migrate", "car.db"], ["schedule", "car.db", "v1"]
IMPORT = ["import", "car.db", "supplier01", "v1", "a", "signals.csv"]
QUIETLY = 0, b"", b""
WORD, WRONG_SCHEMA = ((1, b"", b"slotplan: %s\n" % word) for word in (b"Unavailable", b"WrongSchema"))
REFUSED = 1, b"", refused(28, "Unavailable") + b"\n"
IMPORTED = 0, b'{"ok":"imported","rows":1}\n', b""
SHOWN = b"00 0001 A f1 n1 s1\n"

# What a supplier may not ask is answered so whatever became of the file.
STRANGE = command("supplier01", b'{"do":"release","variant":"v1"}')


class FileCase(StateCase):
    """A test of what is in a register's file."""

    def looked_at(self, what, files, counts):
        """Another SQLite finds the register after one of so many requests, and so does the program, which leaves it so."""
        found = count_in(files)
        self.see(f"{what}: the register is after {counts} requests", True, found in counts or found)
        if found in counts:
            self.see(f"{what}: the schedule after {found} requests", ended_after(found), performed(SCHEDULE, files))
            self.see(f"{what}: the register once it was opened", found, count_in(files))
        return found


# ---- stops at calls on files


class StopCase(FileCase):
    """A test that stops a run in one way, at one call after another."""

    is_apart = True
    step = 4
    # The files that the run begins with, how it may end where no call failed and where one did, and after how many requests the register stands then.
    begins, well, fails, after = "none", [], [], ALL

    def ran(self, files, more):
        """How it ends, and after how many requests the register may stand."""
        raise NotImplementedError

    def looked_behind(self, what, files, ended, counts):
        self.looked_at(what, files, counts)

    def may_end(self, way):
        if way in ENDS:
            return [*self.well, (-9, b"", b""), (-9, b"")]
        return self.well if way == "short" else [*self.well, *self.fails]

    def tried(self, way):
        self.unavailable = 0
        stopper, base = Stopper(self.folder), getattr(self.made, self.begins)
        for stopped, call in enumerate(calls_from(TURN + WAYS.index(way), self.each)):
            files = copied(base, self.made.run)
            what = f"{way} at call {call}"
            ended, counts = self.ran(files, stopper.stopping(call, way))
            if not stopper.has_acted():
                break
            self.see(f"{what}: the end", True, ended in self.may_end(way) or ended)
            self.looked_behind(what, files, ended, counts)
        self.see(f"{what}, behind the last", (True, {self.after}), (ended in self.well or ended, counts))
        self.looked_at(f"{what}, behind the last", files, counts)
        self.see(f"it has calls that {way} stops", True, stopped > 0)
        print(f"{type(self).__name__}: {way} at {stopped} calls, answered Unavailable {self.unavailable} times", flush=True)


each_way = for_each([(way, way) for way in WAYS])


@each_way
class Making(StopCase):
    """Where `create` is stopped at a call on files, there is no register, or the whole; then it can be made."""

    well, fails, after = [QUIETLY], [WORD], 0

    def ran(self, files, more):
        ended = performed(CREATE, files, more)
        return ended, {0} if ended[0] == 0 else {NOTHING, 0}

    def looked_behind(self, what, files, ended, counts):
        found = self.looked_at(what, files, counts)
        if found in counts:
            again = QUIETLY if found == NOTHING else (1, b"", b"slotplan: NotEmpty\n")
            self.see(f"{what}: made again", again, performed(CREATE, files))
            self.looked_at(f"{what}: made again", files, {0})


@each_way
class Reading(StopCase):
    """Where a report is stopped at a call on files, the register is as it was; five of its requests lie in its log.

    Where the file fails to close, that is told behind the report; so with an import."""

    begins, well, fails, after = "logged", [(0, SHOWN, b"")], [WORD, REFUSED, (1, SHOWN, WORD[2])], PLACED

    def ran(self, files, more):
        return performed(SCHEDULE, files, more), {PLACED}


@each_way
class Migrating(StopCase):
    """Where `migrate` is stopped at a call on files, the register has its rows, in schema 1, of which it can be migrated, or in schema 2."""

    begins, well, fails = "old", [QUIETLY], [WORD]

    def ran(self, files, more):
        return performed(MIGRATE, files, more), {ALL}

    def looked_behind(self, what, files, ended, counts):
        schema = schema_in(files)
        self.see(f"{what}: the schema", True, schema == 2 or (schema == 1 and ended[0] != 0) or schema)
        self.see(f"{what}: its rows", ALL, count_in(files))
        if schema == 1:
            self.see(f"{what}: the schedule before it is migrated", WRONG_SCHEMA, performed(SCHEDULE, files))
        self.see(f"{what}: migrated again", QUIETLY if schema == 1 else WRONG_SCHEMA, performed(MIGRATE, files))
        self.see(f"{what}: the schema then", 2, schema_in(files))
        self.looked_at(what, files, counts)


@each_way
class Importing(StopCase):
    """Where `import` is stopped at a call on files, its rows are there, all or none; all where it was answered."""

    begins, well, fails, after = "placed", [IMPORTED], [WORD, REFUSED, (1, IMPORTED[1], WORD[2])], PLACED + 1

    def ran(self, files, more):
        ended = performed(IMPORT, files, more)
        return ended, {PLACED + 1} if ended[1] == IMPORTED[1] else {PLACED, PLACED + 1}


class Client:
    """Asks requests one after another, each a second time where the first is answered Unavailable. It stops where the program
    has ended, or where Unavailable is all that it gets."""

    def __init__(self, test, answered, lacks):
        self.test = test
        self.answered, self.lacks = answered, lacks  # what is answered to some bytes, and what is where that is Unavailable
        self.asked, self.carried, self.unavailable, self.under_way = 0, 0, 0, False

    def ask(self, data):
        self.asked += 1
        return self.answered(data)

    def ask_all(self, requests):
        for request in requests:
            got = self.ask(request.data)
            rights = [request.right]
            if got == self.lacks:
                self.unavailable += 1
                got, rights = self.ask(request.data), [request.right, request.again]
            if got in (b"", self.lacks):
                self.under_way = True
                return got != b""
            self.test.see("what is answered", True, got in rights or got)
            self.carried += 1
        return True

    def counts(self, begun):
        """After how many requests the register may stand, where it stood after so many."""
        return {begun + self.carried, begun + self.carried + self.under_way}


def answered(asks, line):
    """What `ask` answers to a line, with its line feed: nothing where the program ends."""
    try:
        asks.stdin.write(line)
    except BrokenPipeError:
        return b""
    return asks.stdout.readline()


@each_way
class Asking(StopCase):
    """Where `ask` is stopped at a call on files, what it answered is in the file, and the line under way is there whole or not at all."""

    begins, well, fails = "placed", [(0, b"")], [(1, b"slotplan: Unavailable\n")]

    def ran(self, files, more):
        """The requests behind the first five are asked, each once the one before it is answered."""
        pipes = dict.fromkeys(("stdin", "stdout", "stderr"), subprocess.PIPE)
        with subprocess.Popen([program(), "ask", "car.db"], cwd=files, env={**os.environ, **more}, bufsize=0, **pipes) as asks:
            try:
                client = Client(self, lambda line: answered(asks, line), refused(28, "Unavailable") + b"\n")
                has_answered = client.ask_all(map(lined, REQUESTS[PLACED:]))
                rest, said = asks.communicate(timeout=SECONDS)
            finally:
                asks.kill()
        self.see("what is answered to no line", b"", rest)
        self.see("a line without an answer, where it ends well", False, asks.returncode == 0 and not has_answered)
        self.unavailable += client.unavailable
        return (asks.returncode, said), client.counts(PLACED)


@each_way
class Serving(StopCase):
    """Where a server is stopped at a call on files, what it answered is in the file, and the request under way is there whole or not at all."""

    begins, well, fails = "new", [(0, b"")], [(1, b"slotplan: Unavailable\n")]

    def ran(self, files, more):
        """It gets every request."""
        connections = len(REQUESTS) + 2
        with server_of(files, connections, more) as (server, port):
            client = Client(self, lambda data: replied(port, data), UNAVAILABLE)
            if port and client.ask_all(REQUESTS):
                for _ in range(connections - client.asked):
                    self.see("what no supplier may ask", NOT_YOURS, client.ask(STRANGE))
            ended = server.wait(SECONDS), server.stderr.read()
        self.unavailable += client.unavailable
        return ended, client.counts(0)


# ---- a full disk


FRAMES = [f"g{n}" for n in range(200)]
BALLAST = 512 * 1024  # of the disk's 1 MB; a register takes 92 KB, and its log at first 260


def add_frame(name):
    return command("supplier01", b'{"do":"add_frame","variant":"v1","frame":"%s","node":"n1"}' % name.encode())


@contextmanager
def small_disk(disk):
    """A file system of 1 MB in memory, where this may be mounted."""
    disk.mkdir()
    mounted = shutil.which("mount") and subprocess.run(["mount", "-t", "tmpfs", "-o", "size=1m", "none", disk], capture_output=True).returncode == 0
    try:
        yield disk if mounted else None
    finally:
        if mounted:
            subprocess.run(["umount", disk], check=True)


def fill(ballast):
    """Writes until the disk has no room."""
    with open(ballast, "wb", buffering=0) as file:
        try:
            while file.write(b"x" * 512):
                pass
        except OSError:
            pass


class FullDisk(FileCase):
    """On a full disk a word comes and nothing is lost, and the next request succeeds once there is room."""

    def frames_in(self, files):
        with folder_in_memory() as room, closing(sqlite3.connect(copied(files, Path(room)) / "car.db")) as file:
            self.see("the file is sound to SQLite", [("ok",)], file.execute("PRAGMA integrity_check").fetchall())
            return {name for (name,) in file.execute("SELECT name FROM frames WHERE name LIKE 'g%'")}

    def filled(self, files, make_room, more=None):
        """Frames are added until the disk is full, and a few times more. None that was answered is lost; and once there is room
        the next one is added, by the same server."""
        added, refused_names = set(), []
        with server_of(files, len(FRAMES) + 2, more) as (_, port):
            self.see("the server listens", True, port is not None)
            for name in FRAMES:
                got = replied(port, add_frame(name))
                self.see("a frame is added, or not for want of room", True, got in (json(DONE), UNAVAILABLE) or got)
                (added.add if got == json(DONE) else refused_names.append)(name)
                if len(refused_names) == 5:
                    break
            self.see("the disk was full", 5, len(refused_names))
            self.see("what it refused is not there", text(b"00 0001 A f1 n1 s1\n"), replied(port, head("GET", "/v1/variants/v1/schedule", "integrator1")))
            self.see("what no supplier may ask", NOT_YOURS, replied(port, STRANGE))
            make_room()
            for name in refused_names:
                self.see("a frame is added once there is room", json(DONE), replied(port, add_frame(name)))
        self.see("frames in the file", added | set(refused_names), self.frames_in(files))

    def test_in_earnest(self):
        """A disk that is full once the log has grown; then each command, on a disk without any room."""
        if os.geteuid():
            return self.as_root()
        with small_disk(self.folder / "disk") as disk:
            if disk is None:
                self.skipTest("no file system may be mounted")
            copied(self.made.placed, disk)
            schema1.filled(disk / "old.db", BOOKS[ALL], pragmas=("page_size = 512",))
            ballast = disk / "ballast"
            ballast.write_bytes(b"x" * BALLAST)
            self.filled(disk, ballast.unlink)
            self.performed_when_full(disk, ballast)

    def test_started_in_earnest(self):
        """On a full disk a report and a server start beside a log; without one they are Unavailable until there is room."""
        if os.geteuid():
            return self.as_root()
        with small_disk(self.folder / "disk") as disk:
            if disk is None:
                self.skipTest("no file system may be mounted")
            copied(self.made.logged, disk)
            for nth, log in enumerate(("a log with requests", "a log that has nothing")):
                fill(disk / f"ballast{nth}")
                with server_of(disk, 3) as (server, port):
                    self.see(f"the server listens beside {log}", True, port is not None)
                    self.see("it reports", text(b"00 0001 A f1 n1 s1\n"), replied(port, head("GET", "/v1/variants/v1/schedule", "integrator1")))
                    got = replied(port, add_frame("g1"))
                    self.see("a change, for which a log with requests may have room", True, got == UNAVAILABLE or nth == 0 and got == json(DONE))
                    self.see("it refuses what no supplier may ask", NOT_YOURS, replied(port, STRANGE))
                    self.see("it ends", 0, server.wait(SECONDS))
                self.see(f"a report beside {log}", (0, SHOWN, b""), performed(SCHEDULE, disk))
            (disk / "ballast1").unlink()
            with closing(sqlite3.connect(disk / "car.db")) as other:
                self.see("another SQLite closes the register", [("wal",)], other.execute("PRAGMA journal_mode").fetchall())
                self.see("what it finds", [("v1",)], other.execute("SELECT name FROM variants").fetchall())
            self.see("it takes the log away", False, (disk / "car.db-wal").exists())
            fill(disk / "ballast2")
            for words in SCHEDULE, ["serve", "car.db", "1024"]:
                self.see(f"{words[0]} without a log", WORD, performed(words, disk))
            (disk / "ballast0").unlink()
            self.see("a report once there is room", (0, SHOWN, b""), performed(SCHEDULE, disk))

    def test_made_in_earnest(self):
        """Of a register for which there is too little room there is nothing, or the whole; `create` says which, once there is room."""
        if os.geteuid():
            return self.as_root()
        with small_disk(self.folder / "disk") as disk:
            if disk is None:
                self.skipTest("no file system may be mounted")
            shutil.copy(self.made.run / "cluster.toml", disk)
            ballast, found = disk / "ballast", set()
            for room in 0, 4096, 100_000, 300_000, 350_000:
                with open(ballast, "wb") as file:
                    file.write(bytes(max(0, os.statvfs(disk).f_bavail * os.statvfs(disk).f_frsize - room)))
                self.see(f"a register in {room} bytes", WORD, performed(CREATE, disk))
                ballast.unlink()
                ended = performed(CREATE, disk)
                self.see("once there is room", True, ended in (QUIETLY, (1, b"", b"slotplan: NotEmpty\n")) or ended)
                found.add(ended[0])
                self.looked_at("the register then", disk, {0})
                for name in "car.db", "car.db-wal":
                    (disk / name).unlink(missing_ok=True)
            self.see("there was nothing, or the whole", {0, 1}, found)

    def as_root(self):
        """The same test once more, where this user may mount: in a namespace of its own."""
        words = ["unshare", "--user", "--map-root-user", "--mount", sys.executable, "-m", "tests.runner.run", "--alone", self.id()]
        ran = subprocess.run(words, cwd=TOP, capture_output=True, text=True)
        self.see("the test in a namespace of its own", 0, (ran.returncode, ran.stdout, ran.stderr) if ran.returncode else 0)

    def performed_when_full(self, disk, ballast):
        """Each command ends with a word, and leaves the register."""
        create, migrate = ["create", "new.db", str(self.made.run / "cluster.toml")], ["migrate", "old.db"]
        carry = ["import", "car.db", "supplier01", "v1", "b", str(self.made.run / "signals.csv")]
        before = self.frames_in(disk)
        fill(ballast)
        self.see("a register on a full disk", WORD, performed(create, disk))
        self.see("a migration on a full disk", WORD, performed(migrate, disk))
        ended = performed(carry, disk)
        self.see("an import on a full disk", True, ended in (WORD, REFUSED) or ended)
        ballast.unlink()
        self.see("the register is as it was", before, self.frames_in(disk))
        self.see("the import once there is room", IMPORTED, performed(carry, disk))
        self.see("the register once there is room", QUIETLY, performed(create, disk))
        self.see("the migration once there is room", QUIETLY, performed(migrate, disk))
        self.see("the schedule then", ended_after(ALL), performed(["schedule", "old.db", "v1"], disk))

    def test_by_library(self):
        """The library lets no file grow from some call on."""
        stopper = Stopper(self.folder)
        for call in 30, 60, 90:
            files = copied(self.made.placed, self.made.run)
            self.filled(files, lambda: self.see("the disk was full", True, stopper.has_acted()), stopper.stopping(call, "full"))


# ---- a file that others hold or change


class Held(FileCase):
    """Where another process holds the register, each command says a word and nothing is lost; a server goes on beside them."""

    commands = [
        ["ask", "car.db"],
        *([report, "car.db"] for report in ("cluster", "variants", "nodes")),
        SCHEDULE,
        ["gaps", "car.db", "v1"],
        ["picture", "car.db", "v1"],
        IMPORT,
        ["serve", "car.db", "1024"],
        CREATE,
        MIGRATE,
    ]

    def test_by_another_sqlite(self):
        files = copied(self.made.placed, self.made.run)
        with closing(sqlite3.connect(files / "car.db", isolation_level=None)) as other:
            other.execute("PRAGMA locking_mode = EXCLUSIVE")
            other.execute("BEGIN EXCLUSIVE")
            for words in self.commands:
                self.see(f"{words} beside a SQLite that holds the file", WORD, performed(words, files))
            other.execute("ROLLBACK")
        self.looked_at("a file that was held", files, {PLACED})

    def test_by_a_server(self):
        files = copied(self.made.placed, self.made.run)
        with server_of(files, len(REQUESTS) - PLACED) as (server, port):
            for words in self.commands:
                self.see(f"{words} beside a server that has the file", WORD, performed(words, files))
            with closing(sqlite3.connect(files / "car.db", timeout=0, isolation_level=None)) as other:
                try:
                    got = other.execute("DELETE FROM frames").rowcount
                except sqlite3.OperationalError as error:
                    got = str(error)
                self.see("another SQLite beside the server", "database is locked", got)
            for request in REQUESTS[PLACED:]:
                self.see("the server goes on", request.right, replied(port, request.data))
            self.see("the server ends", 0, server.wait(SECONDS))
        self.looked_at("a file that was held", files, {ALL})


def moved_there(files):
    os.rename(files / "other.db", files / "car.db")


def written_over(files):
    (files / "car.db").write_bytes((files / "other.db").read_bytes())


def without_log(files):
    (files / "car.db-wal").unlink()


def cut_log(files):
    os.truncate(files / "car.db-wal", os.path.getsize(files / "car.db-wal") - 512)


def cut_file(files):
    os.truncate(files / "car.db", os.path.getsize(files / "car.db") - 512)


def removed(files):
    (files / "car.db").unlink()


def replaced(name):
    """Another file with the same bytes, written at the same time, is put in the file's place."""

    def change(files):
        shutil.copy2(files / name, files / "same")
        os.rename(files / "same", files / name)

    return change


def rewritten(name):
    """The file is written once more with the bytes that it has."""
    return lambda files: (files / name).write_bytes((files / name).read_bytes())


@for_each([
    *((change.__name__, change) for change in (moved_there, written_over, without_log, cut_log, cut_file, removed)),
    *((f"{change.__name__}_{name}", change(name)) for change in (replaced, rewritten) for name in ("car.db", "car.db-wal")),
])
class Changed(FileCase):
    """Where other programs than SQLite change a server's file, the next request is Unavailable, or refused by its own text, and the server ends so.

    A register that was moved to its place is whole."""

    waits = True

    def beside_another(self):
        """The files of a register, beside which a new one stands."""
        files = copied(self.made.placed, self.made.run)
        (files / "other.db").unlink(missing_ok=True)
        self.see("another register", QUIETLY, performed(["create", "other.db", "cluster.toml"], files))
        return files

    def tried(self, change):
        for asked, right in (REQUESTS[PLACED].data, UNAVAILABLE), (STRANGE, NOT_YOURS):
            files = self.beside_another()
            with server_of(files, 3) as (server, port):
                self.see("a request before that", REQUESTS[PLACED].right, replied(port, REQUESTS[PLACED].data))
                time.sleep(AT_REST)
                change(files)
                self.see("a request", right, replied(port, asked))
                self.see("the server ends", 1, server.wait(SECONDS))
                self.see("it says why", b"slotplan: Unavailable\n", server.stderr.read())
            if change is moved_there:
                self.see("the register that was moved there", QUIETLY, performed(["variants", "car.db"], files))
            if change is without_log:
                self.looked_at("the log was removed", files, {PLACED + 1})

    def test_moved_there_during_a_request(self):
        """The request is answered, for the server looks behind it again. Then the server ends with Unavailable and takes no more, and the register
        that was moved there is a new one, whole."""
        files, holder = self.beside_another(), Stopper(self.folder)
        with server_of(files, 3, holder.holding()) as (server, port), ThreadPoolExecutor() as clients:
            self.see("a request before that", REQUESTS[PLACED].right, replied(port, REQUESTS[PLACED].data))
            time.sleep(AT_REST)
            holder.mark.touch()
            request = clients.submit(replied, port, REQUESTS[PLACED + 1].data)
            while not (holder.held.exists() or request.done()):
                time.sleep(0.001)
            self.see("a request is carried out", (True, False), (holder.held.exists(), request.done()))
            moved_there(files)
            holder.mark.unlink()
            holder.held.unlink()
            self.see("it is answered", REQUESTS[PLACED + 1].right, request.result())
            self.see("the next request finds no server", b"", replied(port, REQUESTS[PLACED + 2].data))
            self.see("the server ends", (1, b"slotplan: Unavailable\n"), (server.wait(SECONDS), server.stderr.read()))
        self.looked_at("the register that was moved there", files, {0})

    def test_log_behind_a_link(self):
        """A register to which a link leads has its log beside it, not beside the link, and a server sees that the log is cut."""
        files = copied(self.made.placed, self.made.run)
        (files / "car.db").rename(files / "real.db")
        (files / "car.db").symlink_to("real.db")
        with server_of(files, 3) as (server, port):
            self.see("a request over a link", REQUESTS[PLACED].right, replied(port, REQUESTS[PLACED].data))
            time.sleep(AT_REST)
            os.truncate(files / "real.db-wal", os.path.getsize(files / "real.db-wal") - 512)
            self.see("a request once the log is cut", UNAVAILABLE, replied(port, REQUESTS[PLACED + 1].data))
            self.see("the server ends", (1, b"slotplan: Unavailable\n"), (server.wait(SECONDS), server.stderr.read()))

    def test_moved_away_and_back(self):
        """A file that is moved away and back between two requests is the server's own."""
        files = copied(self.made.placed, self.made.run)
        with server_of(files, 2) as (server, port):
            self.see("a request", REQUESTS[PLACED].right, replied(port, REQUESTS[PLACED].data))
            time.sleep(AT_REST)
            os.rename(files / "car.db", files / "away.db")
            os.rename(files / "away.db", files / "car.db")
            self.see("one more", REQUESTS[PLACED + 1].right, replied(port, REQUESTS[PLACED + 1].data))
            self.see("the server ends", (0, b""), (server.wait(SECONDS), server.stderr.read()))
