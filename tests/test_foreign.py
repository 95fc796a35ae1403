"""The built program, given files that are no register of its own making.

Each command ends within ten seconds, never by a signal, with an answer or a word. Places and values of changed bytes are drawn with a fixed seed."""
import json
import random
import sqlite3
from contextlib import closing
from itertools import islice

from tests.drivers.states import ALL, BODY, BOOKS, NOTHING, SECONDS, StateCase, copied, count_in, performed, replied, server_of
from tests.models import schema1
from tests.models.messages import command, head, refused
from tests.runner.case import TURN
from tests.runner.parameters import for_each

SEED = 20_240_229
CHANGES, OLD_CHANGES = 2_000, 500
PIECE = 512

SCHEDULE, GAPS = ["schedule", "car.db", "v1"], ["gaps", "car.db", "v1"]
IMPORT = ["import", "car.db", "supplier01", "v1", "a", "signals.csv"]
OTHER_IMPORT = ["import", "car.db", "supplier01", "v1", "a", "other.csv"]
SERVE, CREATE, MIGRATE = ["serve", "car.db", "1024"], ["create", "car.db", "cluster.toml"], ["migrate", "car.db"]
OPENING = SCHEDULE, GAPS, ["variants", "car.db"], ["picture", "car.db", "v1"], ["ask", "car.db"], IMPORT, SERVE
FILES = "car.db", "car.db-wal"
WORDS = {f"slotplan: {word}\n".encode() for word in ("NotARegister", "WrongSchema", "Unavailable")}
QUIETLY = 0, b"", b""


def fault(word):
    return 1, b"", f"slotplan: {word}\n".encode()


class ForeignCase(StateCase):
    """A test of what each command says of a file."""

    def said_of(self, what, files, word):
        """Each command says this word, and leaves the file; one without a byte becomes a database without a table."""
        before = (files / "car.db").read_bytes()
        for words in OPENING:
            self.see(f"{words} of {what}", fault(word), performed(words, files))
        # What is a register by its number is not of the schema that is migrated.
        self.see(f"{MIGRATE} of {what}", fault("NotARegister" if word == "NotARegister" else "WrongSchema"), performed(MIGRATE, files))
        if before:
            self.see(f"{what} stays", before, (files / "car.db").read_bytes())
        else:
            self.see(f"{what}: no table is there", NOTHING, count_in(files))

    def changed(self, change):
        """A register with its frame placed, in which another SQLite did this."""
        files = copied(self.made.placed, self.made.run)
        with closing(sqlite3.connect(files / "car.db")) as file, file:
            file.execute(change)
        return files


# ---- files that are no register, and registers with rows of another form


@for_each([
    ("no_bytes", b""),
    ("100_bytes", b"x" * 100),
    ("many_bytes", b"x" * 100_000),
    ("zeros", bytes(8192)),
    ("a_head_alone", b"SQLite format 3\0"),
])
class NoRegister(ForeignCase):
    """Of what holds no register each command says so, and leaves its bytes."""

    def tried(self, data):
        files = self.made.run
        (files / "car.db").write_bytes(data)
        self.said_of("it", files, "NotARegister")
        if data:
            self.see("create over it", fault("Unavailable"), performed(CREATE, files))
            self.see("it stays under that", data, (files / "car.db").read_bytes())

    def test_other_tables(self):
        files = self.made.run
        with closing(sqlite3.connect(files / "car.db")) as file:
            file.execute("CREATE TABLE t (x)")
        self.said_of("a database with one other table", files, "NotARegister")
        with closing(sqlite3.connect(files / "car.db")) as file, file:
            file.execute("CREATE TABLE register (id INTEGER NOT NULL PRIMARY KEY CHECK (id = 1), schema INTEGER NOT NULL) STRICT")
        self.said_of("a database whose register has no row", files, "NotARegister")

    def is_none(self):
        for words in *OPENING, MIGRATE:
            ended = performed(words, self.made.run)
            self.see(f"{words} of it", True, ended in (fault("NotARegister"), fault("Unavailable")) or ended)

    def test_folder(self):
        (self.made.run / "car.db").mkdir()
        self.is_none()

    def test_link_that_leads_nowhere(self):
        (self.made.run / "car.db").symlink_to("nowhere/car.db")
        self.is_none()

    def test_device(self):
        (self.made.run / "car.db").symlink_to("/dev/null")
        self.is_none()


# Changes after which the rows of the cluster have not their form, and those after which the rows of the suppliers have not theirs.
OF_THE_CLUSTER = {
    "no row of the cluster": "DELETE FROM cluster2",
    "a channel that is none": "UPDATE cluster2 SET channels = 'C'",
    "one static slot": "UPDATE cluster2 SET static_slots = 1",
    "a negative number": "UPDATE cluster2 SET payload_words = -1",
    "a wrong sum": "UPDATE cluster2 SET macroticks_per_cycle = 101",
    "an odd number of cycles": "UPDATE cluster2 SET cycles = 63",
    "a number past 2 to the 32": "UPDATE cluster2 SET static_slots = 4294967300",
    "a short key": "UPDATE cluster2 SET integrator = 'short'",
    "the key of the integrator twice": "UPDATE cluster2 SET integrator = 'supplier01'",
}
OF_THE_SUPPLIERS = {
    "a supplier without a name": "UPDATE suppliers SET name = '' WHERE name = 's2'",
    "a supplier with no name": "UPDATE suppliers SET name = '2s' WHERE name = 's2'",
    "a supplier with a short key": "UPDATE suppliers SET key = 'short' WHERE name = 's2'",
    "a name that is not UTF-8": "UPDATE suppliers SET name = CAST(x'ff' AS TEXT) WHERE name = 's2'",
    "a name with a zero": "UPDATE suppliers SET name = CAST(x'733200' AS TEXT) WHERE name = 's2'",
    "65 suppliers": "WITH RECURSIVE n(i) AS (SELECT 3 UNION ALL SELECT i + 1 FROM n WHERE i < 65) "
    "INSERT INTO suppliers SELECT 's' || i, 'supplier' || (100 + i) FROM n",
}


@for_each([*OF_THE_CLUSTER.items(), *OF_THE_SUPPLIERS.items()])
class OtherForms(ForeignCase):
    """Of a register whose cluster or suppliers have not their form, or of another schema, each command says so, and leaves its bytes."""

    def tried(self, change):
        files = self.changed(change)
        self.said_of("it", files, "Unavailable")
        self.see("create over it", fault("NotEmpty"), performed(CREATE, files))

    def test_another_schema(self):
        self.said_of("another schema", self.changed("UPDATE register SET schema = 7"), "WrongSchema")

    def test_other_tables(self):
        for change in "DROP TABLE dropped", "CREATE TABLE more (x)", "CREATE INDEX named ON frames (name)", "ALTER TABLE nodes ADD COLUMN more TEXT":
            files = self.changed(change)
            self.see(f"after {change}", set(), {performed(words, files) for words in OPENING} - {fault("Unavailable"), fault("NotARegister")})


@for_each(OF_THE_SUPPLIERS.items())
class OldForms(ForeignCase):
    """A register of schema 1 whose suppliers have not their form is not opened, whether it was migrated before or could not be."""

    def tried(self, change):
        files = self.made.run
        schema1.filled(files / "car.db", BOOKS[ALL], more=[change])
        ended = performed(MIGRATE, files)
        self.see("the migration", True, ended in (fault("Unavailable"), QUIETLY) or ended)
        self.see("the register then", fault("Unavailable" if ended[0] == 0 else "WrongSchema"), performed(SCHEDULE, files))


# ---- a register's files cut and changed


def is_answered(ended):
    """Whether a command ended with an answer or a word."""
    status, written, said = ended
    return (status == 0 and said == b"") or (status == 1 and written == b"" and (said in WORDS or is_refusal(said)))


def is_refusal(said):
    try:
        return "refused" in json.loads(said)
    except ValueError:
        return False


def cuts(data):
    """A file's bytes, cut at each multiple of 512."""
    for end in range(0, len(data), PIECE):
        yield f"cut behind {end} bytes", data[:end]


def in_use(data):
    """Where it is not zero, as most bytes are that are not in use."""
    return [at for at, byte in enumerate(data) if byte]


def changed(data, at, by):
    return f"with byte {at} changed by {by}", data[:at] + bytes([data[at] ^ by]) + data[at + 1 :]


class HarmedCase(StateCase):
    """A test of files that are cut or changed, of which every so many is tried."""

    is_apart = True
    step = 20

    def setUp(self):
        super().setUp()
        self.files = self.made.run
        (self.files / "other.csv").write_bytes(BODY.replace(b"x", b"y"))

    def every(self, cases):
        return islice(cases, TURN % self.each, None, self.each)

    def harm(self, base, name, data):
        """The files are those of this register, one of them with these bytes."""
        copied(base, self.files)
        (self.files / name).write_bytes(data)


class Harmed(HarmedCase):
    """Where a register's file or its log is cut or changed, each command ends with an answer or a word, and what it answers as done is there."""

    def each_is_answered(self, cases):
        """Every fourth is given to a server, the others to commands."""
        done = tried = 0
        for tried, (base, name, (what, data)) in enumerate(self.every(cases), 1):
            self.harm(base, name, data)
            if tried % 4 == 0:
                self.served(f"{name} of {base.name} {what}")
            else:
                done += self.asked(f"{name} of {base.name} {what}")
        print(f"{tried} files tried, {done} imports answered as done", flush=True)
        self.see("files were tried", True, tried > 0)

    def asked(self, what):
        """Each command is given the files as they are; what the import answers as done is there for each that comes after it."""
        kept = copied(self.files, self.files / "kept")
        for words in SCHEDULE, GAPS:
            ended = performed(words, copied(kept, self.files))
            self.see(f"{what}: {words[0]}", True, is_answered(ended) or ended)
        ended = performed(IMPORT, copied(kept, self.files))
        self.see(f"{what}: import", True, is_answered(ended) or ended)
        if ended[0] != 0:
            return 0
        self.see(f"{what}: the import that was answered is kept", (1, b"", refused(9, "LabelUsed") + b"\n"), performed(OTHER_IMPORT, self.files))
        self.see(f"{what}: it comes again", ended, performed(IMPORT, self.files))
        return 1

    def served(self, what):
        """A server is given the files as they are; a frame that it answers as added is there when it is started again."""
        frame = "g1"
        add = command("supplier01", b'{"do":"add_frame","variant":"v1","frame":"g1","node":"n1"}')
        frames = head("GET", "/v1/variants/v1/frames", "supplier01")
        with server_of(self.files, 2) as (server, port):
            if port is None:
                ended = server.wait(SECONDS), server.stderr.read()
                return self.see(f"{what}: a server that does not listen", True, (ended[0] == 1 and ended[1] in WORDS) or ended)
            added, shown = replied(port, add), replied(port, frames)
            ended = server.wait(SECONDS), server.stderr.read()
        are_replies = added.startswith(b"HTTP/1.1 ") and shown.startswith(b"HTTP/1.1 ")
        self.see(f"{what}: the server", True, (are_replies and ended == (0, b"")) or (added, shown, ended))
        if not added.startswith(b"HTTP/1.1 200 OK"):
            return None
        with server_of(self.files, 1) as (_, port):
            self.see(f"{what}: the register is opened again", True, port is not None)
            if port:
                again = replied(port, frames)
                self.see(f"{what}: the frame that was added", True, f"FRAME {frame} n1\n".encode() in again or again)

    def cut(self, base):
        """The register's files, of which one is cut."""
        return ((base, name, case) for name in FILES for case in cuts((base / name).read_bytes()))

    def test_cut(self):
        """The files of a register that was closed."""
        self.each_is_answered(self.cut(self.made.placed))

    def test_cut_with_log(self):
        """Those of a register with requests in its log."""
        self.each_is_answered(self.cut(self.made.logged))

    def changes(self):
        """The register's files, of which one has one byte changed: the file that was closed, the one that has a log, and the log, in
        turn; anywhere, or where it is not zero."""
        chance = random.Random(SEED)
        files = [(self.made.placed, "car.db"), (self.made.logged, "car.db"), (self.made.logged, "car.db-wal")]
        all_data = [(base / name).read_bytes() for base, name in files]
        used = [in_use(data) for data in all_data]
        for turn in range(CHANGES):
            (base, name), data = files[turn % 3], all_data[turn % 3]
            at = chance.choice(used[turn % 3]) if turn // 3 % 2 else chance.randrange(len(data))
            yield base, name, changed(data, at, chance.randrange(1, 256))

    def test_changed(self):
        self.each_is_answered(self.changes())


class HarmedOld(HarmedCase):
    """Where the file of a register of schema 1 is cut or changed, it is migrated or gets a word, and is then answered or gets a word."""

    def each_is_migrated(self, cases):
        done = tried = 0
        for tried, (what, data) in enumerate(self.every(cases), 1):
            self.harm(self.made.old, "car.db", data)
            done += self.asked_to_migrate(what)
        print(f"{tried} files tried, {done} migrated", flush=True)
        self.see("files were tried", True, tried > 0)

    def asked_to_migrate(self, what):
        ended = performed(MIGRATE, self.files)
        self.see(f"{what}: migrate", True, ended == QUIETLY or (is_answered(ended) and ended[1] == b"") or ended)
        shown = performed(SCHEDULE, self.files)
        self.see(f"{what}: the schedule once it was to be migrated", True, is_answered(shown) or shown)
        if ended[0] == 0:
            self.see(f"{what}: migrated again", fault("WrongSchema"), performed(MIGRATE, self.files))
        return int(ended[0] == 0)

    def changes(self, data):
        chance, used = random.Random(SEED), in_use(data)
        for turn in range(OLD_CHANGES):
            at, by = chance.choice(used) if turn % 2 else chance.randrange(len(data)), chance.randrange(1, 256)
            yield changed(data, at, by)

    def test_cut(self):
        self.each_is_migrated(cuts((self.made.old / "car.db").read_bytes()))

    def test_changed(self):
        self.each_is_migrated(self.changes((self.made.old / "car.db").read_bytes()))
