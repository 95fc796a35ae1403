"""Tests of the program over register files."""
import sqlite3
from contextlib import closing, contextmanager

from tests.models.messages import CLUSTER, FIRST_ANSWERS, REQUESTS
from tests.runner.case import Case

from .program import SECONDS, program, ran, ran_line
from .server import listens_on, sent, started


class RegisterCase(Case):
    """A test whose folder has the first script's cluster file, and the checks that tests of register files share."""

    cluster = CLUSTER

    def setUp(self):
        super().setUp()
        self.program = program()
        (self.folder / "cluster.toml").write_bytes(self.cluster)

    def tell(self, words, written=b"", said=b"", status=0, given=None, more=None):
        """The program that is started with these words writes, says and ends as is wanted."""
        self.see(f"slotplan {' '.join(words)}", (status, written, said), ran(words, self.folder, given, more))

    def fault(self, words, word, more=None):
        """It ends with this fault."""
        self.tell(words, said=f"slotplan: {word}\n".encode(), status=1, more=more)

    def turned_down(self, words, answer, more=None):
        """It ends with this refusal."""
        self.tell(words, said=answer + b"\n", status=1, more=more)

    def create(self, db="car.db", cluster="cluster.toml"):
        self.tell(["create", db, cluster])

    def plan(self, db="car.db"):
        """A register that was asked the first script's requests: `f1` of `s1` is sent in cycle 0, slot 1, on channel A of `v1`."""
        self.create(db)
        self.ask(REQUESTS, FIRST_ANSWERS, db=db)

    def ask(self, given, written=b"", said=b"", status=0, db="car.db"):
        """These bytes are asked of the register, and answered so."""
        self.see(f"slotplan ask {given[:200]!r}", (status, written, said), ran(["ask", db], self.folder, given))

    def shell(self, line, given=b""):
        """How this line of the shell ends, in which "$1" is the program."""
        return ran_line(line, self.folder, given)

    @contextmanager
    def served(self, *more, db="car.db", env=None):
        """A server of the register that listens, and its port."""
        with started(self.folder, *more, db=db, env=env) as (server, line, port):
            self.see("the server listens", listens_on(port), line)
            yield server, port

    def in_turn(self, db, lines):
        """The register is opened, and replies to these requests, one after another, as is wanted."""
        with self.served("--count", str(len(lines)), db=db) as (server, port):
            for data, wanted in lines:
                self.see(f"over {db} to {data[:200]!r}", wanted, sent(port, data))
            self.ends(server)

    def ends(self, server):
        self.see("the server ends", 0, server.wait(SECONDS))

    def rows(self, query, db="car.db"):
        """What another SQLite, that of python3, finds in the file."""
        with closing(sqlite3.connect(self.folder / db)) as file:
            return file.execute(query).fetchall()

    def sound(self, db="car.db"):
        self.see("the file is sound to SQLite", [("ok",)], self.rows("PRAGMA integrity_check", db))
        self.see("its keys are sound too", [], self.rows("PRAGMA foreign_key_check", db))
