"""Tests that start the program with words, give it something on standard input, and compare how it ends."""
import os
import subprocess
from itertools import zip_longest
from typing import NamedTuple, Sequence

from tests.models.scripts import answers, script
from tests.runner.case import Case

from .program import program

# How many seconds one may take.
SECONDS = 120


class Invocation(NamedTuple):
    """How the program is started, and what is then wanted of it."""

    name: str
    given: bytes = b""  # on standard input
    written: bytes = b""  # on standard output
    said: bytes = b""  # on standard error
    status: int = 0
    words: Sequence = ("run",)
    line: str = 'exec "$@"'  # the shell's line, in which "$@" is the program with its words
    is_read: bool = True  # whether standard output has a reader


def faulty(name, given, word, **more):
    return Invocation(name, given, said=f"slotplan: {word}\n".encode(), status=1, **more)


def answered(name, cluster, pairs):
    """A script over this cluster of pairs of a request and its answer."""
    pairs = list(pairs)
    return Invocation(name, script(cluster, pairs), answers(pairs))


class InvocationCase(Case):
    """A test of how the program ends: status, what it writes and what it says are compared with what is wanted. Each invocation is one check."""

    def ends(self, *invocations):
        for it in invocations:
            self.see(it.name, [], differences(it, self.folder))


def unread_pipe():
    reader, writer = os.pipe()
    os.close(reader)
    return os.fdopen(writer, "wb", buffering=0)


def ended(it, folder):
    """The status, and what was written and said."""
    output = subprocess.PIPE if it.is_read else unread_pipe()
    line = ["sh", "-c", it.line, "sh", program(), *it.words]
    got = subprocess.run(line, cwd=folder, input=it.given, stdout=output, stderr=subprocess.PIPE, timeout=SECONDS)
    return got.returncode, got.stdout or b"", got.stderr


def difference(what, wanted, got):
    """The first line in which two texts differ, if they do."""
    if wanted == got:
        return []
    both = zip_longest(wanted.split(b"\n"), got.split(b"\n"))
    at, line, other = next((at, line, other) for at, (line, other) in enumerate(both, 1) if line != other)
    return [f"{what}, line {at}: wanted {str(line)[:200]}, got {str(other)[:200]}"]


def differences(it, folder):
    try:
        status, written, said = ended(it, folder)
    except (OSError, subprocess.TimeoutExpired) as error:
        return [str(error)[:200]]
    wrong = [] if status == it.status else [f"status: wanted {it.status}, got {status}"]
    return [*wrong, *difference("standard output", it.written, written), *difference("standard error", it.said, said)]
