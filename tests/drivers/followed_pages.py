"""Follows a page for people, as its reader does: python3 -m tests.drivers.followed_pages PAGE writes the page with what its commands print now

A block behind the words "Save this as `NAME`:" is saved under that name. In a block of the console each line that begins with
'$ ' is a command, and the lines behind it are what it prints. All commands of a page run in one shell, in a folder that begins
empty, those of README and HTTP with examples/ in it."""
import select
import shutil
import subprocess
import sys
import tempfile
import time
from pathlib import Path
from typing import NamedTuple

from clients import archive
from tests import TOP
from tests.models.pages import BLOCK, SAVED, commands

from .program import program
from .server import TRIES, free_port

PORT = "8080"
SECONDS = 30
# What of the repository lies in the folder where a page begins.
THERE = {
    "README.md": ("examples",),
    "docs/HTTP.md": ("examples",),
    "clients/README.md": ("examples", "clients"),
    "clients/AUTOSAR.md": ("examples",),
    "clients/FIBEX.md": ("examples",),
    "clients/wireshark/README.md": ("examples", "clients"),
}


class Step(NamedTuple):
    """A command of a page, what stands behind it there, and what it prints now."""

    command: str
    wanted: str
    printed: str


class Shell:
    """A shell that stays for all commands."""

    def __init__(self, folder):
        (folder.parent / "bin").mkdir()
        (folder.parent / "bin/slotplan").symlink_to(Path(program()).resolve())
        (folder.parent / "bin/python3").symlink_to(sys.executable)
        archive.make(folder.parent / "bin/slotplan-plans")
        path = f"{folder.parent}/bin:/usr/local/bin:/usr/bin:/bin"
        self.shell = subprocess.Popen(
            ["bash", "--norc"], cwd=folder, env={"PATH": path, "LC_ALL": "C"}, stdin=subprocess.PIPE, stdout=subprocess.PIPE, stderr=subprocess.STDOUT, bufsize=0
        )

    def run(self, command):
        """What the command prints. One that stays in the background is waited for until it has printed a line."""
        mark = "== that is all =="
        behind = command.endswith("&")
        self.shell.stdin.write(f"{command}\nprintf '{mark}\\n'\n".encode())
        said, end = b"", time.monotonic() + SECONDS
        while time.monotonic() < end:
            if select.select([self.shell.stdout], [], [], 0.2)[0]:
                more = self.shell.stdout.read(65536)
                if not more:
                    break
                said += more
            text = said.decode().replace(f"{mark}\n", "")
            if f"{mark}\n".encode() in said and (text or not behind):
                return text
        return said.decode() + "(no end)\n"

    def close(self):
        """Ends the shell and what it left in the background."""
        self.shell.stdin.write(b"kill $(jobs -p) 2> /dev/null\nexit\n")
        self.shell.stdin.close()
        self.shell.wait(SECONDS)
        self.shell.stdout.close()


def follow(page, there=()):
    """Follows the page, in a folder where this is there, and anew where a server's port was somebody else's. Gives it with what was printed, and its steps."""
    for _ in range(TRIES):
        text, steps = follow_on(str(free_port()), page, there)
        if not any("CannotListen" in step.printed and "CannotListen" not in step.wanted for step in steps):
            break
    return text, steps


def follow_on(port, page, there):
    """Follows the page once, with this port in place of its own."""
    steps = []
    with tempfile.TemporaryDirectory(prefix="slotplan-page-") as at:
        folder = Path(at) / "plan"
        folder.mkdir()
        for name in there:
            shutil.copytree(TOP / name, folder / name)
        shell = Shell(folder)

        def followed(found):
            name = SAVED.search(found["before"])
            if name:
                (folder / name[1]).write_text(found["text"])
            if found["kind"] != "console":
                return found[0]
            text = ""
            for command, wanted in commands(found["text"]):
                printed = shell.run(command.replace(PORT, port)).replace(port, PORT)
                steps.append(Step(command, wanted, printed))
                text += f"$ {command}\n{printed}"
            return f"{found['before']}\n\n```console\n{text}```\n"

        try:
            return BLOCK.sub(followed, page), steps
        finally:
            shell.close()


def main(path):
    text, _ = follow(path.read_text(), THERE.get(str(path), ()))
    print(text, end="")


if __name__ == "__main__":
    if len(sys.argv) != 2:
        sys.exit(__doc__)
    main(Path(sys.argv[1]))
