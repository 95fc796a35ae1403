"""What the help of the program's commands says, as data: each command with its arguments and options. Manual pages and completions are made of it."""
import re
import subprocess
from typing import NamedTuple

SECTION = re.compile(r"^(Commands|Arguments|Options):\n((?:  .*\n)+)", re.M)
ROW = re.compile(r"^ +(?:(-\w), |)(--[\w-]+)?(?: ?[<[](\w+)[>\]])?  +(.*)$", re.M)
COMMAND = re.compile(r"^  (\w+) +(.*)$", re.M)
# Where the words that may stand in a place are told, as "Which rows: frames, placements or signals".
CHOICE = re.compile(r": (\w+(?:, \w+)* or \w+)$")


class Place(NamedTuple):
    """An argument, or an option: its letter and its name, if it is one, the word for its value, if it has one, and what it is for."""

    letter: str
    option: str
    value: str
    about: str

    @property
    def choices(self):
        """The words of which one may stand there; none where other words may."""
        found = CHOICE.search(self.about)
        return re.split(r", | or ", found[1]) if found else []


class Help(NamedTuple):
    """The help of a command, or of the program itself, whose name is empty."""

    name: str
    about: str
    usage: str
    commands: list
    arguments: list
    options: list
    notes: str
    example: str


def printed(program, *words):
    """What the program prints when it is called with these words."""
    return subprocess.run([program, *words], stdin=subprocess.DEVNULL, stdout=subprocess.PIPE, text=True, check=True).stdout


def read(name, text):
    """The help that this text is."""
    about, _, behind = text.partition("\n\nUsage: ")
    usage, _, behind = behind.partition("\n")
    sections = {found[1]: found[2] for found in SECTION.finditer(behind)}
    notes, _, example = SECTION.sub("", behind).strip("\n").partition("Example")
    places = {title: [Place(*map(lambda it: it or "", row)) for row in ROW.findall(sections.get(title, ""))] for title in ("Arguments", "Options")}
    commands = COMMAND.findall(sections.get("Commands", ""))
    return Help(name, about, usage, commands, places["Arguments"], places["Options"], notes.strip(), example.partition("\n")[2])


def helps(program):
    """That of the program, and then that of each of its commands."""
    whole = read("", printed(program, "--help"))
    return [whole, *(read(name, printed(program, name, "--help")) for name, _ in whole.commands if name != "help")]
