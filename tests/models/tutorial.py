"""What docs/TUTORIAL.md has its reader save, ask and see. The tests of the page do the same by mouse and keys, and want the same of the register."""
import json
import re

from tests import TOP

from .pages import BLOCK, SAVED, commands

PAGE = (TOP / "docs/TUTORIAL.md").read_text()
COMMAND = re.compile(r"call (\w+) commands -d '(.*)'")
IMPORT = re.compile(r"call (\w+) variants/(\w+)/imports/(\w+) --data-binary @([\w.]+)")
# The keys of the tutorial's people.
BOSS, BRAKES, STEERING, LIGHTS = "integrator1", "brakesKey1", "steerKey1", "lightsKey1"


def saved(name):
    """The file that is saved under this name."""
    return next(block["text"] for block in BLOCK.finditer(PAGE) if (found := SAVED.search(block["before"])) and found[1] == name)


def printed(command):
    """What the command prints that is typed so, or else the first that begins so."""
    blocks = [block["text"] for block in BLOCK.finditer(PAGE) if block["kind"] == "console"]
    found = [(typed, said) for block in blocks for typed, said in commands(block) if typed.startswith(command)]
    return next((said for typed, said in found if typed == command), found[0][1])


def requests(heading):
    """All that is asked before this heading, as lines of a script: what is refused there too."""
    before = PAGE[: PAGE.index(f"\n## {heading}")]
    lines = saved("grants.txt").splitlines()
    wheels = saved("wheels.csv")
    for block in (block["text"] for block in BLOCK.finditer(before) if block["kind"] == "console"):
        for typed, said in commands(block):
            if found := COMMAND.match(typed):
                lines.append(f"{found[1]} {found[2]}")
            elif found := IMPORT.match(typed):
                body = wheels if "BadRow" in said else re.sub("wheel_faults.*\n", "", wheels)
                lines.append(f"{found[1]} {json.dumps({'do': 'import', 'variant': found[2], 'label': found[3], 'body': body})}")
    return "\n".join(lines) + "\n"
