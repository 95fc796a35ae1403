"""Pages for people, as a reader follows them: files that are saved, and blocks of the console, with commands and what each prints."""
import re

BLOCK = re.compile(r"(?P<before>[^\n]*)\n\n```(?P<kind>\w+)\n(?P<text>.*?)```\n", re.DOTALL)
SAVED = re.compile(r"Save this as `([\w.]+)`:")


def commands(block):
    """The commands of a block, each with the lines behind it."""
    for step in re.split(r"^\$ ", block, flags=re.MULTILINE)[1:]:
        command, _, printed = step.partition("\n")
        yield command, printed


def blocks_left_out(page):
    """How many blocks of the console are not followed: each needs a line of text before it."""
    return page.count("```console\n") - sum(found["kind"] == "console" for found in BLOCK.finditer(page))
