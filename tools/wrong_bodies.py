"""Wrong bodies that are tried at once: which functions an edit changes, which edits go together, and what one `rt check` says of each

A function's proof rests on its own body and on the contracts of what it calls. So one check judges edits of the bodies of different functions, each
with a contract: an edit is refused where a goal of a function that it changed is not proved. An edit that is checked alone is refused where any goal
is not proved. What is not clear so is left to `rt must-fail`."""
import re
from typing import NamedTuple

HEAD = re.compile(r"( *)(?:pub(?:\(\w+\))? )?(?:const )?fn (\w+)")
IMPL = re.compile(r"impl (?:(?:\w+::)*(\w+) for )?(?:\w+::)*(\w+)\b")
# A line with one of these may be part of a contract, also of a closure's.
CLAUSE = re.compile(r"\b(ensures|requires|ghost|invariant)\b")
# What `rt check` says of a function, of one whose callees are not proved, of a goal that its search left open, and of one that a proof file does not
# prove.
FUNCTION = re.compile(r"fn (\S+): ")
UNTRIED = re.compile(r"note: `search` has not tried the goals of `([^`]+)`")
OPEN = re.compile(r"note: (src/[^\s:]+):(\d+):\d+: it is not proved .*?\(`([^`]+)`\)")
ERROR = re.compile(r"(?:\./)?([^\s:]+)/[^\s:/]+:\d+:\d+: error(?:\[[\w-]+\])?: (?:unsolved \?\d+ in )?(?:`([^`]+)`(?:: | is not admitted: ))?")
# As `rt must-fail` has it: a proof file names what an edit took away. And what rests on a goal that was told already, and words for limits of the
# prover's own, by which it gives no verdict.
GONE = re.compile(r"has no field|is not in scope|has no `|was not admitted")
RESTS = re.compile(r"error: \d+ declarations? that depends? on .*, which (was|were) rejected")
LIMIT = re.compile(r"antt ran out of |outgrew the memory limit|stopped at the step limit")
# The line of a verdict that a crate is not proved.
UNPROVED = "logic=not-proved"


class Body(NamedTuple):
    """A function's body: its file, the lines of its attributes and its end, counted from 1, and a pattern of the names that `rt check` has for it and
    its closures."""

    file: str
    first: int
    last: int
    named: str

    def holds(self, place):
        """Whether a goal at this place, a function or a line of a file, is the function's own."""
        if isinstance(place, str):
            return re.fullmatch(self.named, place) is not None
        return place[0] == self.file and self.first <= place[1] <= self.last


class Edit(NamedTuple):
    """An edit: what it makes of which lines, and the bodies that they stand in. With no bodies it is tried alone."""

    name: str
    lines: dict
    bodies: frozenset


def read_edit(path, crate):
    """The edit in the file, of the crate in that folder. One that cannot be applied changes no line."""
    was, texts, file, old = {}, {}, None, None
    for line in path.read_text().split("\n"):
        word, _, said = line.partition(":")
        said = said.removeprefix(" ")
        if word == "file":
            file = said.strip()
            if file not in texts:
                was[file] = texts[file] = (crate / file).read_text() if (crate / file).is_file() else ""
        elif word == "old":
            old = said
        elif word == "new":
            if not file or not old or texts[file].count(old) != 1:
                return Edit(path.name, {}, frozenset())
            texts[file] = texts[file].replace(old, said)
    lines, bodies = {}, set()
    for file, text in texts.items():
        before = was[file].split("\n")
        for number, (one, other) in enumerate(zip(before, text.split("\n"))):
            if one != other:
                lines[file, number] = other
                bodies.add(None if CLAUSE.search(f"{one} {other}") else body_at(crate.name, file, before, number))
    return Edit(path.name, lines, frozenset() if None in bodies else frozenset(bodies))


def body_at(crate, file, lines, number):
    """The innermost body around a line, by the layout of rt fmt; None where there is none, where its function has no contract, and where `rt check`
    may have another name for it."""
    for first in range(number, -1, -1):
        head = HEAD.match(lines[first])
        if head and file.startswith("src/"):
            begins = re.compile(rf"{head[1]}(\S.*)?\{{")
            opens = next((it for it in range(first, len(lines)) if begins.fullmatch(lines[it])), len(lines))
            closes = next((it for it in range(opens, len(lines)) if lines[it] == head[1] + "}"), opens)
            if number <= opens:
                return None
            if number < closes:
                owner = owner_of(lines, first)
                # (a method of a trait has the trait's contract)
                has_contract = owner and owner.endswith("*::") or any(it.strip().startswith("ensures") for it in lines[first:opens])
                # (a method stands in its type's module, wherever the impl is)
                modules = r"(?:\w+::)*" if owner else "".join(f"{it}::" for it in file[4:-3].split("/") if it not in ("lib", "main", "mod"))
                named = rf"{crate}::{modules}(?:{owner}{head[2]}|fn::{owner}{head[2]}::.*)"
                while first and lines[first - 1] and not lines[first - 1].endswith(("{", "}", ";")):
                    first -= 1
                return Body(file, first + 1, closes + 1, named) if has_contract and owner is not None else None
    return None


def owner_of(lines, first):
    """What stands in a function's name before its own: the type whose method it is, and the trait, with what that is of."""
    if not lines[first].startswith(" "):
        return ""
    top = next((it for it in range(first, -1, -1) if re.match(r"\w", lines[it]) and not lines[it].startswith("where")), 0)
    header = " ".join(lines[top:first]).partition("{")[0].replace("->", "")
    while header != (header := re.sub(r"<[^<>]*>", "", header)):
        pass
    found = IMPL.match(header)
    return found and (rf"{found[2]}{found[1]}\w*::" if found[1] else rf"{found[2]}(?:\+[\w+]*)?::")


def groups(edits):
    """Puts each edit into the first group that changes no body that it changes."""
    made = []
    for edit in edits:
        room = next((it for it in made if not any(edit.bodies & other.bodies for other in it)), None)
        if room is None:
            made.append([edit])
        else:
            room.append(edit)
    return made


def texts_with(crate, group):
    """The texts of the files that the edits change, with all of them."""
    texts = {}
    for edit in group:
        for (file, number), line in edit.lines.items():
            texts.setdefault(file, (crate / file).read_text().split("\n"))[number] = line
    return {file: "\n".join(lines) for file, lines in texts.items()}


class Goal(NamedTuple):
    """A goal that is not proved: of which function or at which line of a file, and whether only since a proof names what an edit took away."""

    place: str | tuple
    name: str
    is_gone: bool = False


class Told(NamedTuple):
    """What a check says of an edit: by which goals of which functions it is refused, and whether that is all since proofs name what it took away."""

    goals: str
    is_gone: bool


class NotJudged(Exception):
    """A check says nothing of its edits, for this reason."""


def failed_goals(said, crate):
    """The goals that a check did not prove, where it came to a verdict, and met no limit of its own."""
    lines, goals = said.split("\n"), []
    for line, after in zip(lines, [*lines[1:], ""]):
        if found := OPEN.match(line):
            goals.append(Goal((found[1], int(found[2])), found[3]))
        elif (found := ERROR.match(line)) and not RESTS.search(line):
            # (the words may stand at the begin of the line below)
            is_gone = (GONE.search(line) or GONE.match(after.strip())) is not None
            if LIMIT.search(line) or not found[1].startswith("proofs") or not is_gone and not (found[1].startswith("proofs/") and found[2]):
                raise NotJudged(f"this is no goal of a function: {line:.200}")
            # (a recursion's measure stands in a folder whose name has a + before the function's)
            goals.append(Goal("::".join([crate, *found[1].replace("/+", "/").split("/")[1:]]), found[2], is_gone))
    if not any(it.startswith(UNPROVED) for it in lines):
        raise NotJudged(f"it came to no verdict: {said.strip()[-200:]}")
    return goals


def told_of(said, crate, group):
    """What a check says of the edits of a group, by their names. It does not judge them where a goal is not proved of a function that none of them
    changed."""
    goals = failed_goals(said, crate)
    bodies = {body for edit in group for body in edit.bodies}
    for goal in goals:
        if not goal.is_gone and not any(body.holds(goal.place) for body in bodies):
            raise NotJudged(f"no edit changed that whose goal {goal.name} is not proved: {goal.place}")
    names, untried = ({found[1] for found in map(it.match, said.split("\n")) if found} for it in (FUNCTION, UNTRIED))
    told = {}
    for edit in group:
        for body in edit.bodies:
            called = [it for it in names if body.holds(it) and "::fn::" not in it]
            own = [it for it in goals if body.holds(it.place)]
            failed = dict.fromkeys(it.name for it in own if not it.is_gone)
            also = " (a proof also names what is gone)" if any(it.is_gone for it in own) else ""
            # (where two functions share a name, it is not known which of them was changed)
            if failed and len(called) == 1:
                told[edit.name] = Told(f"{called[0]}: {', '.join(failed)}{also}", False)
            elif own and len(called) == 1 and not any(map(body.holds, untried)) and len(edit.bodies) == 1:
                told[edit.name] = Told(f"{called[0]}: {', '.join(dict.fromkeys(it.name for it in own if it.name))}", True)
    return told


def told_alone(said, crate):
    """What a check says of the one edit that it was made with: the goals that are not proved, of whichever functions."""
    goals = failed_goals(said, crate)
    failed = [it for it in goals if not it.is_gone]
    names = dict.fromkeys(f"{place_of(it)}, {it.name}" for it in failed or goals)
    if not names:
        raise NotJudged("it names no goal that is not proved")
    return Told("; ".join(names), not failed)


def place_of(goal):
    """Where a goal stands, in words."""
    return goal.place if isinstance(goal.place, str) else ":".join(map(str, goal.place))
