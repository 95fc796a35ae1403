"""All wrong bodies: those that the gate tries (crates/NAME/must-fail) and those that it leaves out (crates/NAME/wrong-bodies).
In a copy of the tree the prover has to refuse each: at once with others what tools/wrong_bodies.py can tell apart, and the rest alone, with what was proved
of the crate as it stands, or from nothing where that comes to no verdict. With names of crates, theirs alone."""
import os
import re
import shutil
import subprocess
import sys
import tempfile
import time
from pathlib import Path

from tests import TOP
from tests.runner.steps import PROCESSORS

from .wrong_bodies import NotJudged, groups, read_edit, texts_with, told_alone, told_of

TRIED = re.compile(r"rt: must-fail \w+/(\S+\.edit): (.*)")
REFUSED = "refused, as it must be"
# What shows nothing of a contract.
NAMES = f"{REFUSED} (only because a proof file names what the edit took away"
WORK = "out/incremental"


def with_those_below(names):
    """The crates, and those that they stand on."""
    below = {}
    for line in (TOP / "crates.txt").read_text().splitlines():
        name, _, deps = line.partition("#")[0].partition(":")
        below[name.split(" ")[0]] = deps.split()
    found = set()
    while names := [it for it in names if it in below and it not in found]:
        found.update(names)
        names = [dep for it in names for dep in below[it]]
    return found


def copy_tree(room, names):
    """Copies what git tracks, or would, and what was proved before of these crates and those below, so that libraries are not proved again for it."""
    listed = subprocess.run(["git", "ls-files", "-z", "--cached", "--others", "--exclude-standard"], cwd=TOP, stdout=subprocess.PIPE, check=True)
    for name in filter(None, listed.stdout.decode().split("\0")):
        if (TOP / name).is_file():
            (room / name).parent.mkdir(parents=True, exist_ok=True)
            shutil.copy2(TOP / name, room / name)
    for name in with_those_below(names):
        if (TOP / f"crates/{name}/out").is_dir():
            shutil.copytree(TOP / f"crates/{name}/out", room / f"crates/{name}/out", symlinks=True)


def asked(words, folder):
    """What a command of the kit says."""
    how = {"stdin": subprocess.DEVNULL, "stdout": subprocess.PIPE, "stderr": subprocess.STDOUT, "text": True, "errors": "replace"}
    return subprocess.run(["rt", *words], cwd=folder, **how).stdout


def check(crate, group):
    """What a check says of the crate with all edits of the group. It begins with what was proved of the crate as it stands, as each other."""
    texts, kept = texts_with(crate, group), crate / "out/kept"
    were = {file: (crate / file).read_text() for file in texts}
    try:
        if (crate / WORK).is_dir():
            shutil.copytree(crate / WORK, kept, symlinks=True)
        for file, text in texts.items():
            (crate / file).write_text(text)
        # (each of several jobs reads all anew)
        return asked(["check", "--jobs", str(min(int(os.environ["RT_JOBS"]), len(group)))], crate)
    finally:
        for file, text in were.items():
            (crate / file).write_text(text)
        if kept.is_dir():
            shutil.rmtree(crate / WORK, ignore_errors=True)
            kept.rename(crate / WORK)


def try_at_once(crate, edits):
    """What is to be said of edits, by their names, as far as checks of several at once tell. A group that a check does not judge is tried by halves.
    Edits of which a check tells nothing are tried once more: it leaves out goals where a callee is not proved."""
    found = {}
    for least in 1, 2:
        waiting = [it for it in groups([it for it in edits if it.bodies and it.name not in found]) if len(it) >= least]
        while waiting:
            group = waiting.pop(0)
            try:
                told = told_of(check(crate, group), crate.name, group)
                print(f"{crate.name}: one check of {len(group)} edits tells of {len(told)}", flush=True)
                found.update({name: said_of(it) for name, it in told.items()})
            except NotJudged as why:
                print(f"{crate.name}: one check of {len(group)} edits judges none, since {why}", flush=True)
                if len(group) > 1:
                    waiting += [group[: len(group) // 2], group[len(group) // 2 :]]
    return found


def said_of(told):
    """What a check tells of an edit, in the words of `rt must-fail`."""
    return f"{NAMES}): {told.goals}" if told.is_gone else f"{REFUSED}: {told.goals}"


def try_alone(crate, edits):
    """What a check with each edit alone says of it, by its name, as far as it comes to a verdict."""
    found = {}
    for edit in edits:
        try:
            found[edit.name] = said_of(told_alone(check(crate, [edit]), crate.name))
        except NotJudged as why:
            print(f"{crate.name}: a check of {edit.name} alone judges nothing, since {why}", flush=True)
    return found


def try_from_nothing(crate, paths):
    """What `rt must-fail` says of each edit, by its name; of a crate with none left nothing is asked."""
    shutil.rmtree(crate / "must-fail", ignore_errors=True)
    (crate / "must-fail").mkdir()
    for path in paths:
        shutil.copy(path, crate / "must-fail")
    said = asked(["must-fail", crate.name], crate.parent.parent) if paths else ""
    found = {it[1]: it[2] for it in filter(None, map(TRIED.match, said.splitlines()))}
    if not all(path.name in found for path in paths):
        print(said, end="")
    return found


def try_crate(crate):
    """Prints what comes of each edit of the crate, and counts those that the prover refuses and those that it does not."""
    begun = time.monotonic()
    # (apart from the crate, which wants no such files but those that it is asked of)
    paths = []
    for number, path in enumerate(sorted(crate.glob("*/*.edit"))):
        there = crate.parent.parent / "edits" / crate.name / str(number)
        there.mkdir(parents=True)
        paths.append(path.rename(there / path.name))
    edits = [read_edit(it, crate) for it in paths]
    found = try_at_once(crate, edits)
    rest = [it for it in edits if it.name not in found]
    found.update(try_alone(crate, [it for it in rest if it.lines]))
    found.update(try_from_nothing(crate, [it for it in paths if it.name not in found]))
    passed = 0
    for path in paths:
        said = found.get(path.name, "NOT TRIED")
        is_refused = said.startswith(REFUSED) and not said.startswith(NAMES)
        print(f"{crate.name}/{path.name}: {'' if is_refused else 'NOT COUNTED: '}{said}", flush=True)
        passed += is_refused
    minutes = (time.monotonic() - begun) / 60
    print(f"{crate.name}: refused {passed} of {len(paths)}, {len(rest)} of them tried alone; {minutes:.1f} minutes", flush=True)
    return passed, max(len(paths) - passed, int(not paths))


def main(names):
    os.environ.setdefault("RT_JOBS", str(min(4, PROCESSORS)))
    crates = names or sorted({it.parent.parent.name for it in TOP.glob("crates/*/*/*.edit")})
    passed, failed = 0, 0
    with tempfile.TemporaryDirectory(prefix="slotplan-edits-") as folder:
        copy_tree(Path(folder), crates)
        for crate in crates:
            counts = try_crate(Path(folder) / "crates" / crate)
            passed, failed = passed + counts[0], failed + counts[1]
    print(f"{passed} passed, {failed} failed")
    return 1 if failed else 0


if __name__ == "__main__":
    sys.exit(main(sys.argv[1:]))
