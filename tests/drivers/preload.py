"""The C libraries of tests/programs, made by cc and loaded before the C library: they refuse a program's memory, stop its calls on files, let its
connections fail, interrupt what it prints, give it a file in pieces, or have some calls fail while it runs."""
import shutil
import subprocess
from itertools import chain, count
from pathlib import Path
from unittest import SkipTest

from tests import TOP

PROGRAMS = TOP / "tests/programs"


def can_compile():
    return shutil.which("cc") is not None


class Library:
    """A library, made in this folder, with the mark that it makes where it acts."""

    def __init__(self, room, name):
        if not can_compile():
            raise SkipTest("there is no C compiler cc")
        self.path, self.mark = (Path(room) / (name + end) for end in (".so", ".mark"))
        subprocess.run(["cc", "-O1", "-shared", "-fPIC", "-o", self.path, PROGRAMS / f"{name}.c", "-ldl"], check=True)

    def has_acted(self):
        """Whether the last run came to the call that was meant."""
        acted = self.mark.exists()
        self.mark.unlink(missing_ok=True)
        return acted


class Refuser(Library):
    def __init__(self, room):
        super().__init__(room, "refuser")

    def refusing(self, call, behind=False):
        """What a program's environment has more, so that this allocation is refused, counted from 1."""
        more = {"REFUSED_BEHIND": "accept4"} if behind else {}
        return {"LD_PRELOAD": str(self.path), "REFUSED_CALL": str(call), "REFUSED_MARK": str(self.mark), **more}


class Stopper(Library):
    def __init__(self, room):
        super().__init__(room, "stopper")
        self.held = self.mark.with_suffix(".held")

    def stopping(self, call, way):
        """What a program's environment has more, so that this call on files is met so, counted from 1."""
        return {"LD_PRELOAD": str(self.path), "STOP_CALL": str(call), "STOP_WAY": way, "STOP_MARK": str(self.mark)}

    def holding(self):
        """What a program's environment has more, so that each call on files waits while the mark is there."""
        return {"LD_PRELOAD": str(self.path), "STOP_WAY": "hold", "STOP_MARK": str(self.mark), "STOP_HELD": str(self.held)}


class Links(Library):
    def __init__(self, room):
        super().__init__(room, "links")

    def ending(self, **how):
        """What a program's environment has more, so that its first connection or its input ends so."""
        return {"LD_PRELOAD": str(self.path), "LINK_MARK": str(self.mark), **{name: str(value) for name, value in how.items()}}


class Interrupts(Library):
    def __init__(self, room):
        super().__init__(room, "interrupts")

    def before_writes(self, times):
        """What a program's environment has more, so that each write to its standard output is interrupted so often before it is carried out."""
        return {"LD_PRELOAD": str(self.path), "INTERRUPTIONS": str(times), "INTERRUPTED_MARK": str(self.mark)}


class Pieces(Library):
    def __init__(self, room):
        super().__init__(room, "pieces")

    def of(self, path):
        """What a program's environment has more, so that each read of this file gives one byte."""
        return {"LD_PRELOAD": str(self.path), "PIECES_PATH": str(path), "PIECES_MARK": str(self.mark)}

    def reads(self):
        """In how many reads the last run read the file."""
        count = self.mark.stat().st_size if self.mark.exists() else 0
        self.mark.unlink(missing_ok=True)
        return count


class Failing(Library):
    def __init__(self, room):
        super().__init__(room, "failing")
        self.folder = Path(room) / "failing"
        self.folder.mkdir()

    def more(self):
        """What a program's environment has more, so that calls fail."""
        return {"LD_PRELOAD": str(self.path), "FAILING": str(self.folder)}

    def fail(self, call, times=1):
        """From now on so many calls of this name fail."""
        (self.folder / call).write_bytes(b"x" * times)


def calls_from(turn, step):
    """The first call, and every so many, others at each turn."""
    begun = 1 + turn % step
    return count(1, step) if begun == 1 else chain([1], count(begun, step))
