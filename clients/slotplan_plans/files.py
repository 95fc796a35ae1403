"""Files of keys: the one from which a key is read, and those that are written so that nobody else may read them."""
import os
import sys
from contextlib import contextmanager, suppress
from pathlib import Path

from .faults import Fault

# How a file of SQLite begins.
DATABASE = b"SQLite format 3\0"


def key_in(path):
    """The key in the first line of a file, or of standard input where its name is `-`. The line may be a field for curl, as `X-Office-Key: KEY`."""
    try:
        text = sys.stdin.readline() if path == "-" else Path(path).read_text(errors="replace")
    except FileNotFoundError:
        # (the word may be the key itself, which nothing shows)
        raise Fault("--key names a file, whose first line is the key; there is no such file") from None
    except OSError as fault:
        raise Fault(f"{path}: {fault.strerror}") from fault
    key = text.partition("\n")[0].rpartition(":")[2].strip()
    if not (key.isascii() and key.isalnum()):
        raise Fault(f"{'standard input' if path == '-' else path}: the first line is no key, which is 8 to 64 letters and digits")
    return key


def replaceable(path):
    """The path, where nothing is there that has to stay: a database, which may be a register, a link, a folder, a device."""
    path = Path(path)
    try:
        if path.is_symlink() or path.exists() and not path.is_file():
            raise Fault(f"{path}: it is there, and is no regular file; nothing is written")
        if path.exists():
            with open(path, "rb") as file:
                if file.read(len(DATABASE)) == DATABASE:
                    raise Fault(f"{path}: it is a database, which may be a register; nothing is written")
    except OSError as fault:
        raise Fault(f"{path}: {fault.strerror}") from fault
    return path


@contextmanager
def written(path, mode=0o600, kind="w"):
    """A file, of text or, by kind `wb`, of bytes, that takes its name once it is written whole. With mode 0600 its owner alone may read it."""
    path = replaceable(path)
    new = path.with_name(f"{path.name}.{os.getpid()}")
    try:
        words = {"encoding": "utf-8", "newline": ""} if kind == "w" else {}
        with open(os.open(new, os.O_WRONLY | os.O_CREAT | os.O_EXCL, mode), kind, **words) as file:
            yield file
        new.replace(path)
    except OSError as fault:
        raise Fault(f"{path}: {fault.strerror}") from fault
    finally:
        with suppress(OSError):
            new.unlink()


def made(folder):
    """Makes a folder that only its owner may read, where nothing is."""
    absent(folder)
    try:
        os.mkdir(folder, 0o700)
    except OSError as fault:
        raise Fault(f"{folder}: {fault.strerror}") from fault


def absent(path):
    """Nothing, where nothing is."""
    if os.path.lexists(path):
        raise Fault(f"{path} is there already; name another folder, or move it away")
