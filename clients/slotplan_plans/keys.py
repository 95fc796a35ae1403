"""The keys of a register: those that it has, or made-up ones, which a file keeps."""
import re
import secrets
import string
import tomllib
from dataclasses import dataclass
from pathlib import Path

from .faults import Fault
from .files import written

LETTERS = string.ascii_letters + string.digits
LENGTH = 24
KEY = re.compile(r"[A-Za-z0-9]{8,64}")


@dataclass(frozen=True)
class Keys:
    """The integrator's key, and that of each supplier by its name."""

    integrator: str
    suppliers: dict

    def of(self, supplier=None):
        """The key of a supplier, or without one the integrator's."""
        return self.suppliers[supplier] if supplier else self.integrator


def made_up():
    return "".join(secrets.choice(LETTERS) for _ in range(LENGTH))


def new_keys(path, suppliers):
    """Made-up keys. The file keeps them, and those that it has stay, so that a script that is made again differs where the register does."""
    kept = kept_in(path)
    keys = Keys(kept.integrator or made_up(), {name: kept.suppliers.get(name) or made_up() for name in suppliers})
    with written(path) as file:
        file.write(f'integrator = "{keys.integrator}"\n\n[suppliers]\n' + "".join(f'{name} = "{key}"\n' for name, key in keys.suppliers.items()))
    return keys


def kept_in(path):
    """The keys in such a file; none where there is no file."""
    try:
        told = tomllib.loads(Path(path).read_text())
        keys = Keys(told["integrator"], told["suppliers"])
        every = [keys.integrator, *keys.suppliers.values()]
        if len(set(every)) < len(every) or not all(KEY.fullmatch(key) for key in every):
            raise ValueError
        return keys
    except FileNotFoundError:
        return Keys("", {})
    except OSError as fault:
        raise Fault(f"{path}: {fault.strerror}") from fault
    except (ValueError, KeyError, TypeError, AttributeError):
        raise Fault(f"{path}: it is no file of keys; move it away, and dump again") from None
