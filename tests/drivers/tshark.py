"""tshark, which is Wireshark without a window: what it says of a capture by the tables of a profile. TSHARK names another one than that on PATH."""
import json
import os
import re
import shutil
import subprocess
from typing import NamedTuple

from clients.wireshark.plan import Cell

PROGRAM = os.environ.get("TSHARK") or shutil.which("tshark")
SECONDS = 600
# Before this version tshark finds no PDU on channel B.
BOTH_CHANNELS = 4, 4


class Packet(NamedTuple):
    """What is said of a packet: its cell, the name of its PDU or None, and all that is said of the PDU besides."""

    cell: Cell
    name: str
    fields: dict


def version():
    """Its first two numbers."""
    said = subprocess.run([PROGRAM, "--version"], capture_output=True, text=True).stdout
    return tuple(map(int, re.search(r"(\d+)\.(\d+)", said).groups()))


def told(config, profile, capture, *how):
    """What it writes of a capture. The profile's tables lie below the folder `config`."""
    command = [PROGRAM, "-C", profile, "-r", capture, *how]
    ended = subprocess.run(command, env={**os.environ, "XDG_CONFIG_HOME": str(config)}, capture_output=True, text=True, timeout=SECONDS)
    if ended.returncode != 0:
        raise OSError(f"tshark: status {ended.returncode}, {ended.stderr.strip()!r:.300}")
    return ended.stdout


def decoded(config, profile, capture):
    """Each packet of a capture."""
    packets = json.loads(told(config, profile, capture, "-T", "json", "--no-duplicate-keys"), object_pairs_hook=fields)
    return [packet(it["_source"]["layers"]) for it in packets]


def profile(config, name):
    """The folder of a profile."""
    return config / "wireshark/profiles" / name


def fields(pairs):
    """The fields of an object. The tree below `x` has the key of a field `x_tree`, which then is the one that counts."""
    return dict(sorted(pairs, key=lambda pair: isinstance(pair[1], str)))


def packet(layers):
    """A packet of its layers. Below a signal stands a tree that has its value once more."""
    bus = flat(layers["flexray"])
    pdu = {key: value for key, value in layers.get("signal_pdu", {}).items() if isinstance(value, str) or not key.endswith("_tree")}
    return Packet(Cell(int(bus["flexray.cc"]), int(bus["flexray.fid"]), "AB"[int(bus["flexray.ch"])]), pdu.pop("signal_pdu.name", None), pdu)


def flat(tree):
    """All fields of a tree."""
    fields = {}
    for key, value in tree.items():
        fields.update(flat(value) if isinstance(value, dict) else {key: value})
    return fields
