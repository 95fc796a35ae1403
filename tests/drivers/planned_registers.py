"""Registers that requests have planned, and what their reports say of a variant. The tests of pictures and tools/look.py use it."""
import json
import tomllib

from .program import ran

SECONDS = 600


class Register:
    """A register file, made of a cluster file's text and requests, with the answers to these."""

    def __init__(self, folder, cluster, requests):
        self.cluster, self.folder = tomllib.loads(cluster), folder
        (folder / "cluster.toml").write_text(cluster)
        self.tell("create", "car.db", "cluster.toml")
        lines = [line for line in requests.split("\n") if line]
        self.answered = list(zip(lines, self.tell("ask", "car.db", given="\n".join(lines) + "\n").splitlines()))

    def tell(self, *words, given=""):
        """What the program writes to standard output."""
        status, written, said = ran(words, self.folder, given.encode(), seconds=SECONDS)
        if status != 0:
            raise OSError(f"{words}: status {status}, {said.strip()!r:.200}")
        return written.decode()

    def done(self, what):
        """The requests of this name that were carried out."""
        for line, answer in self.answered:
            request = json.loads(line.split(" ", 1)[1])
            if request["do"] == what and json.loads(answer).get("ok") == "done":
                yield request

    def suppliers(self):
        """All suppliers of the register, by name."""
        return sorted([*self.cluster["suppliers"], *(request["supplier"] for request in self.done("add_supplier"))])

    def plan(self, variant, supplier):
        """What the reports say of a variant, for this supplier or for the integrator, as `picture.compare` takes it."""
        seen = ["--supplier", supplier] if supplier else []
        own = [supplier] if supplier else []
        report = lambda name, *more: [line.split() + own for line in self.tell(name, "car.db", variant, *more, *seen).splitlines()]
        gaps = {(line[3], line[2]): line[1] for line in report("gaps")}
        frames, layouts = [], {}
        for line in report("frames"):
            if line[0] == "AT":
                frames[-1][3].append((str(int(line[1])), line[2], f"{int(line[3])}/{int(line[4])}"))
            else:
                _, frame, node, holder = line
                frames.append((frame, node, holder, [], gaps[holder, frame]))
                layouts[holder, frame] = [
                    (name, int(start), int(length), order) for start, length, order, name, owner in report("layout", frame) if owner == holder
                ]
        return {
            "channels": self.cluster["channels"],
            "slots": self.cluster["static_slots"],
            "cycles": self.cluster.get("cycles", 64),
            "suppliers": own or self.suppliers(),
            "viewer": supplier,
            "grants": [(int(slot), channel, node, holder) for slot, channel, node, holder in report("grants")],
            "cells": [(int(cycle), int(slot), *rest) for cycle, slot, *rest in report("schedule")],
            "frames": frames,
            "layouts": layouts,
        }
