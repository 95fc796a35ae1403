"""How often a frame is to be sent: a gap in milliseconds, microseconds, macroticks or cycles, and the repetition that keeps it."""
from fractions import Fraction
from typing import NamedTuple

from .faults import Fault

UNITS = {
    "ms": "ms", "msec": "ms", "millisecond": "ms", "milliseconds": "ms", "us": "us", "\u00b5s": "us", "\u03bcs": "us", "microseconds": "us",
    "mt": "macroticks", "macrotick": "macroticks", "macroticks": "macroticks", "cycle": "cycles", "cycles": "cycles",
}


class Gap(NamedTuple):
    """A time between two sendings, in one of the units."""

    number: Fraction
    unit: str

    def __str__(self):
        return f"{float(self.number):g} {self.unit}"


class Clock(NamedTuple):
    """How long a cycle is in macroticks, how many cycles there are, and a macrotick's microseconds, where they are known."""

    macroticks: int
    cycles: int
    macrotick: Fraction = None

    def macroticks_of(self, gap):
        """A gap in macroticks."""
        if gap.unit == "macroticks":
            return gap.number
        if gap.unit == "cycles":
            return gap.number * self.macroticks
        if self.macrotick is None:
            raise Fault(f"the gap is told in {gap.unit}: --macrotick says how many microseconds a macrotick lasts")
        return gap.number * (1000 if gap.unit == "ms" else 1) / self.macrotick

    def repetition(self, gap):
        """The greatest repetition that keeps the gap; none where it is shorter than a cycle."""
        room = self.macroticks_of(gap)
        return max((it for it in range(1, self.cycles + 1) if self.cycles % it == 0 and it * self.macroticks <= room), default=None)
