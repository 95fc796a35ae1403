"""Reads when frames are sent, and by which ECUs: the triggerings of a channel, and the ports that name them."""
from collections import defaultdict

from ..autosar.figures import unfit
from ..autosar.found import Timing, folded
from ..autosar.tree import plain
from ..faults import Fault


class Sending:
    """Reads triggerings. What they send is added to the reader's frames."""

    def __init__(self, reader, figures):
        self.reader, self.document, self.note = reader, reader.document, reader.note
        self.figures, self.cycles = figures, figures["cycles"]
        self.table, self.used, self.ports = reader.senders, set(), self.ports_out()

    def ports_out(self):
        """By the ID of a triggering the references of ports by which ECUs send it, each with its ECU."""
        found = defaultdict(list)
        for ecu in self.document.of_kind("ECU"):
            for port in ecu.iter("OUTPUT-PORT"):
                for leaf in port.iter("FRAME-TRIGGERING-REF"):
                    found[plain(leaf.get("ID-REF"))].append((ecu, leaf))
        return found

    def triggering(self, letter, channel, triggering):
        here = self.document.path_of.get(triggering) or f"{self.document.path_of[channel]}/FRAME-TRIGGERING"
        identity, frame = self.document.referred(triggering, "FRAME-REF")
        timings = self.timings(here, letter, triggering)
        if frame is None or frame.tag != "FRAME":
            self.note("left out", here, f"its frame {identity} is not in this file" if identity else "it names no frame")
        elif timings:
            found = self.reader.frame(frame)
            found.timings += timings
            senders = self.senders(triggering) or self.named(here)
            found.senders |= senders
            if not senders:
                self.note("not kept", here, "no OUTPUT-PORT says which ECU sends it")

    def timings(self, here, letter, triggering):
        """The timings in the static segment. Single cycles are put together by slot."""
        found, single = [], defaultdict(list)
        timings = list(triggering.iter("ABSOLUTELY-SCHEDULED-TIMING"))
        if not timings:
            self.note("left out", here, "it has no ABSOLUTELY-SCHEDULED-TIMING")
        for timing in timings:
            number = lambda tag: self.document.number(timing, tag)
            slot, cycle, base, repetition = number("SLOT-ID") or 0, number("CYCLE-COUNTER"), number("BASE-CYCLE"), number("CYCLE-REPETITION")
            values = [("slot", f"{slot} on {letter}"), ("cycle", cycle), ("base", base), ("repetition", repetition)]
            what = ", ".join(f"{key} {value}" for key, value in values if value is not None)
            several = cycle is not None and (base is not None or repetition is not None)
            if why := "it has a cycle, and a base or a repetition" if several else unfit(self.figures, slot, base, repetition, cycle):
                self.note("left out", f"{here}: {what}", why)
            elif cycle is not None:
                single[slot].append(cycle)
            else:
                found.append(Timing(letter, slot, base, repetition))
        return found + [Timing(letter, slot, *pair) for slot, cycles in single.items() for pair in folded(cycles, self.cycles)]

    def senders(self, triggering):
        """The ECUs that have an OUTPUT-PORT of the triggering."""
        found = set()
        identity = plain(triggering.get("ID"))
        for ecu, leaf in self.ports.get(identity, ()) if identity else ():
            self.document.follow(leaf)
            found.add(self.reader.ecu(ecu))
        return found - {None}

    def named(self, here):
        """The ECU that the table of senders has for a triggering, by its path or its name, where it has one."""
        key = next((it for it in (here, here.rpartition("/")[2]) if it in self.table), None)
        if key is None:
            return set()
        self.used.add(key)
        path_of = self.document.path_of
        ecus = [it for it in self.document.of_kind("ECU") if it in path_of and self.table[key] in (path_of[it], path_of[it].rpartition("/")[2])]
        if len(ecus) != 1:
            raise Fault(f"the table of senders gives {here} the ECU {self.table[key]!a:.200}: the file has {len(ecus) or 'none'} of that name")
        return {self.reader.ecu(ecus[0])}

    def rest(self):
        """Notes the rows of the table of senders that were of no use."""
        for key in sorted(self.table.keys() - self.used):
            self.note("not kept", f"{key} of the table of senders", "no such triggering is without a sender in the file")
