"""Reads when frames are sent, and by which ECUs: the triggerings of a channel."""
from collections import defaultdict

from ..faults import Fault
from .figures import unfit
from .found import Timing, folded
from .tree import plain, whole

FALSE = "false", "0"


class Sending:
    """Reads triggerings. What they send is added to the reader's frames."""

    def __init__(self, reader, figures, table):
        self.reader, self.tree, self.note = reader, reader.tree, reader.note
        self.figures, self.cycles = figures, figures["cycles"]
        self.senders_of, self.table, self.used = {}, table, set()

    def triggering(self, letter, triggering):
        here = self.tree.path_of[triggering]
        leaf = triggering.find("FRAME-REF")
        path, frame = ("", None) if leaf is None else self.tree.follow(leaf)
        timings, elements = self.timings(here, letter, triggering)
        if frame is None or frame.tag != "FLEXRAY-FRAME":
            self.note("left out", here, f"its frame {path} is not in this file" if path else "it names no frame")
            return
        self.flags(here, triggering)
        self.reader.triggerings[path, letter].append(triggering)
        if timings:
            found = self.reader.frame(path)
            found.timings += timings
            for timing, its in elements.items():
                found.elements.setdefault(timing, []).extend(its)
            senders = self.senders(triggering) or self.named(here)
            found.senders |= senders
            if not senders:
                self.note("not kept", here, "no port OUT says which ECU sends it")

    def flags(self, here, triggering):
        if self.tree.text(triggering, "PAYLOAD-PREAMBLE-INDICATOR", "false") not in FALSE:
            self.note("not kept", here, "its payload begins with a network management vector (PAYLOAD-PREAMBLE-INDICATOR)")
        if self.tree.text(triggering, "ALLOW-DYNAMIC-L-SDU-LENGTH", "false") not in FALSE:
            self.note("not kept", here, "its length may change from cycle to cycle (ALLOW-DYNAMIC-L-SDU-LENGTH)")

    def timings(self, here, letter, triggering):
        """The timings in the static segment, and the elements of each. Single cycles are put together by slot."""
        found, elements, single = [], defaultdict(list), defaultdict(lambda: defaultdict(list))
        timings = list(triggering.iter("FLEXRAY-ABSOLUTELY-SCHEDULED-TIMING"))
        if not timings:
            self.note("left out", here, "it has no ABSOLUTELY-SCHEDULED-TIMING")
        for timing in timings:
            slot = self.tree.number(timing, "SLOT-ID", 0)
            base, repetition, cycle = self.cycle_of(timing)
            values = [("slot", f"{slot} on {letter}"), ("cycle", cycle), ("base", base), ("repetition", repetition)]
            what = ", ".join(f"{key} {value}" for key, value in values if value is not None)
            if why := unfit(self.figures, slot, base, repetition, cycle):
                self.note("left out", f"{here}: {what}", why)
            elif cycle is not None:
                single[slot][cycle].append(timing)
            else:
                found.append(Timing(letter, slot, base, repetition))
                elements[found[-1]].append(timing)
        for slot, cycles in single.items():
            for base, repetition in folded(cycles, self.cycles):
                found.append(Timing(letter, slot, base, repetition))
                elements[found[-1]] += (it for cycle in range(base, self.cycles, repetition) for it in cycles[cycle])
        return found, elements

    def cycle_of(self, timing):
        """Base and repetition of a timing, or its one cycle; none for what it does not have. The leaf in CYCLE-REPETITION has the same name."""
        repeated, counted = timing.find("COMMUNICATION-CYCLE/CYCLE-REPETITION"), timing.find("COMMUNICATION-CYCLE/CYCLE-COUNTER")
        if repeated is not None:
            text = self.tree.text(repeated, "CYCLE-REPETITION").removeprefix("CYCLE-REPETITION-")
            return self.tree.number(repeated, "BASE-CYCLE"), whole(text) if text else None, None
        return None, None, self.tree.number(counted, "CYCLE-COUNTER") if counted is not None else None

    def senders(self, triggering):
        """The ECUs that have a port OUT of the triggering; where it has none, of its PDUs."""
        found = self.ecus_out(triggering.iter("FRAME-PORT-REF"))
        if not found:
            for leaf in triggering.iter("PDU-TRIGGERING-REF"):
                pdu = self.tree.at(plain(leaf.text))
                if pdu is not None and (ecus := self.ecus_out(pdu.iter("I-PDU-PORT-REF"))):
                    self.tree.follow(leaf)
                    found |= ecus
        return found

    def named(self, here):
        """The ECU that the table of senders has for a triggering, by its path or its name, where it has one."""
        key = next((it for it in (here, here.rpartition("/")[2]) if it in self.table), None)
        if key is None:
            return set()
        self.used.add(key)
        ecus = [self.tree.path_of[it] for it in self.tree.of_kind("ECU-INSTANCE") if it in self.tree.path_of]
        found = [path for path in ecus if self.table[key] in (path, path.rpartition("/")[2])]
        if len(found) != 1:
            raise Fault(f"the table of senders gives {here} the ECU {self.table[key]!a:.200}: the file has {len(found) or 'none'} of that name")
        self.reader.ecu(found[0])
        return set(found)

    def rest(self):
        """Notes the rows of the table of senders that were of no use."""
        for key in sorted(self.table.keys() - self.used):
            self.note("not kept", f"{key} of the table of senders", "no such triggering is without a sender in the file")

    def ecus_out(self, leaves):
        """The ECUs to whose ports OUT these references lead. A port IN is a receiver's, and does not count as read."""
        found = set()
        for leaf in leaves:
            path = plain(leaf.text)
            if path not in self.senders_of:
                self.senders_of[path] = self.sender(path)
            if self.senders_of[path]:
                self.tree.follow(leaf)
                found.add(self.senders_of[path])
        return found

    def sender(self, path):
        """The ECU of a port, where it is a port OUT of one."""
        port, ecu = self.tree.at(path), self.tree.above(path, "ECU-INSTANCE")
        if port is None or ecu is None or self.tree.seen(port, "COMMUNICATION-DIRECTION") != "OUT":
            return None
        self.tree.text(port, "COMMUNICATION-DIRECTION")
        self.reader.ecu(ecu)
        return ecu
