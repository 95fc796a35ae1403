"""A frame that is sent otherwise than its file has it: the timings of its triggerings change, and nothing else of them."""
from collections import defaultdict

from ..plan import Node
from .bus import REPETITIONS, Bus
from .found import Timing
from .markup import lines_of
from .parts import apart
from .telling import tell

TIMING, TIMINGS = "FLEXRAY-ABSOLUTELY-SCHEDULED-TIMING", "ABSOLUTELY-SCHEDULED-TIMINGS"


class Resent:
    """Changes a frame of the file from what was proposed of it to what the plan has. A triggering stays, unless its frame is sent on the other
    channel in place of its own, or is sent there no more."""

    def __init__(self, carrying, path, before, after):
        self.plan, self.tree, self.changes, self.crossing = carrying.plan, carrying.tree, carrying.changes, carrying.crossing
        self.path, self.before, self.after = path, before, after
        self.old, self.new = (carrying.ecus.get(Node(it.supplier, it.node)) for it in (before, after))
        # (what is sent on a channel that the file lacks cannot be carried back)
        self.channels = carrying.source.channels
        self.elements = carrying.found.frames[path].elements
        self.triggerings = {letter: list(carrying.source.triggerings[path, letter]) for letter in "AB"}
        self.moving, self.gone, self.come = {}, set(), defaultdict(list)

    def carry(self):
        have = {letter: {it: self.elements[it] for it in timings(self.before, letter)} for letter in "AB"}
        want = {letter: set(timings(self.after, letter)) if letter in self.channels else set() for letter in "AB"}
        self.crossing.senders = {self.old: self.new} if self.new and self.old != self.new else {}
        for letter, other in "AB", "BA":
            if want[letter] and not want[other] and not self.triggerings[letter] and self.are_whole(other, have[other]):
                self.moving = {it: letter for it in self.triggerings[other]}
                self.triggerings |= {letter: self.triggerings[other], other: []}
                have |= {letter: {it._replace(channel=letter): found for it, found in have[other].items()}, other: {}}
        for letter in "AB":
            self.retime(letter, have[letter], want[letter])
        self.settle()
        element = self.tree.at(self.path)
        tell(self.changes, element, "apart", [" ".join(map(str, it)) for it in apart(self.after.placements)])
        tell(self.changes, element, "ecu", [] if self.after.placements else [self.new or self.old])

    def are_whole(self, letter, have):
        """Whether the triggerings on a channel have no timings but those of the frame's placements."""
        own = {element for elements in have.values() for element in elements}
        return all(element in own for it in self.triggerings[letter] for element in it.iter(TIMING))

    def retime(self, letter, have, want):
        """On a channel the timings become others: first those that are alike in most."""
        gone, come = have.keys() - want, want - have.keys()
        for old, new in sorted(((old, new) for old in gone for new in come), key=unlike):
            if old in gone and new in come:
                gone.remove(old)
                come.remove(new)
                self.change(have[old], old, new)
        for old in gone:
            self.gone |= set(have[old])
        for new in sorted(come):
            self.come[self.triggerings[letter][0] if self.triggerings[letter] else letter].append(new)

    def change(self, elements, old, new):
        """The elements of a timing tell another: by other texts, where these have the words for it."""
        repeated = [it.find("COMMUNICATION-CYCLE/CYCLE-REPETITION") for it in elements]
        if old[2:] != new[2:] and (None in repeated or new.repetition not in REPETITIONS):
            self.gone |= set(elements)
            self.come[self.holder(elements[0])].append(new)
            return
        for element, cycle in zip(elements, repeated):
            if old.slot != new.slot:
                self.changes.write(element.find("SLOT-ID"), new.slot)
            if old.base != new.base:
                self.changes.write(cycle.find("BASE-CYCLE"), new.base)
            if old.repetition != new.repetition:
                self.changes.write(cycle.find("CYCLE-REPETITION"), f"CYCLE-REPETITION-{new.repetition}")

    def holder(self, element):
        """The triggering in which a timing stands."""
        return next(it for its in self.triggerings.values() for it in its if any(other is element for other in it.iter(TIMING)))

    def settle(self):
        """Takes timings out, and puts new ones in. Of a frame that is still sent goes a triggering that has none left and to which nothing
        refers."""
        for letter in "AB":
            for it in self.triggerings[letter]:
                stays = [element for element in it.iter(TIMING) if element not in self.gone]
                if not stays and it not in self.come and self.after.placements and self.crossing.is_free(it):
                    self.changes.remove(it)
                    continue
                for element in it.iter(TIMING):
                    if element in self.gone:
                        self.changes.remove(element)
                if it in self.come:
                    self.changes.add(it, (TIMINGS,), self.lines(self.come[it]))
                if it in self.moving:
                    self.crossing.move(it, letter)
                elif self.crossing.senders:
                    self.crossing.resend(it, letter)
            if letter in self.come:
                like = next((it for its in self.triggerings.values() for it in its), None)
                self.crossing.trigger(letter, self.path, like, self.new or self.old, self.lines(self.come[letter]))

    def lines(self, found):
        """The lines of timings."""
        return lines_of(lambda out: [Bus(out, self.plan, None, None).timing(*it[1:]) for it in found])


def timings(frame, letter):
    """When a frame is sent on a channel."""
    return sorted({Timing(letter, it.slot, it.base, it.repetition) for it in frame.placements if letter in it.channels})


def unlike(pair):
    """How unlike two timings are; then they stand by their order."""
    old, new = pair
    return sum(one != other for one, other in zip(old, new)), old, new
