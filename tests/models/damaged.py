"""Damaged system descriptions, and what is wanted of any proposal: it keeps the register's rules, and no row of its file is lost."""
import re
import xml.etree.ElementTree as ET
from collections import defaultdict

TEXTS = (
    "0", "1", "2", "5", "7", "63", "64", "70", "1023", "4294967296", "-1", "007", "0x10", "1e3", "1.5", "nan", "x", "", "CYCLE-REPETITION-0",
    "CYCLE-REPETITION-5", "MOST-SIGNIFICANT-BYTE-FIRST", "OPAQUE", "é", "a b",
)
LEAF = re.compile(r">([^<>\n]+)<")
NAME = re.compile(r"[A-Za-z][A-Za-z0-9_]{0,31}")


def damaged(text, dice):
    """The text with faults in 1 to 20 places: a leaf has another text, that of another leaf, is gone, or an element stands twice. Each element
    begins a line."""
    for _ in range(dice.choice((1, 1, 3, 20))):
        leaves = list(LEAF.finditer(text))
        leaf, how = dice.choice(leaves), dice.randrange(4)
        if how < 2:
            text = text[: leaf.start(1)] + (dice.choice(leaves)[1] if how else dice.choice(TEXTS)) + text[leaf.end(1) :]
        else:
            text = with_lines(text.split("\n"), dice, 2 * (how - 2))
    return text


def with_lines(lines, dice, times):
    """An element stands so many times."""
    at = dice.randrange(3, len(lines) - 3)
    if match := re.match(r"\s*<([A-Z-]+)[^/]*>", lines[at]):
        end = next((it for it in range(at, len(lines)) if f"</{match[1]}>" in lines[it]), at)
        lines[at : end + 1] = lines[at : end + 1] * times
    return "\n".join(lines)


def number(text):
    """A number as AUTOSAR may write it: 12, 0x0c, 0b1100, 014 or 1.2e1."""
    text = text.strip()
    for base in 0, 8:
        try:
            return int(text, base)
        except ValueError:
            pass
    return int(float(text))


def cells_of(frame, cycles):
    for it in frame.placements:
        for channel in it.channels:
            for cycle in range(it.base, cycles, it.repetition):
                yield it.slot, channel, cycle


def places_of(signal):
    """The bits of a signal, in the order of a payload that is counted byte by byte."""
    if signal.order == "little":
        return set(range(signal.start, signal.start + signal.length))
    first = signal.start - signal.start % 8 + 7 - signal.start % 8
    return {place - place % 8 + 7 - place % 8 for place in range(first, first + signal.length)}


def unsound(plan):
    """The rules of the register that a plan breaks."""
    figures, broken, filled = plan.cluster.figures, [], set()
    held = {it.lane: (it.supplier, it.node) for it in plan.grants}
    lanes = {(slot, channel) for slot in range(1, figures["static_slots"] + 1) for channel in plan.cluster.channels}
    if len(held) < len(plan.grants) or not held.keys() <= lanes:
        broken.append("grants")
    for frame in plan.frames:
        cells = list(cells_of(frame, figures["cycles"]))
        if any(held.get(cell[:2]) != (frame.supplier, frame.node) for cell in cells) or len(set(cells)) < len(cells) or filled & set(cells):
            broken.append(f"cells of {frame.key}")
        if any(figures["cycles"] % it.repetition or not 0 <= it.base < it.repetition for it in frame.placements):
            broken.append(f"bases of {frame.key}")
        filled |= set(cells)
        used = [place for signal in frame.signals for place in places_of(signal)]
        if len(set(used)) < len(used) or any(not 0 <= place < plan.cluster.payload_bits for place in used):
            broken.append(f"bits of {frame.key}")
        if len(frame.placements) > 8 or len(frame.signals) > 64 or any(not 1 <= it.length <= 64 for it in frame.signals):
            broken.append(f"limits of {frame.key}")
    signals = [(*frame.key, it.name) for frame in plan.frames for it in frame.signals]
    names = [*plan.cluster.suppliers, *(it.name for it in (*plan.nodes, *plan.frames)), *(name for *_, name in signals)]
    keys = [*plan.cluster.suppliers, *plan.nodes, *(it.key for it in plan.frames), *signals]
    return broken + [name for name in names if not NAME.fullmatch(name)] + ([] if len(set(keys)) == len(keys) else ["a name twice"])


class Rows:
    """The rows of a file, read once more and more simply, to look each up in a proposal."""

    def __init__(self, text, proposal):
        self.root = ET.fromstring(text)
        for element in self.root.iter():
            element.tag = element.tag.rpartition("}")[2]
        self.plan, self.noted = proposal.plan, [note.what for note in proposal.notes if note.kind != "not kept"]
        self.paths, self.elements = {}, defaultdict(list)
        self.walk(self.root, "")
        self.sent = defaultdict(set)
        for frame in self.plan.frames:
            for cell in cells_of(frame, self.plan.cluster.figures["cycles"]):
                self.sent[cell].add(frame.name[:20])

    def walk(self, element, path):
        name = (element.findtext("SHORT-NAME") or "").strip()
        path = f"{path}/{name}" if name else path
        self.paths[element] = path if name else f"{path}/{element.tag}"
        if name:
            self.elements[path].append(element)
        for child in element:
            self.walk(child, path)

    def is_noted(self, *whats):
        """Whether one of these is noted as a whole."""
        return any(it in self.noted for it in whats if it)

    def begins(self, *whats):
        """Whether a note of a part begins so."""
        return any(what.startswith(it) for what in self.noted for it in whats)

    def at(self, path, tag):
        return [element for element in self.elements.get(path, []) if element.tag == tag]

    def lost(self):
        """Triggerings, timings and signals that stand neither in the plan nor in the notes."""
        for channel in self.root.iter("FLEXRAY-PHYSICAL-CHANNEL"):
            if not self.is_noted(self.paths[channel]):
                for triggering in channel.iter("FLEXRAY-FRAME-TRIGGERING"):
                    frame = (triggering.findtext("FRAME-REF") or "").strip()
                    if not self.is_noted(self.paths[triggering], frame):
                        yield from self.lost_timings(channel, triggering, frame)
                        yield from self.lost_signals(frame)

    def lost_timings(self, channel, triggering, path):
        here, letter = self.paths[triggering], channel.findtext("CHANNEL-NAME").strip()[-1]
        names = {name[:20] for frame in self.at(path, "FLEXRAY-FRAME") for name in self.names(frame)}
        for timing in triggering.iter("FLEXRAY-ABSOLUTELY-SCHEDULED-TIMING"):
            slot = number(timing.findtext("SLOT-ID") or "0")
            if not self.begins(f"{here}: slot {slot} on ", f"{path}: slot {slot} on "):
                for cycle in self.cycles(timing):
                    if not self.sent[slot, letter, cycle] & names:
                        yield f"{here}: slot {slot} on {letter}, cycle {cycle}"

    def cycles(self, timing):
        counted = timing.findtext(".//CYCLE-COUNTER/CYCLE-COUNTER")
        if counted is not None:
            return [number(counted)]
        base, repetition = timing.findtext(".//BASE-CYCLE"), timing.findtext(".//CYCLE-REPETITION/CYCLE-REPETITION")
        return range(number(base), self.plan.cluster.figures["cycles"], number(repetition.rpartition("-")[2]))

    def names(self, element):
        """The names by which an element may stand in a plan, but for a number behind."""
        told = [row.text for row in element.iterfind("ADMIN-DATA/SDGS/SDG/SD") if row.get("GID") == "name"]
        names = [re.sub(r"[^A-Za-z0-9_]", "_", (name or "").strip()) for name in [element.findtext("SHORT-NAME"), *told]]
        return [name if name[:1].isalpha() else f"x{name}" for name in names]

    def lost_signals(self, path):
        """Signals of a frame's PDUs, by the beginnings of their names."""
        for frame in self.at(path, "FLEXRAY-FRAME")[:1]:
            of_frame = {name[:20] for name in self.names(frame)}
            kept = {signal.name[:20] for it in self.plan.frames if it.name[:20] in of_frame for signal in it.signals}
            for leaf in frame.iter("PDU-REF"):
                pdu = (leaf.text or "").strip()
                if not self.begins(f"{path}: PDU {pdu}"):
                    for element in self.at(pdu, "I-SIGNAL-I-PDU")[:1]:
                        yield from (f"{path}: {signal}" for signal in self.lost_mappings(path, element, kept))

    def lost_mappings(self, path, pdu, kept):
        for mapping in pdu.iter("I-SIGNAL-TO-I-PDU-MAPPING"):
            signal = (mapping.findtext("I-SIGNAL-REF") or "").strip()
            names = [name for element in self.at(signal, "I-SIGNAL")[:1] for name in self.names(element)]
            told = [f"{path}: signal {name}" for name in [f"{signal},", *names]]
            if signal and not kept & {name[:20] for name in names} and not self.begins(*told):
                yield signal


def lost(text, proposal):
    return list(Rows(text, proposal).lost())
