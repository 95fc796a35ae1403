"""What was found in a description as a plan of the register, which takes all of it. What does not fit is noted."""
from collections import Counter, defaultdict
from dataclasses import replace

from ..bits import bits
from ..faults import Fault
from ..plan import Cluster, Frame, Grant, Node, Placement, Plan, Signal, Variant
from .found import FoundSignal, Note
from .known import Known, Row
from .register_names import NAME, Names

LONGEST_SIGNAL = 64
SUPPLIERS, NODES, FRAMES, PLACEMENTS, SIGNALS = 64, 64, 256, 8, 64
# A signal that is longer than the longest payload is not parted.
PAYLOAD_BITS = 16 * 127


class Proposal:
    """Makes a plan of what was found. `table` has a supplier for an ECU, by its path or its name, or an empty one that leaves the ECU out. What is
    `known` has the names that it had before. `paths` has the path of each frame of the plan, and `rows` the names of all that was found."""

    def __init__(self, found, table, variant=None, known=None):
        self.found, self.table, self.known, self.notes = found, table, known or Known(), list(found.notes)
        self.variant = self.variant_name(variant)
        self.supplier_names, self.nodes, self.rows = {}, {}, []
        self.plan = self.made()

    def note(self, kind, what, why):
        self.notes.append(Note(kind, what, why))

    def new_name(self, names, what, wanted, known=None):
        """A name of the register in place of a file's."""
        name = names.new(wanted, known)
        if name != wanted:
            why = "so it was called before" if name == known else f"{wanted} is no name of the register, or another has it"
            self.note("changed", what, f"it is called {name}: {why}")
        return name

    def variant_name(self, given):
        told = self.found.variant
        if given and not NAME.fullmatch(given):
            raise Fault(f"{given} is no name of a variant")
        if told is not None and (given or not NAME.fullmatch(told)) and told != given:
            self.note("changed", f"variant {told}", f"it is called {given or 'v1'}")
            told = None
        return given or told or "v1"

    def made(self):
        self.name_suppliers(self.suppliers())
        frames = self.frames()
        self.paths = {frame.key: path for path, frame in frames.items()}
        lanes = self.lanes(frames)
        self.idle(lanes)
        placed = self.placed(frames, lanes)
        made = [replace(frame, placements=tuple(placed[path]), signals=tuple(self.signals(path, frame))) for path, frame in frames.items()]
        cluster = Cluster(self.found.channels, self.found.figures, tuple(sorted(self.supplier_names.values())))
        grants = sorted(Grant(slot, channel, node.supplier, node.name) for (slot, channel), node in lanes.items())
        return Plan(cluster, Variant(self.variant, None, 1, False), tuple(sorted(self.nodes.values())), tuple(grants), tuple(sorted(made)))

    def suppliers(self):
        """The supplier of each ECU: as the table has it, else as it was known before, else as the file tells it."""
        told = {}
        for path, ecu in self.found.ecus.items():
            told[path] = self.table.get(path, self.table.get(path.rpartition("/")[2], self.known.supplier(path) or ecu.supplier))
            if ecu.supplier is not None and told[path] != ecu.supplier:
                self.note("changed", path, f"the table of suppliers gives it {told[path] or 'none'}, and the file {ecu.supplier}")
        missing = sorted(path for path, supplier in told.items() if supplier is None)
        if missing:
            how = "`ecus` prints a table to fill in, and an empty supplier leaves an ECU out"
            raise Fault(f"the table of suppliers lacks {' '.join(missing)}; {how}")
        for path in sorted(self.table.keys() - told.keys() - {path.rpartition("/")[2] for path in told}):
            self.note("not kept", f"{path} of the table of suppliers", "there is no such ECU on a channel of the cluster")
        return told

    def name_suppliers(self, told):
        """Names the suppliers, and the nodes of each."""
        names = Names()
        for supplier in sorted({*self.found.suppliers, *filter(None, told.values())}):
            self.supplier_names[supplier] = self.new_name(names, f"supplier {supplier}", supplier)
        if len(self.supplier_names) > SUPPLIERS:
            raise Fault(f"there are {len(self.supplier_names)} suppliers; the register takes {SUPPLIERS}")
        named = {path: self.known.node(path, self.supplier_names.get(told[path])) for path in self.found.ecus}
        spaces = self.spaces((told[path], name) for path, name in named.items() if name)
        for path, ecu in sorted(self.found.ecus.items()):
            supplier = told[path]
            if not supplier:
                self.note("left out", path, "the table of suppliers gives it none")
            elif len(spaces[supplier].taken) == NODES:
                self.note("left out", path, f"{supplier} has {NODES} nodes already")
            else:
                node = Node(self.supplier_names[supplier], self.new_name(spaces[supplier], path, ecu.name, named[path]))
                self.nodes[path] = node
                self.rows.append(Row("ecu", path, "", node.supplier, "", node.name))

    def spaces(self, known):
        """The names of each supplier, of which those that are known are kept."""
        kept = defaultdict(set)
        for supplier, name in known:
            kept[supplier].add(name)
        return defaultdict(Names, {supplier: Names(names) for supplier, names in kept.items()})

    def frames(self):
        """The frames that one node sends, by path, as yet without rows."""
        made, payload = {}, 2 * self.found.figures["payload_words"]
        spaces = self.spaces(self.known.frames[path] for path in self.found.frames if path in self.known.frames)
        for path, frame in sorted(self.found.frames.items()):
            if why := self.no_sender(frame):
                self.note("left out", path, f"{why}; it has {frame.length} bytes, {len(frame.timings)} timings and {len(frame.signals)} signals")
                continue
            node = self.nodes[min(frame.senders)]
            if len(spaces[node.supplier].taken) == FRAMES:
                self.note("left out", path, f"{node.supplier} has {FRAMES} frames already")
                continue
            named = self.new_name(spaces[node.supplier], path, frame.name, self.known.frame(path, node.supplier))
            made[path] = Frame(node.supplier, named, node.name)
            self.rows.append(Row("frame", path, "", node.supplier, "", named))
            self.rows += (Row("pdu", pdu, "", node.supplier, named, "") for pdu in frame.pdus if pdu not in self.becoming(frame))
            if frame.length != payload:
                self.note("not kept", path, f"its length of {frame.length} bytes; in the register each frame has {payload}")
        return made

    def no_sender(self, frame):
        """Why no one node sends the frame, or nothing."""
        senders = sorted(frame.senders)
        if len(senders) != 1:
            return f"{len(senders)} ECUs send it: {' '.join(senders)}" if senders else "no ECU of this file sends it"
        return "" if senders[0] in self.nodes else f"its ECU {senders[0]} has no supplier, or is not in this file"

    def lanes(self, frames):
        """Who is granted each slot and channel: the node that fills most of its cells. A register grants it for all cycles."""
        uses = defaultdict(Counter)
        for path, frame in frames.items():
            for it in self.found.frames[path].timings:
                uses[it.slot, it.channel][Node(frame.supplier, frame.node)] += self.found.figures["cycles"] // it.repetition
        lanes = {}
        for (slot, channel), nodes in sorted(uses.items()):
            first, *others = sorted(nodes, key=lambda node: (-nodes[node], node))
            lanes[slot, channel] = first
            if others:
                why = f"several send in it; it is granted to {name_of(first)} alone, and not to {' '.join(map(name_of, others))}"
                self.note("changed", f"slot {slot} on {channel}", why)
        return lanes

    def idle(self, lanes):
        """Adds the grants that no frame uses."""
        for path, ecu in sorted(self.found.ecus.items()):
            for slot, channel in ecu.idle if path in self.nodes else ():
                what = f"grant of slot {slot} on {channel} to {path}"
                if channel not in ("A", "B") or channel not in self.found.channels or not 1 <= slot <= self.found.figures["static_slots"]:
                    self.note("left out", what, "the cluster has no such slot")
                elif lanes.setdefault((slot, channel), self.nodes[path]) != self.nodes[path]:
                    self.note("left out", what, f"{name_of(lanes[slot, channel])} has it")

    def placed(self, frames, lanes):
        """The placements of each frame, by path."""
        filled, placed = {}, {path: [] for path in frames}
        for path, frame in sorted(frames.items(), key=lambda it: it[1].key):
            for it in self.joined(path):
                cells = [(cycle, channel) for cycle in range(it.base, self.found.figures["cycles"], it.repetition) for channel in it.channels]
                taken = next(((it.slot, *cell) for cell in cells if (it.slot, *cell) in filled), None)
                what = f"{path}: slot {it.slot} on {it.channels}, base {it.base}, repetition {it.repetition}"
                if other := next((lanes[it.slot, at] for at in it.channels if lanes[it.slot, at] != Node(frame.supplier, frame.node)), None):
                    self.note("left out", what, f"another node is granted the slot: {name_of(other)} holds it, and not {name_of(frame)}")
                elif taken:
                    why = f"in cycle {taken[1]} on {taken[2]} {filled[taken]} is sent, and so would be {path}: a cell has one frame"
                    self.note("left out", what, why)
                elif len(placed[path]) == PLACEMENTS:
                    self.note("left out", what, f"the frame has {PLACEMENTS} placements already")
                else:
                    placed[path].append(it)
                    filled.update(dict.fromkeys(((it.slot, *cell) for cell in cells), path))
        return placed

    def joined(self, path):
        """The timings of a frame as placements: on AB what is on A and on B alike, unless the file says that they are apart."""
        frame = self.found.frames[path]
        for it, count in Counter(frame.timings).items():
            if count > 1:
                self.note("changed", f"{path}: {it}", f"the file has it {count} times; it becomes one placement")
        on = {channel: {it[1:] for it in frame.timings if it.channel == channel} for channel in "AB"}
        both = on["A"] & on["B"]
        for it in sorted(frame.apart - both):
            self.note("not kept", f"{path}: apart {' '.join(map(str, it))}", "it is not sent so on A and on B")
        both -= frame.apart
        found = {"A": on["A"] - both, "AB": both, "B": on["B"] - both}
        return sorted(Placement(slot, channels, *cycles) for channels, timings in found.items() for slot, *cycles in timings)

    def becoming(self, frame):
        """The paths of the PDUs of a frame that became signals."""
        return {it.path for it in frame.signals if not it.part and it.path in frame.pdus}

    def signals(self, path, frame):
        """The signals of a frame, by their first bit."""
        pieces = sorted(piece for it in self.found.frames[path].signals for piece in self.pieces(path, it))
        called = self.called(frame.key, pieces)
        names, used, kept, pdus = Names(filter(None, called)), {}, [], self.found.frames[path].pdus
        for it, known in zip(pieces, called):
            what = f"{path}: {told(it)}"
            if why := self.no_room(it, used, len(kept)):
                self.note("left out", what, why)
            else:
                name = self.new_name(names, what, it.name, known)
                kept.append(Signal(it.start, it.length, it.order, name))
                used.update(dict.fromkeys(bits(it), name))
                self.rows.append(Row("pdu" if it.path in pdus else "signal", it.path, it.part, *frame.key, name))
        return kept

    def called(self, key, pieces):
        """The names by which the signals of a frame are known, or none."""
        counts, found = Counter(), []
        for it in pieces:
            found.append(self.known.signal(key, it, counts[it.path, it.part]))
            counts[it.path, it.part] += 1
        return found

    def no_room(self, it, used, count):
        """Why a signal has no place in its frame, or nothing."""
        if not 1 <= it.length <= LONGEST_SIGNAL:
            return "its length is none of 1 to 64 bits"
        places, payload = bits(it), 16 * self.found.figures["payload_words"]
        if min(places) < 0 or max(places) >= payload:
            return f"bit {min(places) if min(places) < 0 else max(places)} is none of the payload, which has {payload} bits"
        if taken := sorted(place for place in places if place in used):
            return f"bit {taken[0]} is used by {used[taken[0]]}"
        return f"the frame has {SIGNALS} signals already" if count == SIGNALS else ""

    def pieces(self, path, it):
        """A signal of more than 64 bits as several, so that its bits stay its own. In big order it begins at its greatest bit."""
        if not LONGEST_SIGNAL < it.length <= PAYLOAD_BITS:
            return [it]
        places = bits(it) if it.order == "little" else bits(it)[::-1]
        starts = places[::LONGEST_SIGNAL]
        self.note("changed", f"{path}: {told(it)}", f"it becomes {len(starts)} signals of at most {LONGEST_SIGNAL} bits, {it.name}_0 and so on")
        lengths = [min(LONGEST_SIGNAL, it.length - before) for before in range(0, it.length, LONGEST_SIGNAL)]
        pieces = enumerate(zip(starts, lengths))
        return [FoundSignal(start, length, it.order, f"{it.name}_{number}", it.path, str(number)) for number, (start, length) in pieces]


def name_of(it):
    """The name of a node, or of the one that sends a frame."""
    return f"{it.supplier}.{it.name if isinstance(it, Node) else it.node}"


def told(signal):
    return f"signal {signal.name}, start {signal.start}, length {signal.length}, {signal.order}"
