"""What canmatrix reads in an AUTOSAR system description: python3 canmatrix_reads.py FILE, by a python3 that has it.

It writes JSON in its last line. `can` changes nothing in canmatrix: it gives cluster, channel, frames and triggerings of the file CAN's names, gives
each triggering a number, and reads each channel alone. `mended` reads FlexRay. As installed, canmatrix stops there at the first reference: two of its
look-ups raise "use follow_ref!", which is no exception. Here they follow references, as its look-ups for CAN do, and what it asks by the name
I-PDU-TRIGGERING, of AUTOSAR 3, is also found as PDU-TRIGGERING, of AUTOSAR 4. All else is its own."""
import itertools
import json
import logging
import re
import sys
import tempfile

import canmatrix
import canmatrix.formats
from canmatrix.formats import arxml


def get_child(self, parent, tag):
    if parent is None:
        return None
    found = self.find(tag, parent)
    return self.follow_ref(parent, f"{tag}-REF") if found is None else found


def get_children(self, parent, tag):
    if parent is None:
        return []
    names = (tag, "PDU-TRIGGERING") if tag == "I-PDU-TRIGGERING" else (tag,)
    return self.findall(tag, parent) or [it for name in names for it in self.follow_all_ref(parent, f"{name}-REF")]


def start_of(signal):
    """The start, where a byte's least bit is its bit 0."""
    return signal.get_startbit(bit_numbering=1)


def signal_of(signal):
    """Start, length, order, name, and whether it has a sign."""
    return [start_of(signal), signal.size, "little" if signal.is_little_endian else "big", signal.name, signal.is_signed]


def packed(pdu, given):
    """The values, by start, that these payloads have, and the payloads of these values."""
    whole = canmatrix.Frame(name="f", size=pdu.size)
    for signal in pdu.signals:
        whole.add_signal(signal)
    names = {str(start_of(signal)): signal.name for signal in pdu.signals}
    for values, payload in given:
        told = whole.unpack(bytes.fromhex(payload))
        packed = whole.signals_to_bytes({name: values[start] for start, name in names.items()})
        yield {start: told[name].raw_value for start, name in names.items()}, bytes(packed).hex()


def mended(file, given):
    """Each timing, with its PDUs; the values that were given for it; and the sender of each triggering."""
    arxml.Earxml.get_child, arxml.Earxml.get_children = get_child, get_children
    timings = []
    for name, matrix in canmatrix.formats.loadp(file, decode_flexray=True).items():
        for frame in matrix.frames:
            at = [name[-1], frame.slot_id, int(frame.base_cycle), int(frame.repitition_cycle)]
            pdus = [[pdu.name, sorted(map(signal_of, pdu.signals))] for pdu in frame.pdus]
            values = [list(packed(pdu, given.get(" ".join(map(str, at)), []))) for pdu in frame.pdus if pdu.signals]
            timings.append([*at, frame.size, pdus, values])
    return {"timings": timings, "senders": list(senders(file))}


def senders(file):
    """The path of each triggering, the direction of its port, and the path of the port's ECU: by canmatrix's walk for CAN."""
    tree = arxml.Earxml()
    tree.open(file)
    for triggering in tree.findall("FLEXRAY-FRAME-TRIGGERING"):
        for direction in tree.selector(triggering, ">>FRAME-PORT-REF/COMMUNICATION-DIRECTION"):
            ecu = tree.get_ecu_instance(element=direction)
            yield [tree.get_short_name_path_of_element(triggering), direction.text, tree.get_short_name_path_of_element(ecu)]


def can(file):
    """Each triggering's frame: channel, name, size, senders, and signals."""
    text = re.sub("FLEXRAY-(CLUSTER|PHYSICAL-CHANNEL|FRAME-TRIGGERING|FRAME)\\b", r"CAN-\1", open(file, encoding="utf-8").read())
    number = itertools.count(1)
    text = re.sub("</CAN-FRAME-TRIGGERING>", lambda it: f"<IDENTIFIER>{next(number)}</IDENTIFIER>{it[0]}", text)
    channels = re.findall("<CAN-PHYSICAL-CHANNEL>.*?</CAN-PHYSICAL-CHANNEL>", text, re.DOTALL)
    for channel in channels:
        letter = re.search("CHANNEL-NAME>CHANNEL-(.)", channel)[1]
        alone = text
        for other in channels:
            alone = alone if other == channel else alone.replace(other, "")
        with tempfile.NamedTemporaryFile("w", suffix=".arxml") as made:
            made.write(alone)
            made.flush()
            for matrix in canmatrix.formats.loadp(made.name).values():
                yield from ([letter, it.name, it.size, it.transmitters, sorted(map(signal_of, it.signals))] for it in matrix.frames)


if __name__ == "__main__":
    logging.disable(logging.CRITICAL)
    path, values = sys.argv[1], json.loads(sys.stdin.read())
    as_can = list(can(path))
    print()
    print(json.dumps({"can": as_can, "mended": mended(path, values)}))
