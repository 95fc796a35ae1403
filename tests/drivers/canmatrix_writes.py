"""A FIBEX file of CAN as canmatrix writes it: python3 canmatrix_writes.py FILE, by a python3 that has it.

It reads JSON: frames with their sender, bytes and signals, each of which has a name, a start, a length and an order."""
import json
import logging
import sys

import canmatrix
import canmatrix.formats


def matrix_of(frames):
    matrix = canmatrix.CanMatrix()
    for number, (name, sender, size, signals) in enumerate(frames, 1):
        frame = canmatrix.Frame(name, size=size, arbitration_id=canmatrix.ArbitrationId(number))
        for signal, start, length, order in signals:
            frame.add_signal(canmatrix.Signal(signal, start_bit=start, size=length, is_little_endian=order == "little"))
        frame.add_transmitter(sender)
        matrix.add_frame(frame)
    for sender in sorted({it[1] for it in frames}):
        matrix.add_ecu(canmatrix.Ecu(sender))
    return matrix


if __name__ == "__main__":
    logging.disable(logging.CRITICAL)
    canmatrix.formats.dumpp({"": matrix_of(json.loads(sys.stdin.read()))}, sys.argv[1], export_type="fibex")
