"""Plans as a cluster file and requests: those of the examples, and those at the limits."""
import json

from tests import TOP


def examples():
    """The cluster file and the requests of each example, by its name."""
    for script in sorted((TOP / "examples").glob("*.script")):
        yield (script.stem, *script.read_text().split("---\n", 1))


def limits(share=2, signals=8, spread=1, slots=1023):
    """A cluster file, its requests, and the plan that they make: 64 suppliers, both channels, 64 cycles. All lanes are granted. So many frames
    share each, one cycle after the other, so all cells are used and no two can be joined. Each frame has so many signals, and is sent in
    so many lanes of its supplier."""
    names = [f"supplier{number:02}" for number in range(64)]
    cycle = slots * 12 + 1200
    cluster = "\n".join(
        ['channels = "AB"', f"static_slots = {slots}", "slot_macroticks = 12", "dynamic_macroticks = 1000", "symbol_macroticks = 100", "idle_macroticks = 100"]
        + [f"macroticks_per_cycle = {cycle}", "payload_words = 127", 'integrator = "integrator1"', "[suppliers]"]
        + [f'{name} = "key{name}"' for name in names]
    )
    requests = []
    ask = lambda key, what, **fields: requests.append(f"{key} {json.dumps({'do': what, **fields})}")
    ask("integrator1", "open_variant", variant="v1")
    plan = {"channels": "AB", "slots": slots, "cycles": 64, "suppliers": names, "viewer": None, "grants": [], "cells": [], "frames": [], "layouts": {}}
    held = {name: [] for name in names}
    for name in names:
        ask("integrator1", "add_node", supplier=name, node="node0")
    for lane in range(2 * slots):
        slot, channel, name = lane // 2 + 1, "AB"[lane % 2], names[lane * 64 // (2 * slots)]
        ask("integrator1", "grant", variant="v1", slot=slot, channel=channel, supplier=name, node="node0")
        plan["grants"].append((slot, channel, "node0", name))
        held[name].append((lane, slot, channel))
    layout = [(f"signal{k}", 16 * k + 7 * (k % 4 == 3), 12, "big" if k % 4 == 3 else "little") for k in range(signals)]
    for name in names:
        placed, laid = [], []
        for group in (held[name][first : first + spread] for first in range(0, len(held[name]), spread)):
            for base in range(share):
                frame = f"frame{share * group[0][0] + base}"
                placed += [f"{frame},node0,{slot},{channel},{base},{share}" for _, slot, channel in group]
                laid += [f"{frame},{','.join(map(str, signal))}" for signal in layout]
                gap = share * cycle - (group[-1][1] - group[0][1]) * 12
                plan["frames"].append((frame, "node0", name, [(str(slot), channel, f"{base}/{share}") for _, slot, channel in group], str(gap)))
                plan["layouts"][name, frame] = layout
                plan["cells"] += [(cycle, slot, channel, frame, "node0", name) for _, slot, channel in group for cycle in range(base, 64, share)]
        for label, head, rows in ("frames", "frame,node,slot,channels,base,repetition", placed), ("signals", "frame,signal,start,length,order", laid):
            for first in range(0, len(rows), 512):
                body = "\n".join([head, *rows[first : first + 512]]) + "\n"
                ask(f"key{name}", "import", variant="v1", label=f"{label}{first}", body=body)
    return cluster, "\n".join(requests), plan
