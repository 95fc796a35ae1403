"""The short names of a plan's elements, and the paths by which they refer to one another.

AUTOSAR tells short names apart without regard to case, and many tools know an ECU, a frame or a signal by its short name alone, whatever its package.
So the names of each of these kinds differ in the whole cluster. Special data has the register's name where the short name is another."""
from collections import Counter

from ..plan import Node


def distinct(wanted, others=()):
    """A short name for each key: its own name, or its longer one where several have its own; a number stands behind one that is taken. The names of
    others, in small letters, are taken."""
    holders = Counter(own.lower() for own, _ in wanted.values()) + Counter(others)
    found, taken = {}, set(others)
    for alone in True, False:
        for key, (own, longer) in wanted.items():
            if (holders[own.lower()] == 1) is alone:
                found[key] = free(own if alone else longer, taken)
    return found


def free(wanted, taken):
    """The name, or with a number behind it the first that is not taken. It is taken now."""
    name, number = wanted, 1
    while name.lower() in taken:
        number += 1
        name = f"{wanted}_{number}"
    taken.add(name.lower())
    return name


class Names:
    """The short names of a plan: of suppliers by name, of nodes, of frames by their key, and of signals by that and their name. The packages of
    suppliers lie at a path, and other frames and signals may have names already."""

    types = "/Types"

    def __init__(self, plan, cluster, suppliers="/Suppliers", frames=(), signals=()):
        self.cluster, self.suppliers = cluster, suppliers
        self.supplier = distinct({name: (name, name) for name in plan.cluster.suppliers})
        self.node = distinct({it: (it.name, f"{it.supplier}_{it.name}") for it in plan.nodes})
        self.frame = distinct({it.key: (it.name, "_".join(it.key)) for it in plan.frames}, frames)
        own = [(frame, signal.name) for frame in plan.frames for signal in frame.signals]
        self.signal = distinct({(*frame.key, name): (name, f"{self.frame[frame.key]}_{name}") for frame, name in own}, signals)

    def of_channel(self, channel, name):
        """The path of an element of a channel."""
        return f"/Cluster/{self.cluster}/Channel_{channel}/{name}"

    def package(self, supplier, name):
        return f"{self.suppliers}/{self.supplier[supplier]}/{name}"

    def ecu_path(self, node):
        return f"{self.package(node.supplier, 'Ecus')}/{self.node[node]}"

    def frame_path(self, frame):
        return f"{self.package(frame.supplier, 'Frames')}/{self.frame[frame.key]}"

    def pdu_path(self, frame):
        return f"{self.package(frame.supplier, 'Pdus')}/{self.frame[frame.key]}"

    def signal_path(self, frame, signal, package="Signals"):
        return f"{self.package(frame.supplier, package)}/{self.of_signal(frame, signal)}"

    def of_signal(self, frame, signal):
        return self.signal[(*frame.key, signal.name)]

    def port_path(self, frame, channel, kind):
        """The port by which a frame's ECU sends frames, PDUs or signals on a channel."""
        return f"{self.ecu_path(sender(frame))}/Connector_{channel}/{kind}_Out"


def sender(frame):
    """The node that sends the frame."""
    return Node(frame.supplier, frame.node)


def renamed(short, name):
    """Special data that keeps the register's name, where the short name is another."""
    return [("name", name)] if short != name else []
