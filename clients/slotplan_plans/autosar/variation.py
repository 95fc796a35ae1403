"""Variation points: what stands in a file under a condition. A label chooses what holds, and what has another label does not."""
from ..faults import Fault
from .found import Note

POINT, LABEL = "VARIATION-POINT", "SHORT-LABEL"


class Variation:
    """Tells of a tree's variation points. Where labels are given, what has another one is taken out of the tree."""

    def __init__(self, tree, labels=()):
        self.tree, self.labels, self.met = tree, set(labels), set()

    def notes(self):
        """A note of each element that has a variation point."""
        notes = [note for root in self.tree.roots if next(root.iter(POINT), None) is not None for note in self.of(root)]
        if missing := self.labels - self.met:
            raise Fault(f"no variation point has the label {min(missing)!a:.60}")
        return notes

    def of(self, root):
        """The notes of a file. What is taken out is not looked into."""
        waiting = [(root, "")]
        while waiting:
            element, path = waiting.pop()
            path = self.tree.path_of.get(element, path)
            for child in list(element):
                point = child.find(POINT) if len(child) else None
                if point is not None:
                    yield self.note(element, child, point, path)
            waiting += [(child, path) for child in reversed(element) if len(child)]

    def note(self, parent, element, point, path):
        leaf = point.find(LABEL)
        label = "" if leaf is None else self.tree.own(leaf)
        self.met.add(label)
        what = f"{self.tree.path_of.get(element) or f'{path}: {element.tag}'}: variation point {label}".strip()
        if label and self.labels and label not in self.labels:
            self.tree.take_out(parent, element)
            return Note("left out", what, "another variant was chosen, by --variant-of")
        if label in self.labels:
            return Note("not kept", what, "it was chosen, by --variant-of; the register has no conditions")
        return Note("not kept", what, "it holds under a condition, and the register has it always" + ("; --variant-of chooses one" if label else ""))
