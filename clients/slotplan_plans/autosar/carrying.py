"""A plan carried back into the description that it came from: what is changed of its elements."""
from .adding import Adding
from .changes import Changes
from .crossing import Crossing
from .parts import idle
from .resending import Resent
from .telling import tell


class Carrying:
    """What is to change of what was found, whose proposal is no longer the plan. `left` tells what cannot be carried back."""

    def __init__(self, proposal, plan):
        self.proposal, self.plan, self.found = proposal, plan, proposal.found
        self.source, self.left = self.found.source, []
        self.tree = self.source.tree
        self.ecus = {node: path for path, node in proposal.nodes.items()}
        self.changes = Changes(self.tree)
        self.crossing = Crossing(self)
        self.carry()

    def carry(self):
        before, after = ({frame.key: frame for frame in plan.frames} for plan in (self.proposal.plan, self.plan))
        for key in sorted(before.keys() & after.keys()):
            if (before[key].placements, before[key].node) != (after[key].placements, after[key].node):
                Resent(self, self.proposal.paths[key], before[key], after[key]).carry()
        if new := [frame for key, frame in after.items() if key not in before]:
            Adding(self).add(new)
        for key in sorted(before.keys() - after.keys()):
            self.remove(self.proposal.paths[key], key)
        if self.found.variant is not None:
            self.tell_plan()

    def remove(self, path, key):
        """Takes a frame out of the file, with its triggerings, and with its place in the system's list."""
        own = [it for letter in "AB" for it in self.source.triggerings[path, letter]]
        referring = [pair for it in own for pair in self.crossing.referring[self.tree.path_of[it]]]
        referring += [pair for pair in self.crossing.referring[path] if pair[1] not in own]
        others = sorted({element.tag for _, element in referring if element.tag != "FIBEX-ELEMENT-REF-CONDITIONAL"})
        if others:
            self.left.append(f"FRAME {key[1]} {key[0]}: {path} stays: {' and '.join(others)} refer to it")
            return
        for element in [*own, self.tree.at(path), *(element for _, element in referring)]:
            self.changes.remove(element)

    def tell_plan(self):
        """Special data of a plan's description: its variant, its suppliers, and the grants that no frame uses."""
        if self.found.variant != self.plan.variant.name:
            tell(self.changes, self.source.of, "variant", [self.plan.variant.name])
        if set(self.found.suppliers) != set(self.plan.cluster.suppliers):
            tell(self.changes, self.source.of, "supplier", self.plan.cluster.suppliers)
        before, after = idle(self.proposal.plan), idle(self.plan)
        for path, node in sorted(self.proposal.nodes.items()):
            if before.get(node) != after.get(node):
                tell(self.changes, self.tree.at(path), "grant", [f"{it.slot} {it.channel}" for it in after.get(node, [])])
