"""The integrator's nodes and grants from tables: first what would become of each row, then, where it is asked for, the requests one by one."""
import re
from collections import Counter, defaultdict
from typing import NamedTuple

from .comparing import line_of_grant
from .faults import Fault
from .plan import Grant, Node
from .reading import read
from .tables import grants_of, nodes_of
from .words import add_source, source_of

NAME = re.compile(r"[A-Za-z][A-Za-z0-9_]{0,31}")
NODES_OF_A_SUPPLIER = 64


class Step(NamedTuple):
    """A row that comes, `+`, or goes, `-`; and why it cannot, where it cannot."""

    sign: str
    row: Node | Grant
    why: str = ""

    def __str__(self):
        line = line_of_grant(self.row) if isinstance(self.row, Grant) else f"NODE {self.row.name} {self.row.supplier}"
        return f"{self.sign} {line}" + (f": {self.why}" if self.why else "")

    def request(self, variant):
        if isinstance(self.row, Node):
            return {"do": "add_node", "supplier": self.row.supplier, "node": self.row.name}
        lane = {"variant": variant, "slot": self.row.slot, "channel": self.row.channel, "supplier": self.row.supplier}
        return {"do": "grant", **lane, "node": self.row.node} if self.sign == "+" else {"do": "revoke", **lane}


def add_commands(commands):
    parser = commands.add_parser("arrange", help=arrange.__doc__, description=arrange.__doc__)
    parser.set_defaults(work=arrange)
    add_source(parser, supplier=False)
    parser.add_argument("--nodes", metavar="FILE", help="a table with the columns supplier, node: nodes that are to be there")
    parser.add_argument("--grants", metavar="FILE", help="a table with the columns slot, channel, supplier, node: all grants of the variant")
    parser.add_argument("--keep", action="store_true", help="revoke nothing: grants that the table lacks stay")
    parser.add_argument("--do", action="store_true", help="send the requests, one by one; of a file it needs --key too")


def arrange(given):
    """Says which nodes and grants tables would add, which grants they would revoke, and what would be refused and why; with --do it sends that."""
    if not (given.nodes or given.grants):
        raise Fault("arrange needs --nodes or --grants")
    source = source_of(given, asked=True)
    if given.do and not source.key:
        raise Fault("--do needs --key: the file whose first line is the integrator's key")
    nodes = list(nodes_of(given.nodes)) if given.nodes else []
    grants = list(grants_of(given.grants)) if given.grants else None
    plan = read(source, given.variant)
    if plan.reader:
        raise Fault(f"the key is of {plan.reader}: nodes and grants are the integrator's")
    steps = steps_to(plan, nodes, grants, given.keep)
    refused = [step for step in steps if step.why]
    ahead = [step for step in steps if not step.why]
    for step in refused:
        print(f"refused: {step}")
    if given.do:
        send(source, given.variant, ahead)
    else:
        print("".join(f"{step}\n" for step in ahead), end="")
    print(f"{counted(ahead)}, refused: {len(refused)}{'' if given.do or not ahead else '; nothing was sent: --do sends it'}")
    return 1 if refused else 0


def steps_to(plan, nodes, grants, keep=False):
    """The steps from a plan to the rows of tables, each with its line; without a table of grants they stay."""
    added = added_nodes(plan, {node for _, node in nodes})
    changed = [] if grants is None else changed_grants(plan, added, grants, keep)
    return sorted([*added, *changed], key=turn)


def turn(step):
    """Revocations come first, then nodes, then grants."""
    return step.sign == "+", isinstance(step.row, Grant), step.row


def counted(steps):
    counts = Counter((step.sign, type(step.row)) for step in steps)
    return f"revocations: {counts['-', Grant]}, nodes: {counts['+', Node]}, grants: {counts['+', Grant]}"


def added_nodes(plan, wanted):
    """A step for each node that is not there."""
    counts, steps = Counter(node.supplier for node in plan.nodes), []
    for node in sorted(wanted - set(plan.nodes)):
        why = unnamed(plan, node.supplier, node.name)
        if not why and counts[node.supplier] == NODES_OF_A_SUPPLIER:
            why = f"{node.supplier} has {NODES_OF_A_SUPPLIER} nodes"
        counts[node.supplier] += not why
        steps.append(Step("+", node, why))
    return steps


def unnamed(plan, supplier, node):
    """Why the supplier can have no such node."""
    if not NAME.fullmatch(node):
        return f"{node!a:.40} is no name, which is 1 to 32 letters, digits and underscores, a letter first"
    return "" if supplier in plan.cluster.suppliers else f"there is no supplier {supplier!a:.40}"


def changed_grants(plan, added, table, keep):
    """The steps from the variant's grants to those of the table. Where a slot's new grant is refused, its old one stays."""
    wanted, steps = defaultdict(dict), []
    for line, grant in table:
        wanted[grant.lane].setdefault(grant, line)
    held = {grant.lane: grant for grant in plan.grants}
    nodes = {*plan.nodes, *(step.row for step in added if not step.why)}
    sent = frames_sent(plan)
    for lane in sorted(wanted.keys() | held.keys()):
        old, new = held.get(lane), wanted[lane] if lane in wanted else {}
        if old and (not new and keep or list(new) == [old]):
            continue
        why = twice(new) or any_reason(plan, nodes, new) or stays(plan, old, next(iter(new), None), sent, keep)
        if not new or old and not why:
            steps.append(Step("-", old, why))
        steps += [Step("+", grant, why) for grant in new]
    return steps


def twice(new):
    """Why a slot that the table has more than once cannot be granted."""
    return f"lines {' and '.join(map(str, sorted(new.values())))} differ in who has it" if len(new) > 1 else ""


def any_reason(plan, nodes, new):
    """Why what the table wants of a slot cannot be, whoever holds it."""
    for grant in new:
        if not 1 <= grant.slot <= plan.cluster.figures["static_slots"]:
            return f"the cluster has the slots 1 to {plan.cluster.figures['static_slots']}"
        if grant.channel not in plan.cluster.channels:
            return f"the cluster has no channel {grant.channel}"
        if why := unnamed(plan, grant.supplier, grant.node):
            return why
        if Node(grant.supplier, grant.node) not in nodes:
            return f"{grant.supplier} has no node {grant.node}"
    return ""


def stays(plan, old, new, sent, keep):
    """Why a slot's old grant cannot go, or the new one not come."""
    if plan.variant.is_released:
        return f"{plan.variant.name} is released"
    if old and keep:
        return f"{old.supplier} holds it" if old.supplier != new.supplier else f"{old.supplier} holds it for {old.node}"
    if old and old.lane in sent:
        return f"in use: {old.supplier} sends {' '.join(sorted(sent[old.lane]))} there"
    return ""


def frames_sent(plan):
    """The names of the frames that are sent in each slot and channel."""
    found = defaultdict(set)
    for frame in plan.frames:
        for placed in frame.placements:
            for channel in placed.channels:
                found[placed.slot, channel].add(frame.name)
    return found


def send(source, variant, steps, told=True):
    """Sends the requests one by one, up to the first that is not done, and tells each that is."""
    number = 0
    try:
        with source.asked() as ask:
            for number, step in enumerate(steps):
                answer = ask(step.request(variant))
                if answer.get("ok") != "done":
                    raise Fault(f"{step}: {answer.get('no', '')} {answer.get('refused', answer)}")
                if told:
                    print(step, flush=True)
    except (Fault, KeyboardInterrupt) as why:
        left = f"{number} of {len(steps)} were done, and the same call goes on"
        raise Fault(f"{str(why) or 'stopped'}; {left}") from None
