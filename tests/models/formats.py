"""What docs/FORMATS.md lists."""
import re

from tests import TOP

FORMATS = (TOP / "docs/FORMATS.md").read_text()


def numbered_refusals():
    """Each refusal's number, as it is written, and its name."""
    return re.findall(r"^\| (\d+) \| `(\w+)` \|", FORMATS, re.M)


def refused_requests():
    """Of each refusal's number, as it is written, the requests that can meet it, as the table of requests has them."""
    table = re.search(r"^\| `do` \| Refusals \|\n\|[-|]+\n((?:\|.*\n)+)", FORMATS, re.M)[1]
    rows = [(re.findall(r"`(\w+)`", named), numbers.split()) for named, numbers in re.findall(r"^\| (.*) \| (.*) \|$", table, re.M)]
    return {number: {do for named, numbers in rows if number in numbers for do in named} for number, _ in numbered_refusals()}


def refusals():
    """The refusals' names."""
    return {name for _, name in numbered_refusals()} | set(re.findall(r'"no":29,"refused":"(\w+)"', FORMATS))


def faults():
    """The faults' words."""
    tables = re.findall(r"^\| Fault \|.*\n\|[-|]+\n((?:\|.*\n)+)", FORMATS, re.M)
    return {word for table in tables for word in re.findall(r"^\| `(\w+)` \|", table, re.M)}


def overlay_query():
    """What it has for someone who has no `slotplan`: the frames that a variant shows, and where their rows are."""
    return re.search(r"```sql\n(WITH RECURSIVE .*?)```", FORMATS, re.DOTALL)[1]
