"""Scripts that `run` answers, and the faults of those that it does not.

What is wanted was typed by hand from docs/FORMATS.md, is made by its rules in tests/models/scripts.py, or comes from another register; none of it is the
program's own output."""
from tests import TOP
from tests.drivers.invocations import Invocation, InvocationCase, answered, faulty
from tests.models import naive
from tests.models.messages import FIRST, FIRST_ANSWERS
from tests.models.random_scripts import random_script
from tests.models.scripts import (
    CLUSTER, DONE, LARGE, answers, at_the_limits, cluster_file, imports_of_rows, imports_that_are_kept, refused, script, suppliers,
    suppliers_that_join, with_a_stranger,
)
from tests.runner.parameters import for_values

OPEN = 'integrator1 {"do":"open_variant","variant":"v1"}'
OPENED = [(OPEN, DONE)]


class ByHand(InvocationCase):
    """Scripts of examples/ and tests/rows/ are answered as was typed by hand; a stranger's lines between them change no answer."""

    def test_files(self):
        for file in sorted([*TOP.glob("tests/rows/*.script"), *TOP.glob("examples/*.script")]):
            self.ends(Invocation(str(file.relative_to(TOP)), file.read_bytes(), file.with_suffix(".answers").read_bytes()))

    def test_stranger(self):
        lines = FIRST.decode().partition("---\n")[2].splitlines()
        self.ends(answered("a stranger's lines", CLUSTER, with_a_stranger(list(zip(lines, FIRST_ANSWERS.decode().splitlines())))))


class Limits(InvocationCase):
    """A supplier gets all that it may have, and one more of each is refused; nodes, grants, frames, placements, signals, variants, imports."""

    def test_plan(self):
        self.ends(answered("a script at the limits", {**LARGE, "suppliers": suppliers(64)}, at_the_limits()))

    def test_joining(self):
        self.ends(answered("suppliers that join", {**CLUSTER, "suppliers": "{}"}, suppliers_that_join()))

    def test_imports(self):
        for imports in imports_of_rows, imports_that_are_kept:
            self.ends(answered(imports.__name__, CLUSTER, imports()))


class AnotherRegister(InvocationCase):
    """Mixtures of 2,000 requests are answered as by another register; it is that of naive.py, over the SQLite of python3."""

    @for_values("plan", "refused", "queries", "place", "imports", "joining", "revising", "comparing", "proposing", "all")
    def test_mixture(self, mix):
        for seed in 1, 2, 3:
            given = random_script(mix, 2000, seed=seed)
            self.ends(Invocation(f"made with {seed}", given, naive.answers(given)))


# ---- cluster files

SHORT_LONG_AND_OTHERS = ("", "short07", "k" * 65, "supplier_1", "supplier 1", "schlüssel1")

# What makes a cluster file faulty, by the fault; many are faulty in a later way too.
FAULTS = {
    "BadField": [
        *({key: None} for key in CLUSTER),
        *({key: value} for key in list(CLUSTER)[1:8] for value in ('"4"', "4.0", "true", "-4", "4294967296")),
        *(dict(channels=value) for value in ('"BA"', '"a"', '""', "1", '["A"]')),
        *(dict(suppliers=value) for value in ('"s1"', "[]", "{s1 = 1}", "{s1 = {key = 1}}", '{s1 = ["supplier01"]}')),
        *(dict(cycles=value) for value in ('"64"', "64.0", "true", "-8", "4294967296")),
        *(dict(integrator="1"), dict(cycle="64"), dict(static_slots="1", payload_words="-1")),
    ],
    "BadToml": [dict(payload_words=value) for value in ("99999999999999999999", "", "'1", "1\npayload_words = 1")],
    "BadSlots": [dict(static_slots=value, payload_words="128") for value in ("0", "1", "1024", "4294967295")],
    "BadPayload": [dict(payload_words=value, idle_macroticks="0") for value in ("128", "4294967295")],
    "BadMacroticks": [
        dict(slot_macroticks="0"),
        dict(idle_macroticks="0"),
        dict(slot_macroticks="25", dynamic_macroticks="0", symbol_macroticks="0", idle_macroticks="0"),
        dict(dynamic_macroticks="15941", macroticks_per_cycle="16001"),
    ],
    "BadSum": [
        dict(macroticks_per_cycle="101", suppliers=suppliers(65)),
        dict(macroticks_per_cycle="99"),
        dict(slot_macroticks="1073741824", dynamic_macroticks="80"),
        dict(dynamic_macroticks="4294967295", symbol_macroticks="51"),
        dict(macroticks_per_cycle="101", cycles="7"),
    ],
    "BadCycleCount": [dict(cycles=value, suppliers=suppliers(65)) for value in ("0", "6", "7", "9", "63", "65", "66", "4294967295")],
    "Limit": [dict(suppliers=suppliers(65)), dict(suppliers=suppliers(64)[:-1] + ', 1s = ""}')],
    "BadName": [dict(suppliers=f'{{{name} = ""}}') for name in ("1s", '""', "s-1", '"s 1"', "_s", "s" * 33)],
    "BadKey": [
        *(dict(suppliers=f'{{s1 = "{key}", s2 = "{key}"}}') for key in SHORT_LONG_AND_OTHERS),
        *(dict(integrator=f'"{key}"') for key in SHORT_LONG_AND_OTHERS),
    ],
    "KeyTwice": [dict(suppliers=f'{{s1 = "supplier01", s2 = "{key}"}}') for key in ("supplier01", "integrator1")],
}

LEAST = dict(slot_macroticks="1", dynamic_macroticks="0", symbol_macroticks="0", idle_macroticks="1")
FAULTLESS = [
    dict(**LEAST, static_slots="1023", macroticks_per_cycle="1024"),
    dict(**LEAST, static_slots="2", macroticks_per_cycle="3"),
    dict(dynamic_macroticks="15940", macroticks_per_cycle="16000"),
    *(dict(payload_words=value) for value in ("0", "127", "0x1", "+1", "1_2")),
    *(dict(channels=value) for value in ("'A'", '"B"', '"AB"')),
    *(dict(cycles=value) for value in ("8", "10", "62", "64")),
    *(dict(suppliers=value) for value in ("{}", suppliers(64), f'{{{"s" * 32} = "{"k" * 64}", S_1 = "8letters"}}')),
]


class ClusterFiles(InvocationCase):
    """Each fault of a cluster file has its word, also before those that come later; a file without one is taken."""

    @for_values(*FAULTS)
    def test_fault(self, word):
        for changes in FAULTS[word]:
            self.ends(faulty(f"a cluster file with {changes}", script({**CLUSTER, **changes}, OPENED), word))

    def test_no_cluster(self):
        for word, text in ("BadToml", b"\xff\n"), ("BadToml", b"x\n"), ("BadField", b""), ("BadField", b"[suppliers]\n"):
            self.ends(faulty(f"a cluster file {text}", text + b"---\n", word))

    def test_without_fault(self):
        for changes in FAULTLESS:
            self.ends(answered(f"a cluster file with {changes}", {**CLUSTER, **changes}, OPENED))

    def test_numbers_and_texts(self):
        """Those at the edge of what TOML has."""
        self.ends(faulty("a number below 2 ^ 63", script({**CLUSTER, "static_slots": "9223372036854775807"}, []), "BadField"))
        self.ends(faulty("a number of 2 ^ 63", script({**CLUSTER, "static_slots": "9223372036854775808"}, []), "BadToml"))
        not_utf8 = cluster_file({**CLUSTER, "channels": None}).encode() + b'channels = "\xff"\n---\n'
        self.ends(faulty("a text of a cluster file that is not UTF-8", not_utf8, "BadToml"))


class Separators(InvocationCase):
    """The line --- ends a cluster file, and nothing else does; nothing is written where nothing does."""

    cluster = cluster_file(CLUSTER).encode()

    def test_ends(self):
        for end in b"---", b"---\n", b"---\r\n", b"---\n\n\r\n\n":
            self.ends(Invocation(f"the cluster file ends with {end}", self.cluster + end))
        for end in b"---\n" + OPEN.encode(), b"# ---\n---\r\n" + OPEN.encode() + b"\r\n", b"---\n\n\n" + OPEN.encode() + b"\n\n":
            self.ends(Invocation(f"the cluster file ends with {end}", self.cluster + end, answers(OPENED)))

    def test_no_end(self):
        for end in b"", OPEN.encode(), b"--- \n", b" ---\n", b"----\n", b"--\n-\n", b"---x\n", b"---\r", b"---\r\r\n", b"\xef\xbb\xbf---\n":
            self.ends(faulty(f"no separator in {end}", self.cluster + end, "NoSeparator"))
        self.ends(faulty("an empty script", b"", "NoSeparator"))
        self.ends(faulty("a separator within a text of the cluster file", b"x = '''\n---\n'''\n" + FIRST, "BadToml"))


# ---- requests

SCHEDULE = b'{"do":"schedule","variant":"v1"}'

# Lines whose bytes decide what they are.
LINES = {
    b"supplier01": (1, "BadText"),
    b"supplier01 ": (1, "BadText"),
    b"supplier01\t" + SCHEDULE: (1, "BadText"),
    b"---": (1, "BadText"),
    b"\xff": (1, "BadText"),
    b"\xff {}": (1, "BadText"),
    b'supplier01 {"do":"schedule","variant":"v\xff"}': (1, "BadText"),
    b"supplier01 \xef\xbb\xbf" + SCHEDULE: (1, "BadText"),
    b"supplier01 " + b"[" * 5000: (1, "BadText"),
    b"supplier01 " + b'{"do":' * 5000: (1, "BadText"),
    b" ": (1, "BadText"),
    b" " + SCHEDULE: (2, "UnknownKey"),
    b"\xff " + SCHEDULE: (2, "UnknownKey"),
    b"supplier01\r " + SCHEDULE: (2, "UnknownKey"),
    b"k" * 5000 + b" " + SCHEDULE: (2, "UnknownKey"),
    b'supplier01 {"do":"schedule","variant":"' + b"v" * 5000 + b'"}': (4, "BadName"),
    b'supplier01 {"do":"schedule","variant":"' + b"\\u0076" * 5000 + b'"}': (4, "BadName"),
    b'supplier01 {"do":"schedule",' + b'"variant":"1v",' * 5000 + b'"variant":"v9"}': (10, "NoVariant"),
    b"supplier01 " + b" " * 5000 + SCHEDULE + b"\t" * 5000: (10, "NoVariant"),
    b"supplier01 \r" + SCHEDULE + b"\r": (10, "NoVariant"),
    b"supplier01  " + SCHEDULE: (10, "NoVariant"),
}

REVOKE = r'integrator1 {"do":"revoke","variant":"v1","slot":%s,"channel":"B","supplier":"s1"}'

# Numbers and texts at the edge of what JSON has.
TEXTS = [
    (r'supplier01 {"do":"gaps","variant":"\ud83d\ude00\/\n"}', refused(4, "BadName")),
    (r'supplier01 {"do":"gaps","variant":"\ud83d"}', refused(1, "BadText")),
    ('supplier01 {"do":"gaps","variant":01,"variant":"v1"}', refused(1, "BadText")),
    ('supplier01 {"do":7,"variant":"v1"}', refused(1, "BadText")),
    ('supplier01 {"do":"layout","variant":"v1","frame":["f1"]}', refused(1, "BadText")),
    (REVOKE % "01", refused(1, "BadText")),
    (REVOKE % "4294967295", refused(6, "BadSlot")),
]


class Requests(InvocationCase):
    """A request's line is a key, a space and JSON; one whose bytes are not is refused, by what it lacks first."""

    begun = cluster_file(CLUSTER).encode() + b"---\n"

    def test_spaces(self):
        long = OPEN.replace(":", " " * 5000 + ":\t")
        self.ends(Invocation("a request of 10,000 spaces", self.begun + long.encode(), answers(OPENED)))

    def test_lines(self):
        wanted = "".join(f"{refused(*answer)}\n" for answer in LINES.values()).encode()
        for end in b"\n", b"\r\n":
            self.ends(Invocation(f"lines that end with {end}", self.begun + end.join(LINES) + end, wanted))
        self.ends(Invocation("a last line of one carriage return", self.begun + b"\r", f"{refused(1, 'BadText')}\n".encode()))

    def test_texts(self):
        self.ends(answered("texts and numbers of requests", CLUSTER, TEXTS))

    def test_longest_gap(self):
        longest = script({**CLUSTER, "dynamic_macroticks": "15940", "macroticks_per_cycle": "16000"}, []) + FIRST.partition(b"---\n")[2]
        gap = b'supplier01 {"do":"gaps","variant":"v1"}\n'
        self.ends(Invocation("the longest gap", longest + gap, FIRST_ANSWERS + b'{"lines":["GAP 1024000 f1"],"ok":"gaps"}\n'))
