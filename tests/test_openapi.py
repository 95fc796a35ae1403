"""docs/openapi.yaml, compared with docs/HTTP.md, docs/FORMATS.md and the code, and with a server of the built program."""
import http.client
import json
import re
from functools import cache

from tests import TOP
from tests.drivers.program import SECONDS
from tests.drivers.registers import RegisterCase
from tests.drivers.server import HERE
from tests.models.formats import FORMATS
from tests.runner.case import Case

try:
    import yaml
except ImportError:
    yaml = None
try:
    import openapi_spec_validator as validator
except ImportError:
    validator = None

HTTP = (TOP / "docs/HTTP.md").read_text()
REFUSALS = (TOP / "crates/fr_base/src/refusal.rt").read_text()
REFUSED = "| No. | Name | HTTP | Where |"


@cache
def read():
    return yaml.safe_load((TOP / "docs/openapi.yaml").read_text())


def api(test):
    """What the file says. A test that cannot read it is left out."""
    if not yaml:
        test.skipTest("python has no yaml: apt-get install python3-yaml")
    return read()


# ---- what the other pages say


def table(page, head):
    """The rows of each table of a page that begins with this head, as lists of cells."""
    for part in page.split(head)[1:]:
        for line in part.split("\n")[2:]:
            if not line.startswith("|"):
                break
            yield [cell.strip() for cell in line.strip("|").split(" | ")]


def words(cell):
    return re.findall(r"`(\w+)`", cell)


def requests():
    """Each request of FORMATS: its fields, those that may be left out, and who asks."""
    for cells in table(FORMATS, "| `do` | Fields | Who |"):
        left_out = re.findall(r"`(\w+)` \([^)]*left out\)", cells[1])
        yield words(cells[0])[0], set(words(cells[1])), set(left_out), cells[2]


def met():
    """The refusals that each request can meet, in their order."""
    for cells in table(FORMATS, "| `do` | Refusals |"):
        for name in words(cells[0]):
            yield name, [int(number) for number in cells[1].split() if cells[1] != "none"]


def import_refusals():
    """Those of an import, from the table behind its answers: and a refused row."""
    behind = FORMATS[FORMATS.index("## Imports"):]
    return [int(cells[0]) for cells in table(behind, REFUSED)] + [29]


def refusals():
    """Number, name and status of each refusal, as FORMATS has them."""
    for cells in table(FORMATS, REFUSED):
        yield int(cells[0]), words(cells[1])[0], int(cells[2])


def statuses():
    """Number, name and status of each refusal, as the code has them."""
    return {name: (int(number), int(status)) for number, name, status in re.findall(r'=> \((\d+), "(\w+)", (\d+)\)', REFUSALS)}


# ---- the file against them


class OpenApi(Case):
    """openapi.yaml has each route, request, field and refusal of HTTP and FORMATS, with the statuses of the code."""

    def setUp(self):
        super().setUp()
        self.paths, self.schemas = api(self)["paths"], api(self)["components"]["schemas"]

    def test_routes(self):
        told = set(re.findall(r"`(GET|POST|PUT) (/(?:v1/\S+|slotplan\.\w+)?)`", HTTP))
        found = {(method.upper(), path) for path, route in self.paths.items() for method in methods(route)}
        self.see("routes", told, found)

    def test_requests(self):
        listed = {it["$ref"].rsplit("/", 1)[1] for it in self.schemas["Request"]["oneOf"]}
        order = {**dict(met()), "import": import_refusals()}
        for name, fields, left_out, who in requests():
            schema = self.schemas.get(name, {})
            self.see(f"{name} is listed", True, name in listed)
            self.see(f"{name}: fields", fields | {"do"}, set(schema.get("properties", ())))
            self.see(f"{name}: required", (fields | {"do"}) - left_out, set(schema.get("required", ())))
            self.see(f"{name}: who", who, schema.get("x-who"))
            if name in order:
                self.see(f"{name}: refusals", order[name], schema.get("x-refusals"))

    def test_refusals(self):
        listed = {it["$ref"].rsplit("/", 1)[1] for it in self.schemas["Refused"]["oneOf"]}
        told = {**statuses(), "BadRow": (29, 422)}
        for number, name, status in refusals():
            if name == "NoRoom":  # which stands in lines of a proposal alone
                continue
            schema = self.schemas.get(name, {})
            self.see(f"{name} is listed", True, name in listed)
            self.see(f"{name}: number", number, schema.get("properties", {}).get("no", {}).get("const"))
            self.see(f"{name}: status in FORMATS", status, schema.get("x-status"))
        for name in sorted(listed):
            schema = self.schemas[name]
            self.see(f"{name}: number and status", told.get(name), (schema["properties"]["no"]["const"], schema["x-status"]))
            self.see(f"{name}: its word", name, schema["properties"]["refused"]["const"])

    def test_statuses(self):
        """Each route tells the statuses of the refusals that it can meet, and of what the server itself answers."""
        status = {schema["properties"]["no"]["const"]: schema["x-status"] for schema in self.schemas.values() if "x-status" in schema}
        every = set(status.values())
        for path, route in self.paths.items():
            for method in methods(route):
                told = {int(it) for it in route[method]["responses"]}
                asks = [] if route[method].get("security") == [] else [2] if path.startswith("/v1/checks/") else [2, 28]
                meets = every if path == "/v1/commands" else {status[n] for n in [*asks, *(route[method]["x-refusals"])]}
                meets |= {404} if "{word}" in path else {304} if not path.startswith("/v1/") else set()
                self.see(f"{method} {path}: statuses", meets | {200, 400, 405, 431, 501} | (set() if method == "get" else {411, 413}), told)

    def test_valid(self):
        """It is valid OpenAPI 3.1."""
        if not validator:
            self.skipTest("python has no openapi_spec_validator: pip install openapi-spec-validator")
        self.see("faults of the file", [], [str(fault) for fault in validator.OpenAPIV31SpecValidator(api(self)).iter_errors()])


# ---- the file against a server


def methods(route):
    """The methods of a path; each but `get` has a body."""
    return [method for method in route if method in ("get", "post", "put")]


def examples(paths):
    """Each example: its name, method, path, key and body, and the status and bytes that answer it."""
    for path, route in paths.items():
        for method in methods(route):
            answers = {}
            for status, response in route[method]["responses"].items():
                for content in response.get("content", {}).values():
                    for name, example in content.get("examples", {}).items():
                        answers[name] = int(status), example
            asked = answers
            if method != "get":
                [content] = route[method]["requestBody"]["content"].values()
                asked = {name: (0, example) for name, example in content["examples"].items()}
            for name, (_, example) in asked.items():
                body = None if method == "get" else example["value"]
                status, answer = answers[name][0], answers[name][1]["value"]
                yield name, method.upper(), example.get("x-path", path), example["x-key"], body, status, answer


def compact(value):
    """A text as it is, and anything else as JSON, its keys in byte order."""
    return (value if isinstance(value, str) else json.dumps(value, separators=(",", ":"), sort_keys=True)).encode()


def is_there(body):
    """Whether the register has this request already: whether FORMATS tells of it."""
    return not isinstance(body, dict) or body["do"] in {name for name, *_ in requests()}


def asked(port, method, path, key, body):
    link = http.client.HTTPConnection(HERE, port, timeout=SECONDS)
    link.request(method, path, None if body is None else compact(body), {"X-Office-Key": key})
    reply = link.getresponse()
    said = reply.status, reply.read()
    link.close()
    return said


class OpenApiExamples(RegisterCase):
    """A server answers each example of openapi.yaml as it says there, in the file's order."""

    def test_examples(self):
        sent = [it for it in examples(api(self)["paths"]) if is_there(it[4])]
        self.create()
        with self.served("--count", str(len(sent))) as (server, port):
            for name, method, path, key, body, status, answer in sent:
                self.see(f"{name}: {method} {path}", (status, compact(answer)), asked(port, method, path, key, body))
            self.ends(server)
