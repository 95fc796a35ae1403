"""The planner's page as a server replies with it: to everybody the same bytes, which are those that its sources give, with the fields that
docs/HTTP.md has, and to whom holds a part as it is that part's tag alone; nothing is asked of the register."""
import hashlib
import sys

from tests import TOP
from tests.drivers.registers import RegisterCase
from tests.drivers.server import sent, started
from tests.models.messages import engine, head, post, put

sys.path.insert(0, str(TOP / "page"))
import build  # noqa: E402

POLICY = (
    "default-src 'none'; script-src 'self'; style-src 'self'; connect-src 'self'; img-src data:; base-uri 'none'; form-action 'none'; "
    "frame-ancestors 'none'; require-trusted-types-for 'script'; trusted-types 'none'"
)
GUARDS = {
    "/": [
        "content-security-policy: " + POLICY, "x-content-type-options: nosniff", "referrer-policy: no-referrer",
        "cross-origin-opener-policy: same-origin", "cache-control: no-cache",
    ],
    "/slotplan.css": ["x-content-type-options: nosniff", "referrer-policy: no-referrer", "cache-control: no-cache"],
    "/slotplan.js": ["x-content-type-options: nosniff", "referrer-policy: no-referrer", "cache-control: no-cache"],
}
TYPES = {"/": "text/html", "/slotplan.css": "text/css", "/slotplan.js": "text/javascript"}
NOT_ALLOWED = engine("405 Method Not Allowed", "allow: GET")
NOT_FOUND = engine("404 Not Found")


def asked(path, *fields):
    """Those that ask for a part: with no key, with a supplier's, with nobody's, with two, with a query, by HTTP/1.0, and with a body, which is not read."""
    return (
        head("GET", path, None, *fields),
        head("GET", path, "supplier01", *fields),
        head("GET", path, "nobodys1", *fields),
        head("GET", path, "supplier01", "X-Office-Key: integrator1", *fields),
        head("GET", path + "?variant=v1", None, *fields),
        "\r\n".join([f"GET {path} HTTP/1.0", *fields, "", ""]).encode(),
        head("GET", path, None, "Content-Length: 4", *fields) + b"body",
    )


def text_of(path):
    """A part of the page, by the page's sources."""
    (part,) = [part for part in build.parts() if part.path == path]
    return part.text


def tag_of(path):
    return f'"{hashlib.sha256(text_of(path).encode()).hexdigest()}"'


def reply(path):
    """The reply that has a part."""
    text = text_of(path)
    fields = [
        "HTTP/1.1 200 OK", f"content-type: {TYPES[path]}; charset=utf-8", f"content-length: {len(text)}", f"etag: {tag_of(path)}", *GUARDS[path],
        "connection: close",
    ]
    return ("\r\n".join([*fields, "", ""]) + text).encode("ascii")


def held(path):
    """The reply to whom holds it."""
    return f"HTTP/1.1 304 Not Modified\r\netag: {tag_of(path)}\r\nconnection: close\r\n\r\n".encode()


class Served(RegisterCase):
    """The page of a server, whose register holds one plan or none."""

    def replies(self, *asked):
        """What a server of the register replies to each of these."""
        with started(self.folder, "--count", str(len(asked))) as (_, _, port):
            return [sent(port, data) for data in asked]

    def test_to_everybody(self):
        for make in self.create, self.plan:
            (self.folder / "car.db").unlink(missing_ok=True)
            make()
            for path in TYPES:
                for data, got in zip(asked(path), self.replies(*asked(path))):
                    self.see(f"{make.__name__}, {data[:60]}", True, got == reply(path))

    def test_to_whom_holds_it(self):
        self.plan()
        for path in TYPES:
            field = f"If-None-Match: {tag_of(path)}"
            for data, got in zip(asked(path, field), self.replies(*asked(path, field))):
                self.see(f"{data[:60]}", held(path), got)

    def test_lists_of_tags(self):
        self.plan()
        tag, other = tag_of("/slotplan.js"), tag_of("/slotplan.css")
        cases = [
            (True, [f"if-none-match: {tag}"]), (True, ["IF-NONE-MATCH: *"]), (True, [f"if-none-match: W/{tag}"]),
            (True, [f'if-none-match: "x" ,\t{tag}\t, "y"']), (True, [f'if-none-match: "x",W/{tag}']), (True, ['if-none-match: "x"', f"If-None-Match: {other}, {tag}"]),
            (True, ["if-none-match: ,, *,"]), (True, [f'if-none-match: "{tag}, {tag}']),
            (False, []), (False, [f"if-none-match: {other}"]), (False, ["if-none-match:"]), (False, [f"if-none-match: {tag.upper()}"]),
            (False, [f"if-none-match: {tag[1:-1]}"]), (False, [f"if-none-match: w/{tag}"]), (False, [f"if-none-match: W/W/{tag}"]), (False, [f"if-none-match: W/ {tag}"]),
            (False, [f"if-none-match: {tag}{tag}"]), (False, ["if-none-match: W/*"]), (False, [f"if-match: {tag}"]), (False, [f"if-match: {other}"]),
            (False, [f"x-if-none-match: {tag}"]), (False, [f"if-none-match: {tag[:-2]}\""]),
        ]
        replies = self.replies(*(head("GET", "/slotplan.js", None, *fields) for _, fields in cases))
        for (is_held, fields), got in zip(cases, replies):
            self.see(fields, True, got == (held if is_held else reply)("/slotplan.js"))

    def test_no_other_path_or_method(self):
        self.plan()
        field = "if-none-match: *"
        for data, right in (
            *((make(path, "supplier01", b"{}"), NOT_ALLOWED) for path in TYPES for make in (post, put)),
            *((head("HEAD", path, None, field), NOT_ALLOWED) for path in TYPES),
            *((head("GET", path, None, field), NOT_FOUND)
              for path in ("//", "/index.html", "/favicon.ico", "*", "/slotplan.js/", "/slotplan", "/v1/slotplan.js", "/style.css", "/script/main.js")),
        ):
            (got,) = self.replies(data)
            self.see(data[:60], right, got)

    def test_the_register_stays(self):
        self.plan()
        before = (self.folder / "car.db").read_bytes()
        self.replies(*(data for path in TYPES for data in asked(path)))
        self.see("the file", True, before == (self.folder / "car.db").read_bytes())
