"""The scripts of tests/rows and of examples/, asked of a register in a file: over HTTP, each request by its route, and by the commands of the program.

The answers were typed by hand beside the scripts. What has no route goes by `POST /v1/commands`, and what has no command by `ask`. The status of a refusal
is that of docs/FORMATS.md."""
import json
import re
import tomllib
from functools import cache
from http import HTTPStatus

from tests import TOP
from tests.drivers.registers import RegisterCase
from tests.drivers.server import sent
from tests.models import messages
from tests.models.messages import command, csv, head, post, put

NAME = re.compile(r"[A-Za-z][A-Za-z0-9_]{0,31}")
KEY = re.compile(rb"[!-~]+")
BODY = 65_536  # bytes at most
HELD, REPORTS = ("cluster", "variants", "nodes"), ("grants", "frames", "schedule", "gaps", "load", "rows")
SCRIPTS = sorted([*TOP.glob("tests/rows/*.script"), *TOP.glob("examples/*.script")])


@cache
def statuses():
    """Of each refusal's number, the status."""
    rows = re.findall(r"^\| (\d+) \| `\w+` \| (\d{3}) \|", (TOP / "docs/FORMATS.md").read_text(), re.M)
    return {29: 422, **{int(number): int(status) for number, status in rows}}


def asked(line):
    """The key of a script's line, its text, and the request, if it is one of strings and numbers with names of their form."""
    key, space, text = line.partition(b" ")
    if not space or not KEY.fullmatch(key) or len(text) > BODY:
        return None
    try:
        request = json.loads(text)
    except ValueError:
        return key, text, None
    is_plain = isinstance(request, dict) and all(isinstance(request.get(field, "v"), str) and NAME.fullmatch(request.get(field, "v"))
                                                 for field in ("variant", "from", "frame", "label"))
    return key, text, request if is_plain else None


def lines_of(script):
    """The cluster file of a script; and its requests, each with the typed answer."""
    cluster, _, rest = script.read_bytes().partition(b"---\n")
    lines = [line for line in rest.split(b"\n") if line]
    return cluster, list(zip(lines, script.with_suffix(".answers").read_bytes().splitlines(), strict=True))


# ---- over HTTP


def path_of(request):
    """The method, path and body by which a request goes, if it has a route of its own."""
    do, at = request.get("do"), f"/v1/variants/{request.get('variant')}"
    if do in HELD:
        return "GET", f"/v1/{do}", None
    if do in REPORTS:
        return "GET", f"{at}/{do}", None
    if do == "layout":
        return "GET", f"{at}/frames/{request['frame']}/layout", None
    if do == "room":
        return "GET", f"{at}/frames/{request['frame']}/room/{request['repetition']}", None
    if do == "diff":
        return "GET", f"{at}/since/{request['from']}", None
    if do in ("export_frames", "export_placements", "export_signals"):
        return "GET", f"{at}/exports/{do.removeprefix('export_')}/{request['part']}", None
    if do == "import":
        return "POST", f"{at}/imports/{request['label']}", request["body"]
    if do == "replace":
        return "PUT", f"{at}/rows{'/whole' * request.get('whole', False)}", request["body"]
    if do == "try":
        return "PUT" if request.get("replace") else "POST", f"{at}/tries{'/whole' * request.get('whole', False)}", request["body"]
    if do == "propose":
        return "PUT" if request.get("replace") else "POST", f"{at}/proposals", request["body"]
    return None


def report_of(answer):
    return "".join(f"{line}\n" for line in answer["lines"]).encode()


def reply_of(typed, by_get):
    """The reply that has the typed answer."""
    answer = json.loads(typed)
    if "refused" in answer:
        status = HTTPStatus(statuses()[answer["no"]])
        fields = ["www-authenticate: Office-Key"] if status == 401 else []
        return messages.json(typed, f"{status.value} {status.phrase}", *fields)
    if by_get:
        return (csv if answer["ok"].startswith("export_") else messages.text)(report_of(answer))
    return messages.json(typed)


def sent_as(key, text, request, typed):
    """The bytes of the request by its route, or by that of commands, and the reply."""
    is_text = json.loads(typed).get("no") == 1
    route = None if request is None or is_text else path_of(request)
    key = key.decode()
    if route is None:
        return command(key, text), reply_of(typed, by_get=False)
    method, path, body = route
    if method == "GET":
        return head(method, path, key), reply_of(typed, by_get=True)
    body = body.encode()
    if len(body) > BODY:
        return command(key, text), reply_of(typed, by_get=False)
    return (post if method == "POST" else put)(path, key, body), reply_of(typed, by_get=False)


class RowsCase(RegisterCase):
    """A test of each script, over a register of its own."""

    def scripts(self):
        for script in SCRIPTS:
            cluster, lines = lines_of(script)
            (self.folder / "cluster.toml").write_bytes(cluster)
            db = f"{script.stem}.db"
            self.create(db)
            yield script.stem, db, cluster, [(asked(line), line, typed) for line, typed in lines]


class OverHttp(RowsCase):
    """Each script's requests are answered over HTTP as was typed by hand."""

    def test_files(self):
        for name, db, _, rows in self.scripts():
            rows = [(*sent_as(*row, typed), line) for row, line, typed in rows if row]
            with self.served("--count", str(len(rows)), db=db) as (server, port):
                for data, wanted, line in rows:
                    self.see(f"{name}: {line[:120]!r} by {data[:60]!r}", wanted, sent(port, data))
                self.ends(server)


# ---- by commands


class Senders:
    """Whose a key is, as suppliers join and get other keys."""

    def __init__(self, cluster):
        figures = tomllib.loads(cluster.decode())
        self.suppliers = figures.get("suppliers", {})
        self.integrator = figures["integrator"]

    def words(self, key):
        """The words that name who reads a report, if somebody has the key."""
        if key == self.integrator:
            return []
        return next((["--supplier", name] for name, of in self.suppliers.items() if of == key), None)

    def after(self, request):
        if request.get("do") in ("add_supplier", "set_key"):
            self.suppliers = {**self.suppliers, request["supplier"]: request["key"]}


def report_words(request):
    """The words of a report's command behind the file, if the request has one."""
    do = request.get("do")
    if do in HELD:
        return [do], []
    if do in REPORTS:
        return [do], [request["variant"]]
    if do == "layout":
        return [do], [request["variant"], request["frame"]]
    if do == "room":
        return [do], [request["variant"], request["frame"], str(request["repetition"])]
    if do == "diff":
        return [do], [request["from"], request["variant"]]
    if do in ("export_frames", "export_placements", "export_signals"):
        return ["export"], [request["variant"], do.removeprefix("export_"), "--part", str(request["part"])]
    return None


def file_words(request):
    """The words of a file's command behind the key, if the request has one."""
    do, flags = request.get("do"), ["--whole"] if request.get("whole") else []
    if do == "import":
        return [do], [request["variant"], request["label"], "rows.csv"]
    if do == "replace":
        return [do], [request["variant"], "rows.csv", *flags]
    if do in ("try", "propose"):
        return [do], [request["variant"], "rows.csv", *(["--replace"] if request.get("replace") else []), *flags]
    return None


def proposed(lines, replaces):
    """What `propose` writes of these lines: the file to import, and on standard error the lines without a placement. Where there is one, there is no
    file to replace with."""
    placed, others = ([line for line in lines if (line[4:8] == " 00 ") == is_placed] for is_placed in (True, False))
    file = [] if replaces and others else ["frame,node,slot,channels,base,repetition", *(line[8:] for line in placed)]
    return report_of({"lines": file}), report_of({"lines": others}), 1 if others else 0


class ByCommands(RowsCase):
    """Each script's requests that have a command are answered by it as was typed by hand."""

    def told(self, words, typed):
        """The command prints the report, or the line of a change; a refusal is told on standard error."""
        answer = json.loads(typed)
        if "refused" in answer:
            self.turned_down(words, typed)
        elif answer["ok"] == "propose":
            written, said, status = proposed(answer["lines"], "--replace" in words)
            self.tell(words, written, said, status)
        elif "lines" in answer:
            would_refuse = words[0] == "try" and not all(line.endswith(" 00 done") for line in answer["lines"])
            self.tell(words, report_of(answer), status=1 if would_refuse else 0)
        else:
            self.tell(words, typed + b"\n")

    def command_of(self, db, senders, row, typed):
        """The words of the row's command, if it has one."""
        key, _, request = row or (None, None, None)
        if request is None or json.loads(typed).get("no") in (1, 2):
            return None
        key = key.decode()
        if words := report_words(request):
            reader = senders.words(key)
            return None if words[0] == ["room"] and not reader else [*words[0], db, *words[1], *reader]
        if (words := file_words(request)) and len(request["body"].encode()) <= BODY:
            (self.folder / "rows.csv").write_bytes(request["body"].encode())
            return [*words[0], db, key, *words[1]]
        return None

    def test_files(self):
        for _, db, cluster, rows in self.scripts():
            senders, lines, answers = Senders(cluster), b"", b""
            for row, line, typed in rows:
                if words := self.command_of(db, senders, row, typed):
                    self.ask(lines, answers, db=db)
                    lines, answers = b"", b""
                    self.told(words, typed)
                else:
                    lines, answers = lines + line + b"\n", answers + typed + b"\n"
                if row and row[2] and b'"done"' in typed:
                    senders.after(row[2])
            self.ask(lines, answers, db=db)
