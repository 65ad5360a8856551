"""docs/openapi.yaml: its form, each kind of act beside what a real office takes, and the answers of a real office."""
import copy
import importlib.util
import json
import pathlib
import re
import socket

import jsonschema
import yaml

from kit.judging import judge, same
from openapi_form import FORM
from place import TOP, Office, free_port, full

DESCRIPTION = yaml.safe_load((TOP / "docs/openapi.yaml").read_text())
JSON = "application/json"


def validator(schema):
    """A validator of a schema of the description, whose references are those of the whole."""
    return jsonschema.Draft202012Validator({**schema, "components": DESCRIPTION["components"]}, format_checker=jsonschema.FormatChecker())


def errors(schema, value):
    return [error.message[:200] for error in validator(schema).iter_errors(value)]


ACT = validator({"$ref": "#/components/schemas/Act"})

# ---- the form of the description


def published_form():
    """The schema of OpenAPI 3.1 of python3-openapi-spec-validator, where that is installed."""
    package = importlib.util.find_spec("openapi_spec_validator")
    if package is None:
        return None
    return json.loads((pathlib.Path(package.origin).parent / "resources/schemas/v3.1/schema.json").read_text())


def references(part):
    if isinstance(part, dict):
        if isinstance(part.get("$ref"), str):
            yield part["$ref"]
        for value in part.values():
            yield from references(value)
    elif isinstance(part, list):
        for value in part:
            yield from references(value)


def found(reference):
    part = DESCRIPTION
    for name in reference.removeprefix("#/").split("/"):
        part = part.get(name, {})
    return bool(part)


def examples(part, place):
    """Each example of a part of the description, with the schema that it stands beside."""
    if isinstance(part, dict) and "schema" in part:
        for name, example in part.get("examples", {}).items():
            yield ".".join([*place, name]), part["schema"], example["value"]
    elif isinstance(part, dict):
        for name, value in part.items():
            yield from examples(value, [*place, str(name)])


def form():
    published = published_form()
    for name, schema in (("the form that stands in tests/web", FORM), ("the schema of python3-openapi-spec-validator", published)):
        if schema is None:
            print(f"not done here, since it is not installed: {name}")
            continue
        wrong = [f"{list(error.absolute_path)}: {error.message[:200]}" for error in jsonschema.Draft202012Validator(schema).iter_errors(DESCRIPTION)]
        judge(f"docs/openapi.yaml is of the form of OpenAPI 3.1, by {name}", not wrong, "\n".join(wrong))
        broken = copy.deepcopy(DESCRIPTION)
        del broken["paths"]["/acts"]["post"]["responses"]["409"]["description"]
        judge(f"and one without a description is not, by {name}", not jsonschema.Draft202012Validator(schema).is_valid(broken))
    for name, schema in DESCRIPTION["components"]["schemas"].items():
        jsonschema.Draft202012Validator.check_schema(schema)
    judge("each schema is one of JSON Schema 2020-12", True)
    same("each reference leads somewhere", [it for it in references(DESCRIPTION) if not found(it)], [])
    unlike = [f"{place}: {error}" for place, schema, value in examples(DESCRIPTION, []) for error in errors(schema, value)]
    judge("each example is of its schema", not unlike, "\n".join(unlike))
    pages = re.findall(r"^\| `(/[^`]+)` \| (GET|POST)", (TOP / "docs/HTTP.md").read_text(), re.M)
    same("its paths are those of docs/HTTP.md", [(path, method.upper()) for path, it in DESCRIPTION["paths"].items() for method in it], pages)


# ---- acts

DAY = "2024-01-02"
# an act of each kind, after docs/ACTS.md, with all of its members
ACTS = {
    "add-schedule": {"code": "D1", "trigger": "added", "unit": "years", "count": 1, "offset": "from-month-4", "action": "destroy"},
    "add-class": {"code": "FIN", "title": "Finance", "schedule": "D1"},
    "set-class-schedule": {"class": "FIN", "schedule": "D1"},
    "add-aggregation": {"ref": "A", "title": "A", "parent": None, "class": "FIN"},
    "close-aggregation": {"aggregation": 9},
    "add-record": {"ref": "r1", "title": "Straße", "originated": DAY, "aggregation": 1, "class": None, "schedule": "D1", "content": "YWJj"},
    "set-record-schedule": {"record": 1, "schedule": None},
    "reclassify": {"target": "record:1", "class": "FIN"},
    "place-hold": {"code": "H-1", "reason": "A lawsuit", "by": "Legal office"},
    "hold-on": {"hold": "H-1", "target": "class:FIN"},
    "hold-off": {"hold": "H-1", "target": "class:FIN"},
    "lift-hold": {"hold": "H-1"},
    "confirm": {"record": 1, "action": "destroy", "by": "registrar"},
    "review": {"record": 1, "schedule": None, "by": "registrar"},
    "receipt": {"record": 1, "digest": "0" * 64, "by": "archive"},
    "event": {"record": 1, "occurred": DAY, "by": "registrar"},
    "open-run": {"by": "registrar"},
    "run-step": {},
}
OPTIONAL = {"add-aggregation": ["parent", "class"], "add-record": ["class", "schedule"], "set-record-schedule": ["schedule"], "reclassify": ["class"], "review": ["schedule"]}
# values of a member that are not of its form, and values that are
WRONG = {
    "day": ["2023-02-29", "2024-1-02", "3000-01-01", "0000-12-31", 20240102, None],
    "originated": ["2024-13-01", "", None],
    "occurred": ["2023-06-31", "2023-6-30", "3000-01-01", 20230630, "", None],
    "code": ["", "A B", "A_B", "A" * 17, "Ä", 1, None],
    "class": ["", "A B", 1],
    "schedule": ["", "A" * 17, 1],
    "hold": ["", "H 1", None],
    "title": ["", "a\nb", "a\u0085b", "x" * 201, 1, None],
    "ref": ["", "\t", None],
    "reason": ["", "a\u0000b", None],
    "by": ["", "\u007f", 1, None],
    "trigger": ["Added", "Event", "events", "", None],
    "unit": ["year", None],
    "count": [-1, 501, "1", 1.5, None],
    "offset": ["from-month-0", "from-month-13", "from-month-01", None],
    "action": ["Destroy", "shred", None],
    "aggregation": [0, -1, 4294967296, "1", None],
    "record": [0, 4294967296, "1", 1.5, None],
    "parent": [0, "1", 4294967296],
    "target": ["record:0", "record:01", "record:", "class:", "file:1", "class:A B", 1, None],
    "digest": ["0" * 63, "0" * 65, "A" * 64, None],
    "content": ["YWJ", "YWJj=", "YWI", "YWJ=", "YW-j", " YWJj", 1, None],
}
RIGHT = {
    "day": ["2024-01-02", "2024-02-29", "2999-12-31"],
    "originated": ["0001-01-01", "2999-12-31"],
    "occurred": ["0001-01-01", "2024-02-29", "2999-12-31"],
    "code": ["A", "a-0", "A" * 16],
    "title": ["x" * 200, "ü" * 100, "a\u00a0b"],
    "count": [0, 500],
    "offset": ["none", "month", "quarter", "from-month-1", "from-month-12"],
    "trigger": ["origin", "added", "closed", "last-addition", "review", "event"],
    "action": ["keep", "review", "transfer", "destroy"],
    "record": [1, 4294967295],
    "parent": [None, 1],
    "digest": ["0123456789abcdef" * 4],
    "content": ["", "YQ==", "YWI=", "YWJj", "AAAA" * 87381 + "AA=="],
}
# the longest count of each unit, and one more
COUNTS = {"days": 182500, "weeks": 26000, "months": 6000, "years": 500}


def whole(kind):
    return {"act": kind, **({} if kind == "run-step" else {"day": DAY}), **ACTS[kind]}


def changed(kind):
    """Acts of this kind that are of its form, and acts that are not, each with what was done to it."""
    act = whole(kind)
    yield True, kind, act
    for name in OPTIONAL.get(kind, []):
        yield True, f"{kind} without {name}", {key: value for key, value in act.items() if key != name}
    for name in act:
        if name not in OPTIONAL.get(kind, []):
            yield False, f"{kind} without {name}", {key: value for key, value in act.items() if key != name}
        for value in RIGHT.get(name, []):
            yield True, f"{kind} with {name} {str(value)[:30]!r}", {**act, name: value}
        for value in WRONG.get(name, []):
            if value is not None or name not in OPTIONAL.get(kind, []):
                yield False, f"{kind} with {name} {str(value)[:30]!r}", {**act, name: value}
    yield False, f"{kind} with a strange member", {**act, "colour": "red"}
    if kind == "reclassify":
        yield False, "reclassify with a class as target", {**act, "target": "class:FIN"}
    if kind == "add-schedule":
        for unit, most in COUNTS.items():
            yield True, f"{most} {unit}", {**act, "unit": unit, "count": most}
            yield False, f"{most + 1} {unit}", {**act, "unit": unit, "count": most + 1}
    if kind == "add-record":
        yield False, "a content of one byte too many", {**act, "content": "AAAA" * 87381 + "AAA="}


def acts(office):
    """Whatever the schema takes the office reads, and whatever it refuses the office does not."""
    rows = re.findall(r"^\| (`[a-z`, -]+) \|[^|]*\| (?:done|its|a step|their)", (TOP / "docs/ACTS.md").read_text(), re.M)
    kinds = [kind for row in rows for kind in re.findall(r"`([a-z-]+)`", row)]
    mapping = DESCRIPTION["components"]["schemas"]["Act"]["discriminator"]["mapping"]
    same("there is a schema for each kind of act of docs/ACTS.md", sorted(mapping), sorted(kinds))
    same("that is eighteen", len(kinds), 18)
    count = 0
    for kind in kinds:
        apart = [(name, right, ACT.is_valid(act), office.reads(act)) for right, name, act in changed(kind)]
        count += len(apart)
        judge(f"schema and office read the same of {kind}, in {len(apart)} cases", all(right == schema == read for _, right, schema, read in apart),
              "\n".join(f"{name}: right {right}, schema {schema}, office {read}" for name, right, schema, read in apart if not right == schema == read))
    judge("nothing of that was done", office.ask("GET", "/records/1")[0] == 404)
    print(f"{count} acts were compared")


# ---- answers


class Watcher:
    """Asks the office itself, and holds each answer against the description."""

    def __init__(self, office):
        self.office, self.seen = office, {}

    def template(self, path):
        for name in DESCRIPTION["paths"]:
            if re.fullmatch(re.sub(r"\{\w+\}", "[^/]+", name), path):
                return name
        return None

    def described(self, method, path, status):
        """The response of a path, or the one that its reference leads to."""
        operation = DESCRIPTION["paths"][self.template(path)][method.lower()]
        response = operation["responses"].get(str(status))
        if response and "$ref" in response:
            return DESCRIPTION["components"]["responses"][response["$ref"].rsplit("/", 1)[1]]
        return response

    def held(self, method, path, answer):
        """What of an answer is not as it is described."""
        status, kind, body = answer
        response = self.described(method, path, status)
        if response is None:
            return [f"status {status} is not described"]
        if kind not in response["content"]:
            return [f"media type {kind} is not described"]
        self.seen.setdefault(f"{method} {self.template(path)} {status}", 0)
        self.seen[f"{method} {self.template(path)} {status}"] += 1
        schema = response["content"][kind].get("schema")
        if schema is None:
            return []
        return errors(schema, json.loads(body) if kind == JSON else body.decode())

    def ask(self, method, path, body=None):
        answer = self.office.ask(method, path, body)
        wrong = self.held(method, path, answer)
        judge(f"{method} {path}: {answer[0]}, as it is described", not wrong, "\n".join([*wrong, repr(answer[2][:300])]))
        return answer

    def send(self, request):
        """By a socket, what no client would send."""
        with socket.create_connection(("127.0.0.1", self.office.port), timeout=60) as conn:
            conn.sendall(request)
            conn.shutdown(socket.SHUT_WR)
            there = b"".join(iter(lambda: conn.recv(65536), b""))
        head, _, body = there.partition(b"\r\n\r\n")
        method, path = request.split(b" ")[:2]
        kind = re.search(r"Content-Type: (.*)", head.decode())[1].strip()
        answer = (int(head.split(b" ")[1]), kind, body)
        wrong = self.held(method.decode(), path.decode(), answer)
        judge(f"{request.splitlines()[0].decode()}, not as it must be: {answer[0]} {body.decode()}, as it is described", not wrong, "\n".join(wrong))

    def unseen(self):
        """The answers that are described and were not seen."""
        for path, it in DESCRIPTION["paths"].items():
            for method, operation in it.items():
                for status in operation["responses"]:
                    if f"{method.upper()} {path} {status}" not in self.seen:
                        yield f"{method.upper()} {path} {status}"


def city(name):
    return (TOP / f"examples/city_archive/{name}.json").read_bytes()


def answers(office):
    """The city archive over the paths, and requests that are not served, each answer against its schema."""
    it = Watcher(office)
    same("no act at all", it.ask("POST", "/acts", b"[]")[2], b"[]")
    for name in ("1-schedule", "2-holdings", "3-lawsuit"):
        it.ask("POST", "/acts", city(name))
    it.ask("GET", "/due/2022-05-02")
    it.ask("POST", "/acts", city("4-confirmed"))
    it.ask("GET", "/due/2022-05-02")
    it.ask("GET", "/due/2999-12-31")
    it.ask("GET", "/due/2022-02-30")
    for day, count in (("2022-05-02", "30"), ("2999-12-31", "3650"), ("2022-05-02", "0030"), ("2022-02-30", "x"), ("2022-05-02", "3651"), ("2022-05-02", "-1")):
        it.ask("GET", f"/overdue/{day}/{count}")
    it.ask("GET", "/certificates/1")
    same("a step of a run", json.loads(it.ask("POST", "/acts", b'[{"act":"run-step"}]')[2]), [{"outcome": "skipped", "record": 1}])
    it.ask("POST", "/run/resume")
    it.ask("POST", "/run/resume")
    it.ask("GET", "/certificates/1")
    for number in (*range(1, 34), 99):
        it.ask("GET", f"/records/{number}")
    it.ask("GET", "/records/01")
    it.ask("GET", "/records/1/content")
    it.ask("GET", "/records/8/content")
    digest = json.loads(it.office.ask("GET", "/records/19")[2])["digest"]
    it.ask("POST", "/acts", json.dumps([{"act": "receipt", "day": "2022-05-03", "record": 19, "digest": digest, "by": "State archive"}]))
    it.ask("GET", "/records/19")
    it.ask("POST", "/acts", city("5-lifted"))
    contract = DESCRIPTION["paths"]["/records/{n}"]["get"]["responses"]["200"]["content"][JSON]["examples"]["contract"]["value"]
    same("record 22, whose event is recorded by then, is the example", json.loads(it.ask("GET", "/records/22")[2]), contract)
    it.ask("POST", "/run/resume")
    it.ask("GET", "/certificates/2")
    it.ask("GET", "/records/19")
    it.ask("POST", "/acts", b"{}")
    it.ask("POST", "/acts", b'[{"act":"run-step"},{"act":"walk"}]')
    for path in ("/acts", "/run/resume"):
        it.send(f"POST {path} HTTP/1.1\r\n\r\n".encode())
    for path in ("/records/1", "/records/1/content", "/due/2022-05-02", "/overdue/2022-05-02/30", "/certificates/1"):
        it.send(f"GET {path} HTTP/1.1\r\n\r\n".encode())
    host = "POST /acts HTTP/1.1\r\nHost: localhost\r\n"
    it.send(f"{host}\r\n".encode())
    it.send(f"{host}Content-Length: 1048577\r\n\r\n".encode())
    it.send(f"{host}Content-Length: many\r\n\r\n".encode())
    it.send(f"{host}Content-Length: 20\r\n\r\n[".encode())
    it.send(f"{host}Transfer-Encoding: chunked\r\n\r\n".encode())
    return it


def stopped(watcher, folder):
    """An office that may not write on: acts, and then a run, are stopped by a fault."""
    for name, fill in (("acts", lambda office: None), ("resume", lambda office: office.ask("POST", "/acts", city("4-confirmed")))):
        office = Office(folder / f"stopped-{name}.db", free_port())
        office.start()
        for part in ("1-schedule", "2-holdings"):
            office.ask("POST", "/acts", city(part))
        fill(office)
        office.close()
        office.start(before=full(office.file))
        watcher.office = office
        if name == "acts":
            record = {"act": "add-record", "day": "2023-11-21", "title": "Notice", "originated": "2023-11-21", "aggregation": 11, "content": "YWJj"}
            answer = watcher.ask("POST", "/acts", json.dumps([{**record, "ref": f"MORE/{number}"} for number in range(300)]))
        else:
            answer = watcher.ask("POST", "/run/resume")
        same(f"a fault stops {name}", answer[0], 503)
        office.stop()
