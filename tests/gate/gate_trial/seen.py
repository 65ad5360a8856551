"""What a trace of a gate shows: its lines, and what it said to the office and to clients, each found by its content."""
import base64
import hashlib
import json
from dataclasses import dataclass, field
from typing import Any

from gate_trial.calls import SENDS, Call, Traced
from gate_trial.disk import NEVER, Disk, File
from gate_trial.world import parted

UNKNOWN = (502, b'{"error":"unknown"}')
PRINTED = b"office-gate: head "


@dataclass
class Line:
    """A line of the journal, when it was written, and from when on it is on the disk."""

    entry: dict[str, Any]
    sha256: str
    written: int
    synced: int

    @property
    def number(self) -> int:
        return int(self.entry["line"])

    @property
    def head(self) -> str:
        return f"{self.number}:{self.sha256}"

    def without(self, *names: str) -> dict[str, Any]:
        return {name: value for name, value in self.entry.items() if name not in names}

    def is_synced_before(self, place: int) -> bool:
        return self.synced < place


@dataclass
class Conversation:
    """A connection of the gate: what it sent and received, call by call."""

    sends: list[Call] = field(default_factory=list)
    receives: list[Call] = field(default_factory=list)

    def sent(self) -> bytes:
        return b"".join(call.sent() for call in self.sends)

    def received(self) -> bytes:
        return b"".join(call.sent() for call in self.receives)

    def last_received(self) -> int:
        """Returns when the last bytes came, or the end of the connection."""
        return max(call.ends for call in self.receives)

    def answer(self) -> tuple[int, bytes]:
        """Returns the status and the body of what was sent to a client."""
        return parted(self.sent())

    def header(self, name: str) -> str:
        """Returns a field line of what was sent to a client."""
        return header(self.sent(), name)


def header(data: bytes, name: str) -> str:
    for line in data.partition(b"\r\n\r\n")[0].decode("latin-1").split("\r\n")[1:]:
        field_name, _, value = line.partition(":")
        if field_name.lower() == name:
            return value.strip()
    return ""


def request_of(data: bytes) -> str:
    """Returns the method and the path of a request."""
    return " ".join(data.partition(b"\r\n")[0].decode("latin-1").split(" ")[:2])


def noted(act: dict[str, Any]) -> dict[str, Any]:
    """Writes an act that the office gets as the journal has it."""
    if not isinstance(act.get("content"), str):
        return act
    data = base64.b64decode(act["content"])
    return {**act, "content": {"bytes": len(data), "sha256": hashlib.sha256(data).hexdigest()}}


def identity(request: str, key: str, acts: list[dict[str, Any]] | None) -> str:
    return json.dumps([request, key, acts], sort_keys=True)


@dataclass
class Act:
    """A request that acts: its line, those of its answer, and the two conversations."""

    line: Line
    answers: list[Line]
    office: Conversation
    client: Conversation
    contents_synced: int

    def office_answer(self) -> tuple[int, bytes] | None:
        """Returns what the office answered, or None if that is no whole answer."""
        data = self.office.received()
        status, body = parted(data)
        return (status, body) if status and header(data, "content-length") == str(len(body)) else None

    def wanted_answer(self) -> tuple[int, bytes]:
        return self.office_answer() or UNKNOWN

    def wanted_line(self) -> dict[str, Any]:
        """Returns what the journal has to say of the answer."""
        status, body = self.wanted_answer()
        value = json.loads(body)
        line = {"what": "answered", "of": self.line.number, "status": status}
        line |= {"answers": value} if isinstance(value, list) else {"answer": value}
        return line if self.office_answer() else line | {"known": False}


class Seen:
    """All that the calls of one gate show."""

    def __init__(self, world: Traced, calls: list[Call]) -> None:
        self.disk = Disk(calls, world.journal, world.state / "contents", world.turns)
        self.lines = [line for file in self.disk.files() for line in lines_of(file)]
        self.office, self.clients = list[Conversation](), list[Conversation]()
        self.heads: list[Call] = []
        self.talks(calls, f"->127.0.0.1:{world.port}]", f',"{world.place}"]')

    def talks(self, calls: list[Call], office: str, client: str) -> None:
        """Collects what was said, connection by connection."""
        open_ones: dict[str, Conversation] = {}
        for call in calls:
            is_office = call.place.startswith("TCP:") and call.place.endswith(office)
            is_client = call.place.startswith("UNIX") and call.place.endswith(client) and "->" in call.place
            if call.name == "write" and call.fd == 2 and call.data.startswith(PRINTED):
                self.heads.append(call)
            if not is_office and not is_client:
                continue
            if call.name == "close":
                open_ones.pop(call.place, None)
                continue
            talk = open_ones.get(call.place)
            if talk is None:
                talk = open_ones[call.place] = Conversation()
                (self.office if is_office else self.clients).append(talk)
            if call.name in SENDS and call.result > 0:
                talk.sends.append(call)
            elif call.name == "recvfrom" and call.result >= 0:
                talk.receives.append(call)

    # ---- lines

    def of(self, what: str) -> list[Line]:
        return [line for line in self.lines if line.entry["what"] == what]

    def line(self, number: int) -> Line | None:
        return next((line for line in self.lines if line.number == number), None)

    def printed(self) -> list[tuple[int, str, int]]:
        """Lists the heads that the gate printed: number, text, and when."""
        heads = [(call.data.removeprefix(PRINTED).decode().strip(), call.begins) for call in self.heads]
        return [(int(text.partition(":")[0]), text, begins) for text, begins in heads]

    # ---- acts

    def office_requests(self) -> dict[str, list[Conversation]]:
        """Returns what acts at the office, by request, key and acts."""
        requests: dict[str, list[Conversation]] = {}
        for talk in self.office:
            data = talk.sent()
            if data.startswith(b"POST "):
                body = data.partition(b"\r\n\r\n")[2]
                acts = [noted(act) for act in json.loads(body)] if body else None
                requests.setdefault(identity(request_of(data), header(data, "idempotency-key"), acts), []).append(talk)
        return requests

    def client_requests(self, line: Line) -> list[Conversation]:
        """Lists the clients whose request a line is of: by path, name, key, and the digest of the body."""
        return [talk for talk in self.clients if is_of(line, talk.received())]

    def faults(self) -> list[str]:
        """Lists what has not one line, one request to the office, and one client."""
        office, faults = self.office_requests(), []
        for line in self.of("asked"):
            sent = office.pop(identity_of(line), [])
            if len(sent) != 1 or len(self.client_requests(line)) != 1:
                faults.append(f"line {line.number}: {len(sent)} at the office, {len(self.client_requests(line))} clients")
        return faults + [f"no line: {request}" for request in office]

    def acts(self) -> list[Act]:
        """Lists the requests that the office got."""
        office, acts = self.office_requests(), []
        for line in self.of("asked"):
            sent, clients = office.get(identity_of(line), []), self.client_requests(line)
            if len(sent) == len(clients) == 1:
                answers = [other for other in self.of("answered") if other.entry["of"] == line.number]
                acts.append(Act(line, answers, sent[0], clients[0], self.contents_synced(line)))
        return acts

    def contents_synced(self, line: Line) -> int:
        """Returns from when on the contents that a line names are on the disk."""
        if "contents" not in line.entry:
            return -1
        file = self.disk.contents.now().get(line.entry["contents"]["day"])
        wanted = [act["content"]["sha256"] for act in line.entry["acts"] if "content" in act]
        lengths = [act["content"]["bytes"] for act in line.entry["acts"] if "content" in act]
        for place, at, data in file.changes if file else []:
            if data is not None and at == line.entry["contents"]["from"] and digests(data, lengths) == wanted:
                assert file is not None
                return file.synced_after(place)
        return NEVER

    def others(self, what: str) -> list[tuple[Line, Conversation]]:
        """Lists the lines of requests that go to no office, each with its client; no two requests are alike."""
        rows = [(line, self.client_requests(line)) for line in self.of(what)]
        return [(line, clients[0]) for line, clients in rows if len(clients) == 1]


def digests(data: bytes, lengths: list[int]) -> list[str]:
    """Returns the digests of parts of so many bytes each, which follow one another."""
    sums = []
    for length in lengths:
        sums.append(hashlib.sha256(data[:length]).hexdigest())
        data = data[length:]
    return sums


def identity_of(line: Line) -> str:
    return identity(line.entry["request"], line.entry.get("key", ""), line.entry.get("acts"))


def is_of(line: Line, data: bytes) -> bool:
    """Reports whether a line is that of a request of a client."""
    entry, body = line.entry, data.partition(b"\r\n\r\n")[2]
    request = request_of(data)
    if path := header(data, "office-path"):
        # what nginx asks about, or reports, is in the journal under its own path
        if (entry["what"] == "stored") != request.startswith("GET /stored"):
            return False
        request = f"{header(data, 'office-method') or 'PUT'} {path}"
    same_body = "body" not in entry or entry["body"]["sha256"] == hashlib.sha256(body).hexdigest()
    same_key = entry["what"] == "refused" or entry.get("key", "") == header(data, "idempotency-key")
    return (entry["request"], entry["name"]) == (request, header(data, "office-name")) and same_body and same_key


def lines_of(file: File) -> list[Line]:
    """Reads the lines of a file of the journal."""
    lines, ends, data = [], 0, file.content()
    for text in data.split(b"\n")[:-1]:
        ends += len(text) + 1
        written = min(place for place, at, part in file.changes if at + len(part or b"") >= ends)
        lines.append(Line(json.loads(text), hashlib.sha256(text).hexdigest(), written, file.synced_after(written)))
    return lines
