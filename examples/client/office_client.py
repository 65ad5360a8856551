"""A client of an office in one file, which needs Python 3.9 and nothing else: copy it beside your own program.

    office = Office("https://records.example/city", login="dms:secret", has_keys=True)
    content = office.content_of(pathlib.Path("permit.pdf"))
    answers = office.act([{"act": "add-record", "day": "2027-01-31", "ref": "BP/1", "title": "Permit", "originated":
                           "2027-01-30", "aggregation": 4, "class": None, "schedule": None, "content": content}])

Acts and answers are those of docs/ACTS.md, paths and errors those of docs/HTTP.md, large files those of docs/VAULT.md.
Acts go in lists that the office takes, one after another, each with a key of its own. If the answer to a list is lost,
the same list goes again with the same key, so that nothing is done twice: a gate and a member know keys. An office
without them (`has_keys=False`) does not, and then Stopped says which acts may be done.
"""
from __future__ import annotations

import base64
import hashlib
import http.client
import json
import pathlib
import ssl
import time
import urllib.parse
import uuid
from dataclasses import dataclass, field
from typing import Any, BinaryIO, Dict, List, Optional, Union

MOST_BYTES = 1_048_576
"""bytes of a list of acts"""
MOST_ACTS = 100
"""acts of a list: what is done is seen soon, and a list that is lost is short"""
MOST_CONTENT = 262_144
"""bytes of a content; a longer file goes into the vault"""
TRIES = 5
WAIT = 1.0
"""seconds after the first try; each further wait is twice as long"""
NOTHING_DONE = ("busy", "quorum", "recovering", "often")
"""errors by which the office did nothing, and may do it later"""
Act = Dict[str, Any]
Answer = Dict[str, Any]


class Failed(Exception):
    """An answer that is an error: its status, and the text of its body."""

    def __init__(self, status: int, text: str) -> None:
        super().__init__(f"{status} {text[:200]}")
        self.status, self.text = status, text

    def error(self) -> str:
        """Returns the keyword of the error, if there is one."""
        try:
            value = json.loads(self.text)
            return str(value.get("error", "")) if isinstance(value, dict) else ""
        except ValueError:
            return ""


class Unknown(Exception):
    """No whole answer came, so what was asked for may be done, or may not."""


@dataclass
class Stopped(Exception):
    """Not all acts were answered. `act_again` goes on from here.

    `answers` are those that came. `pending` is the list without an answer, with its key; `rest` are the acts behind it.
    If `is_unknown` is false, nothing of the pending list is done.
    """

    answers: List[Answer]
    pending: List[Act]
    rest: List[Act]
    key: str
    is_unknown: bool
    why: str

    def __str__(self) -> str:
        return f"{len(self.answers)} answered, {len(self.pending) + len(self.rest)} not: {self.why}"


@dataclass
class Reply:
    """A whole answer."""

    status: int
    body: bytes


def data_of(acts: List[Act]) -> bytes:
    return json.dumps(acts, ensure_ascii=False, separators=(",", ":")).encode()


def first_list(acts: List[Act]) -> List[Act]:
    """Returns the first acts that go in one list. An act that is too long for any list goes alone, and is refused."""
    length = 2
    for count, act in enumerate(acts[:MOST_ACTS]):
        length += len(data_of([act])) - 1
        if length > MOST_BYTES:
            return acts[:max(count, 1)]
    return acts[:MOST_ACTS]


@dataclass
class Office:
    """An office at an address, by a name and a password (`NAME:PASSWORD`) if it has a proxy in front."""

    address: str
    login: Optional[str] = None
    authority: Optional[pathlib.Path] = None
    has_keys: bool = False
    seconds: float = 600
    tries: int = TRIES
    wait: float = WAIT
    lines: Dict[str, str] = field(default_factory=dict)

    def __post_init__(self) -> None:
        self.place = urllib.parse.urlsplit(self.address)
        if self.place.scheme not in ("http", "https") or not self.place.hostname:
            raise ValueError(f"{self.address} is no address: write https://HOST/FOLDER")
        if self.login is not None and self.place.scheme == "http" and self.place.hostname not in ("127.0.0.1", "localhost"):
            raise ValueError(f"{self.address}: everybody on the way would read the password: write https")
        host = self.place.netloc.rpartition("@")[2]
        # nginx takes what acts from its own site alone, by this line
        self.lines = {"Host": host, "Origin": f"{self.place.scheme}://{host}", "Connection": "close", **self.lines}
        if self.login is not None:
            self.lines["Authorization"] = "Basic " + base64.b64encode(self.login.encode()).decode()

    # ---- requests

    def connection(self) -> http.client.HTTPConnection:
        host, port = str(self.place.hostname), self.place.port
        if self.place.scheme == "http":
            return http.client.HTTPConnection(host, port, timeout=self.seconds)
        trusted = ssl.create_default_context(cafile=None if self.authority is None else str(self.authority))
        return http.client.HTTPSConnection(host, port, timeout=self.seconds, context=trusted)

    def ask(self, method: str, path: str, body: Union[bytes, BinaryIO, None] = None, **lines: str) -> Reply:
        """Sends a request once. Unknown says that no whole answer came."""
        link = self.connection()
        try:
            link.request(method, self.place.path.rstrip("/") + path, body,
                         {**self.lines, **{name.replace("_", "-"): value for name, value in lines.items()}})
            answer = link.getresponse()
            if answer.length is None and not answer.chunked and answer.status not in (204, 304):
                raise Unknown("the answer does not say where it ends")
            return Reply(answer.status, answer.read())
        except (OSError, http.client.HTTPException) as error:
            raise Unknown(str(error) or type(error).__name__) from error
        finally:
            link.close()

    def get(self, path: str) -> bytes:
        """Reads, as often as it takes; a reading that is repeated does no harm."""
        for wait in self.waits():
            try:
                reply = self.ask("GET", path)
            except Unknown:
                if wait is None:
                    raise
            else:
                if reply.status == 200:
                    return reply.body
                failed = Failed(reply.status, reply.body.decode(errors="replace"))
                if wait is None or reply.status not in (429, 502, 503, 504):
                    raise failed
            time.sleep(wait)
        raise AssertionError

    def waits(self) -> List[Optional[float]]:
        """Returns the seconds after each try, None after the last."""
        return [*(self.wait * 2 ** turn for turn in range(self.tries - 1)), None]

    # ---- acts

    def act(self, acts: List[Act]) -> List[Answer]:
        """Does acts in their order, and returns an answer to each. Stopped says where it had to stop."""
        return self.go_on([], [], acts, "")

    def act_again(self, stopped: Stopped) -> List[Answer]:
        """Goes on after a stop, and returns all answers."""
        return self.go_on(list(stopped.answers), stopped.pending, stopped.rest, stopped.key)

    def go_on(self, answers: List[Answer], pending: List[Act], rest: List[Act], key: str) -> List[Answer]:
        while pending or rest:
            if not pending:
                pending = first_list(rest)
                rest, key = rest[len(pending):], uuid.uuid4().hex
            try:
                answers += self.send(pending, key)
                pending = []
            except Unknown as error:
                raise Stopped(answers, pending, rest, key, True, str(error)) from error
            except Failed as error:
                if error.status != 413 or len(pending) == 1:
                    raise Stopped(answers, pending, rest, key, False, str(error)) from error
                # too much at once, and nothing was done: a half has a key of its own
                half = len(pending) // 2
                pending, rest, key = pending[:half], pending[half:] + rest, uuid.uuid4().hex
        return answers

    def send(self, acts: List[Act], key: str) -> List[Answer]:
        """Sends one list, again with the same key while its answer is unknown."""
        is_unknown = False
        for wait in self.waits():
            try:
                reply = self.ask("POST", "/acts", data_of(acts), Content_Type="application/json", Idempotency_Key=key)
                if reply.status in (200, 409):
                    return self.answers_in(reply, len(acts))
                failed = Failed(reply.status, reply.body.decode(errors="replace"))
                if failed.error() not in NOTHING_DONE:
                    if reply.status < 500 and not is_unknown:
                        raise failed
                    raise Unknown(str(failed))
                problem: Exception = Unknown(str(failed)) if is_unknown else failed
            except Unknown as error:
                is_unknown, problem = True, error
            if wait is None or is_unknown and not self.has_keys:
                raise problem
            time.sleep(wait)
        raise AssertionError

    def answers_in(self, reply: Reply, count: int) -> List[Answer]:
        try:
            answers = json.loads(reply.body)
        except ValueError as error:
            raise Unknown(f"the answer is no JSON: {reply.body[:200]!r}") from error
        if not isinstance(answers, list) or len(answers) != count:
            raise Unknown(f"the answer is not one to each act: {reply.body[:200]!r}")
        return answers

    # ---- large files

    def content_of(self, file: pathlib.Path) -> str:
        """Returns what `content` of an act is to be. A file above the limit is in the vault then: file it within a day."""
        if file.stat().st_size <= MOST_CONTENT:
            return base64.b64encode(file.read_bytes()).decode()
        return base64.b64encode(self.put(file)).decode()

    def put(self, file: pathlib.Path) -> bytes:
        """Puts a file into the vault, and returns the manifest that names it."""
        with file.open("rb") as opened:
            sha256 = hashlib.sha256()
            for part in iter(lambda: opened.read(1 << 18), b""):
                sha256.update(part)
            length, digest = opened.tell(), sha256.hexdigest()
            for wait in self.waits():
                opened.seek(0)
                try:
                    reply = self.ask("PUT", f"/vault/{digest}", opened, Content_Length=str(length),
                                     Content_Type="application/octet-stream")
                    if reply.status in (200, 201):
                        break
                    problem: Exception = Failed(reply.status, reply.body.decode(errors="replace"))
                    if reply.status not in (429, 502, 503, 504):
                        raise problem
                except Unknown as error:
                    problem = error
                if wait is None:
                    raise problem
                # a file that is put twice is there once
                time.sleep(wait)
        name = "".join("-" if ord(each) < 32 or 127 <= ord(each) < 160 else each for each in file.name)
        return f"SHA256 {digest}\nLENGTH {length}\nPLACE {name}\n".encode()

    # ---- readings

    def record(self, number: int) -> Dict[str, Any]:
        return dict(json.loads(self.get(f"/records/{number}")))

    def content(self, number: int) -> bytes:
        return self.get(f"/records/{number}/content")

    def due(self, day: str) -> List[Dict[str, Any]]:
        return list(json.loads(self.get(f"/due/{day}")))

    def overdue(self, day: str, days: int) -> List[Dict[str, Any]]:
        return list(json.loads(self.get(f"/overdue/{day}/{days}")))

    def certificate(self, number: int) -> str:
        return self.get(f"/certificates/{number}").decode()
