"""The requests of a journal that acted, as they can be done once more."""
import base64
import datetime
import sqlite3
from collections.abc import Iterator
from contextlib import closing
from dataclasses import dataclass, field
from pathlib import Path
from typing import Any

from office_gate.body import Json, number_in
from office_gate.chain import entries
from office_gate.contents import Contents, changed_nothing, spans_of
from office_gate.errors import Refused
from office_gate.words import DENIED, OF_RECORD

Span = tuple[int, int]
"""the acts of a request from one place up to another"""


def seconds(at: object) -> float:
    return datetime.datetime.fromisoformat(str(at)).timestamp()


@dataclass
class JournaledRequest:
    """A request and its answer. Of a request without a whole answer nobody knows how much of it was done."""

    line: int
    asked_at: float
    acts: list[Json] | None
    contents: Json | None
    answers: list[Any] = field(default_factory=list)
    answered_at: float = float("inf")
    status: int = 0
    is_known: bool = False
    # where each act stood in the list that was sent
    places: list[int] = field(default_factory=list)

    def count(self) -> int:
        """Returns how many acts it has; of POST /run/resume nobody knows how many steps."""
        return len(self.acts) if self.acts is not None else 1

    def acted(self) -> bool:
        """Returns whether it did anything, or may have."""
        if self.status == DENIED:
            return bool(self.acts)
        return not self.is_known or self.status in (200, 409) and (self.acts is not None or self.status == 200)

    def stop_at(self, place: int) -> None:
        """Leaves out the acts from a place on: the office denied that one, and did none behind it."""
        self.acts, self.places = (self.acts or [])[:place], self.places[:place]

    def spans(self, moment: float) -> list[Span]:
        """Lists what may have to be done of it after a copy of that moment, the likeliest first."""
        if self.answered_at <= moment:
            return []
        ends = [self.count()]
        if not self.is_known:
            likely = [len(self.answers)] if self.answers else [self.count(), 0]
            ends = list(dict.fromkeys([*likely, *range(self.count(), len(self.answers) - 1, -1)]))
        begins = [0] if self.asked_at > moment else [0, *range(self.count(), 0, -1)]
        return [(begin, end) for end in ends for begin in begins if begin <= end]


def take(entry: Json) -> JournaledRequest:
    acts, contents = entry.get("acts") if entry["request"] == "POST /acts" else None, entry.get("contents")
    if acts and contents:
        for place, (at, _) in spans_of(acts, int(str(contents["from"]))).items():
            acts[place]["content"]["from"] = at
    places = list(range(len(acts or [])))
    return JournaledRequest(int(entry["line"]), seconds(entry["at"]), acts, contents, places=places)


def read(files: list[Path]) -> list[JournaledRequest]:
    """Reads all requests that were sent to the office."""
    requests: dict[int, JournaledRequest] = {}
    for entry in entries(files):
        if entry.get("what") == "asked":
            requests[int(entry["line"])] = take(entry)
        elif entry.get("what") == "answered" and (request := requests.get(int(entry["of"]))):
            request.answers = entry.get("answers") or []
            request.is_known = bool(entry.get("known", True))
            request.status = int(entry.get("status", 0))
            if request.status == DENIED and request.acts is not None:
                request.stop_at(len(request.answers))
            if request.is_known:
                request.answered_at = seconds(entry["at"])
            if request.acts is None and isinstance(entry.get("answer"), dict):
                request.answers = [entry["answer"]]
    return settled(list(requests.values()))


def settled(requests: list[JournaledRequest]) -> list[JournaledRequest]:
    """Says of each request without an answer by when it was done, or never was: by the office's next answer to an act.

    The office serves one request after another, in the order in which they come.
    """
    by = float("inf")
    for request in reversed(requests):
        if not request.is_known:
            request.answered_at = by
        elif request.status < 500:
            by = request.answered_at
    return requests


def cut_at(requests: list[JournaledRequest], moment: float) -> None:
    """Takes what was under way at a moment as a request without an answer: a copy of then has it, or not, or half."""
    for request in requests:
        if request.asked_at <= moment < request.answered_at:
            request.is_known, request.answers, request.answered_at = False, [], float("inf")


# ---- contents, which the journal has not

def has_content(act: Json) -> bool:
    """Returns whether the journal has the length of a content of this act in its place."""
    return isinstance(act.get("content"), dict) and "bytes" in act["content"]


class Kept:
    """The contents that the gate keeps, and those of files of an office."""

    def __init__(self, contents: Contents, files: list[Path]) -> None:
        self.contents = contents
        self.files = [sqlite3.connect(f"file:{it}?immutable=1", uri=True) for it in files]

    def of(self, request: JournaledRequest) -> list[Json]:
        """Returns the acts of a request with their contents."""
        acts = []
        for act in request.acts or []:
            whole = dict(act)
            if has_content(act):
                data = self.one(request, act["content"])
                if data is None:
                    raise Refused(1, f"line {request.line}: a content of {act['content']['bytes']} bytes, SHA-256 "
                                     f"{act['content']['sha256']}, is no longer there")
                whole["content"] = base64.b64encode(data).decode()
            acts.append(whole)
        return acts

    def one(self, request: JournaledRequest, content: Json) -> bytes | None:
        """Returns a content, or None if it is no longer there."""
        day, sha256 = str((request.contents or {}).get("day")), content["sha256"]
        data = self.contents.read(day, int(content["from"]), int(str(content["bytes"])), sha256)
        for file in self.files if data is None else []:
            query = "SELECT bytes FROM contents JOIN records ON num = record WHERE digest = ? LIMIT 1"
            for (content_bytes,) in file.execute(query, (sha256,)):
                data = content_bytes
        return data

    def leave_out(self, request: JournaledRequest) -> None:
        """Takes acts out of a request that changed nothing, and whose contents the gate took back."""
        acts, answers = request.acts or [], request.answers
        if not request.is_known or len(acts) != len(answers):
            return
        stay = [at for at, (act, answer) in enumerate(zip(acts, answers)) if not (
            has_content(act) and changed_nothing(answer) and self.one(request, act["content"]) is None)]
        if len(stay) < len(acts):
            request.acts, request.answers = [acts[at] for at in stay], [answers[at] for at in stay]
            request.places = [request.places[at] for at in stay]


# ---- what an act, and a row of a table, is about

NAMED = {"add-schedule": ("schedule", "code"), "add-class": ("class", "code"), "set-class-schedule": ("class", "class"),
         "place-hold": ("hold", "code"), "hold-on": ("hold", "hold"), "hold-off": ("hold", "hold"),
         "lift-hold": ("hold", "hold"), "add-aggregation": ("ref", "ref"), "add-record": ("ref", "ref"),
         "close-aggregation": ("aggregation", "aggregation")}
REFERRED = {"schedule": "schedule", "class": "class", "aggregation": "aggregation", "parent": "aggregation"}
TABLES = {"office": ("one", "day"), "schedules": ("code", "schedule"), "schedules2": ("code", "schedule"),
          "classes": ("code", "class"), "aggregations": ("num", "aggregation"), "records": ("num", "record"),
          "contents": ("record", "record"), "holds": ("code", "hold"), "targets": ("hold", "hold"),
          "runs": ("num", "run"), "entries": ("record", "record"), "certificates": ("run", "run"),
          "events": ("record", "record")}


def keys_of(act: Json) -> set[str]:
    """Names what an act changes. Two acts without a name in common seldom concern each other."""
    kind, keys = act.get("act"), set()
    if kind in OF_RECORD:
        keys.add(f"record:{number_in(act, 'record')}")
    elif kind in NAMED:
        thing, name = NAMED[kind]
        keys.add(f"{thing}:{act.get(name)}")
    if kind in ("reclassify", "hold-on", "hold-off"):
        keys.add(str(act.get("target")))
    if kind in ("open-run", "run-step"):
        keys.add("run")
    if kind in ("add-record", "add-aggregation", "open-run"):
        keys.add(f"numbers of {kind}")
    return keys


def needs_of(act: Json, *answers: object) -> set[str]:
    """Names what the answer to an act depends on: what it changes, what it names, and what its answers name."""
    keys = keys_of(act)
    if not all(isinstance(it, dict) and "number" in it for it in answers):
        keys.discard(f"numbers of {act.get('act')}")
    keys |= {f"{thing}:{act[name]}" for name, thing in REFERRED.items() if act.get(name) is not None}
    if act.get("act") in OF_RECORD:
        # a run may have ended it
        keys.add("run")
    keys |= {f"record:{it['record']}" for it in answers if isinstance(it, dict) and "record" in it}
    # a thing with a number may not have been made at all
    keys |= {f"numbers of add-{thing}" for thing in ("record", "aggregation")
             if any(it.startswith(f"{thing}:") for it in keys)}
    return keys


def around(file: Path, keys: set[str]) -> set[str]:
    """Names what the records among these things lie in, and have: their files, classes and schedules, as a file says."""
    things: set[str] = set()
    with closing(sqlite3.connect(file)) as db:
        for number in [int(it.partition(":")[2]) for it in keys if it.startswith("record:")]:
            row = db.execute("SELECT aggregation, class, schedule FROM records WHERE num = ?", (number,)).fetchone()
            lies, *own = row or (None, None, None)
            codes, schedules = own[:1], own[1:]
            while lies is not None:
                things.add(f"aggregation:{lies}")
                above = db.execute("SELECT parent, class FROM aggregations WHERE num = ?", (lies,)).fetchone()
                lies, code = above or (None, None)
                codes.append(code)
            things |= {f"class:{it}" for it in codes if it} | {f"schedule:{it}" for it in schedules if it}
    return things


def differences(left: Path, right: Path) -> list[tuple[str, set[str]]]:
    """Lists the rows in which two files of an office differ, with what each is about."""
    rows: list[tuple[str, set[str]]] = []
    with closing(sqlite3.connect(f"file:{left}?immutable=1", uri=True)) as db:
        db.execute("ATTACH ? AS other", (f"file:{right}?immutable=1",))
        for table, (key, thing) in TABLES.items():
            for row in differing(db, table):
                named = dict(zip([it[1] for it in db.execute(f"PRAGMA table_info({table})")], row))
                keys = {f"{thing}:{named[key]}"} | ({f"ref:{named['ref']}"} if "ref" in named else set())
                if table == "entries":
                    # what a run notes of a record depends on these
                    keys |= {f"{it}:{named[it]}" for it in ("class", "schedule", "hold") if named[it] is not None}
                if table == "targets":
                    keys.add(f"{named['kind']}:{named['target']}")
                rows.append((f"{table} {key} {named[key]}", keys | ({"run"} if thing == "run" else set())))
    return rows


def differing(db: sqlite3.Connection, table: str) -> Iterator[tuple[Any, ...]]:
    one, two = f"SELECT * FROM main.{table}", f"SELECT * FROM other.{table}"
    yield from db.execute(f"{one} EXCEPT {two}")
    yield from db.execute(f"{two} EXCEPT {one}")
