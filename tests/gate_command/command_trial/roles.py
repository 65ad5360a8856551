"""Each kind of act, and each reading, by each role and by a stranger: the command decides as companions/gate does."""
from __future__ import annotations

import asyncio
import datetime
import pathlib
from collections.abc import Iterator
from typing import Any

from command_trial.filed import SETTINGS, fill, filing
from command_trial.served import DAY, Answer, Gated, denied, stopped
from kit.judging import judge, same
from office_gate import deciding, settings
from office_gate.access import Access, Person
from office_gate.catalogue import Aggregations
from office_gate.errors import Answered
from office_gate.scopes import Scopes
from office_gate.words import ACTS, RESUME

ROLES = ("registry", "records-manager", "legal", "department", "auditor", "archive", "monitor", "nobody", "stranger")
CLASSES = {1: "BLDG1", 2: "PER1"}
"""the class of each record, and of the aggregation of the same number"""
NEXT_DAY = "2026-06-02"
Json = dict[str, Any]


def acts(by: str) -> Iterator[Json]:
    """Gives acts that the office refuses or has already, so that none changes anything, of each kind and each class."""
    yield {"act": "add-schedule", "code": "D0", "trigger": "added", "unit": "days", "count": 0, "offset": "none",
           "action": "destroy"}
    yield {"act": "lift-hold", "hold": "NONE"}
    yield {"act": "run-step"}
    yield {"act": "place-hold", "code": "H", "reason": "r", "by": by}
    yield {"act": "open-run", "day": "2001-01-01", "by": by}
    for number, code in CLASSES.items():
        yield {"act": "add-class", "code": code, "title": "t", "schedule": "D0"}
        yield {"act": "set-class-schedule", "class": code, "schedule": "NONE"}
        for parent in (None, 1, 2, 99):
            yield {"act": "add-aggregation", "ref": "A", "title": "t", "parent": parent, "class": code}
        yield filing(1, number, b"other", **{"class": CLASSES[3 - number]})
    for number in (1, 2, 99):
        yield {"act": "close-aggregation", "day": "2001-01-01", "aggregation": number}
        yield filing(1, number, b"other")
        yield {"act": "set-record-schedule", "record": number, "schedule": "NONE"}
        yield {"act": "confirm", "record": number, "action": "transfer", "by": by}
        yield {"act": "review", "record": number, "by": by}
        yield {"act": "receipt", "record": number, "digest": "0" * 64, "by": by}
        yield {"act": "event", "record": number, "occurred": "2026-06-03", "by": by}
        for thing in ("record", "aggregation"):
            yield {"act": "hold-on", "hold": "NONE", "target": f"{thing}:{number}"}
            yield {"act": "hold-off", "hold": "H", "target": f"{thing}:{number}"}
            yield {"act": "reclassify", "target": f"{thing}:{number}", "class": "NONE"}
            yield {"act": "reclassify", "day": "2001-01-01", "target": f"{thing}:{number}"}
    for code in ("BLDG1", "PER1", "NONE"):
        yield {"act": "hold-on", "hold": "NONE", "target": f"class:{code}"}


class Oracle:
    """The decision of companions/gate over the same settings and the same office."""

    def __init__(self, access: Access) -> None:
        self.access = access
        self.aggregations = Aggregations()
        for number, code in CLASSES.items():
            self.aggregations.add(number, None, code)

    async def record(self, number: int) -> Json | None:
        return {"class": CLASSES[number], "aggregation": number} if number in CLASSES else None

    async def judge(self, person: Person, act: Json) -> None:
        await deciding.kinds(person, [act])
        await deciding.sign(person, [act])
        if act.get("day", "") > DAY and not person.may_all("later-day"):
            raise Answered(403, "future")
        await deciding.classes(person, [act], Scopes(self.aggregations, self.record))

    def error(self, name: str, act: Json) -> str | None:
        """Returns why an act is denied to a name, None if it is not."""
        person = self.access.person(name)
        try:
            asyncio.run(self.judge(person, {"day": DAY, **act}))
        except Answered as refused:
            return refused.word if person.grants else "name"
        return None

    def resume_error(self, name: str) -> str | None:
        person = self.access.person(name)
        return None if person.may_all(RESUME) else "right" if person.grants else "name"

    def reading_error(self, name: str, thing: str, number: int | None) -> str | None:
        """Returns why a reading is denied; a thing without a number lies in no class."""
        person = self.access.person(name)
        if not person.grants:
            return "name"
        if not person.may(f"read {thing}"):
            return "right"
        code = None if number is None else CLASSES.get(number)
        return None if person.may_in(f"read {thing}", code) else "class"


def roles(folder: pathlib.Path) -> None:
    with Gated(folder / "office", SETTINGS) as gated:
        fill(gated)
        before = file_rows(gated)
        oracle = Oracle(settings.read(gated.settings))
        kinds: dict[str, set[str | None]] = {kind: set() for kind in ACTS}
        for role in ROLES:
            for act in acts(role):
                kinds[act["act"]].add(acted(gated, oracle, role, act))
            for by in ("", "manager", role.upper()):
                acted(gated, oracle, role, {"act": "place-hold", "code": "H", "reason": "r", "by": by or "x"})
            acted(gated, oracle, role, {"act": "lift-hold", "day": NEXT_DAY, "hold": "NONE"})
            resumed(gated, oracle, role)
            for number in (1, 2, 99):
                read(gated, oracle, role, "records", number, f"/records/{number}")
                read(gated, oracle, role, "contents", number, f"/records/{number}/content")
                read(gated, oracle, role, "certificates", None, f"/certificates/{number}")
            listed(gated, oracle, role)
        same("each kind was permitted to somebody, and denied for its right", {kind for kind, seen in kinds.items()
                                                                               if {None, "right"} <= seen}, set(ACTS))
        same("no act changed anything", file_rows(gated), before)


def acted(gated: Gated, oracle: Oracle, role: str, act: Json) -> str | None:
    """Compares what comes of an act with the decision of the oracle, and returns that."""
    answer, error = gated.act(role, act), oracle.error(role, act)
    if error is None:
        judge(f"{role} may {act}", answer.status in (200, 409) and is_unchanged(answer), answer, is_quiet=True)
    else:
        same(f"{role} may not {act}", answer, stopped([], error))
    return error


def is_unchanged(answer: Answer) -> bool:
    """Reports whether the office refused the one act of a list, or had it already."""
    return len(answer.body) == 1 and ("refused" in answer.body[0] or answer.body[0].get("same") is True)


def resumed(gated: Gated, oracle: Oracle, role: str) -> None:
    error = oracle.resume_error(role)
    same(f"{role} resumes", gated.resume(role), Answer(409, {"refused": 18}) if error is None else Answer(403, denied(error)))


def read(gated: Gated, oracle: Oracle, role: str, thing: str, number: int | None, path: str) -> None:
    answer, error = gated.get(role, path), oracle.reading_error(role, thing, number)
    if error is not None:
        same(f"{role} does not read {path}", answer, Answer(403, denied(error)))
        return
    wanted = 404 if path.startswith("/certificates") or "99" in path else 200
    judge(f"{role} reads {path}", answer.status == wanted, answer, is_quiet=True)


def listed(gated: Gated, oracle: Oracle, role: str) -> None:
    """Compares the rows of a due list with those that the oracle lets the name read."""
    due = (datetime.date.fromisoformat(DAY) + datetime.timedelta(1)).isoformat()
    person = oracle.access.person(role)
    for path in (f"/due/{due}", f"/overdue/{due}/0"):
        answer = gated.get(role, path)
        if not person.may("read lists"):
            same(f"{role} reads no list", answer, Answer(403, denied("right" if person.grants else "name")))
            continue
        wanted = [number for number, code in CLASSES.items() if person.may_in("read lists", code)]
        same(f"{role}: rows of {path}", (answer.status, [row["record"] for row in answer.body]), (200, wanted))


def file_rows(gated: Gated) -> list[list[tuple[Any, ...]]]:
    """Returns all rows of FILE but its day, which an act of today may move."""
    tables = gated.column("SELECT name FROM sqlite_schema WHERE type = 'table' AND name <> 'office'")
    return [gated.rows(f"SELECT '{table}', * FROM {table}") for table in tables]
