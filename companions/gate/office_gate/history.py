"""Who did what to a thing and why, and what was done since the catalogue: acts of the journal, by a name's rights."""
import asyncio
import datetime
import json
import re
import sqlite3
from functools import partial
from typing import Any

from office_gate.acts_index import ActsIndex, Row
from office_gate.body import Json
from office_gate.deciding import Caller
from office_gate.errors import Answered
from office_gate.gate import Gate
from office_gate.office import Answer
from office_gate.rights import need
from office_gate.scopes import Scope, Scopes, text

MOST = 200
"""rows of one answer about a thing"""
MOST_SINCE = 1000
MARGIN = 2.0
"""so many seconds before the moment of a catalogue, which is a whole second, the journal is read on from it"""
LAST = (10**15, 0)
NUMBER = "[1-9][0-9]{0,9}"
PLACE = r"([0-9]{1,15})(?:\.([0-9]{1,7}))?"
QUESTION = re.compile(rf"/history\?(?:(record|aggregation|run)=({NUMBER})|(class|schedule|hold)=([A-Za-z0-9-]{{1,16}})|"
                      rf"(name)=([A-Za-z0-9._@-]{{1,64}}))(?:&from={PLACE})?")
MOMENT = "[0-9]{4}-[0-9]{2}-[0-9]{2}T[0-9]{2}:[0-9]{2}:[0-9]{2}Z"
SINCE = re.compile(rf"/since\?moment=({MOMENT})(?:&after={PLACE})?")
CODES = ("class", "schedule", "hold", "code")


def place_of(line: str | None, place: str | None, otherwise: tuple[int, int]) -> tuple[int, int]:
    return (int(line), int(place or 0)) if line else otherwise


def moment_of(seconds: float) -> str:
    """Returns the moment from which on the journal is read for a catalogue of that one, as the journal writes it."""
    return datetime.datetime.fromtimestamp(max(0.0, seconds - MARGIN), datetime.UTC).isoformat(timespec="microseconds")


def moment_before(text: str) -> str:
    """Returns the same for a moment as the catalogue writes it."""
    try:
        return moment_of(datetime.datetime.fromisoformat(text.replace("Z", "+00:00")).timestamp())
    except (ValueError, OverflowError) as error:
        raise Answered(404, "path") from error


class Sight:
    """What a name may know of acts, by the classes of what they are about: it needs a right to each of these things."""

    def __init__(self, gate: Gate, caller: Caller, things: tuple[str, ...]) -> None:
        self.person, self.rights = caller.person, [f"read {it}" for it in things]
        self.scopes = Scopes(gate.aggregations(), partial(gate.office.record, caller.person.name))

    def is_whole(self) -> bool:
        return all(map(self.person.may_all, self.rights))

    def covers(self, code: str | None, status: str | None = None) -> bool:
        return all(self.person.may_in(it, code, status) for it in self.rights)

    async def sees(self, row: Row) -> bool:
        """Returns whether all that an act is about lies in classes of the name."""
        return self.is_whole() or all(map(self.covers, await self.scope(row)))

    async def scope(self, row: Row) -> Scope:
        """Returns the classes of an act, and what its record or aggregation has by now if the act made it."""
        scope = await self.scopes.of({"act": row.kind, **row.act})
        number = row.answer.get("number") if isinstance(row.answer, dict) else None
        if row.kind == "add-record" and number:
            scope.append(await self.scopes.class_of_record(number))
        if row.kind == "add-aggregation" and number:
            scope.append(self.scopes.class_of(number))
        return scope

    def known(self, code: object) -> object:
        """Returns a code of a class, if the name may know it."""
        return code if self.is_whole() or code is None or self.covers(text(code)) else None

    def act_of(self, row: Row) -> Json:
        act = dict(row.act)
        if "class" in act:
            act["class"] = self.known(act["class"])
        return act

    def change_of(self, row: Row) -> Json:
        change = row.change
        if change.get("what") == "class":
            change = {name: value if name == "what" else self.known(value) for name, value in change.items()}
        return change


class History:
    """The two readings of one name."""

    def __init__(self, gate: Gate, caller: Caller) -> None:
        self.gate, self.caller, self.person = gate, caller, caller.person

    async def index(self) -> ActsIndex:
        """Returns the acts of the journal up to now."""
        index = self.gate.index
        try:
            await asyncio.to_thread(index.catch_up)
        except (OSError, sqlite3.Error) as error:
            raise Answered(503, "journal") from error
        return index

    # ---- the history of a thing

    async def about(self, path: str) -> Answer:
        need(self.person, "history")
        match = QUESTION.fullmatch(path)
        if not match:
            raise Answered(404, "path")
        thing, name = [it for it in match.groups()[:6] if it]
        sight = Sight(self.gate, self.caller, ("history", "records"))
        things = [f"{thing}:{name}", *await self.admitted(sight, thing, name)]
        before = place_of(match[7], match[8], LAST)
        if match[7] and not match[8]:
            before = (before[0], LAST[0])
        index = await self.index()
        rows = await asyncio.to_thread(index.of_name, name, before, MOST + 1) if thing == "name" else \
            await asyncio.to_thread(index.about, things, before, MOST + 1)
        shown = [self.row(it, sight) for it in rows[:MOST] if thing == "record" or await sight.sees(it)]
        begins = await asyncio.to_thread(index.begins)
        return answer_of({"rows": shown, "next": next_of(rows, MOST), "begins": begins})

    async def admitted(self, sight: Sight, thing: str, name: str) -> list[str]:
        """Refuses a thing of a foreign class. Returns what belongs to its history beside it: the run that ended it."""
        if thing == "record":
            record = await sight.scopes.record(int(name))
            if record is None:
                raise Answered(404, "record")
            if not sight.covers(record["class"], record["status"]):
                raise Answered(403, "class", read="history")
            return [f"run:{record['ended']['run']}"] if record.get("ended") and sight.is_whole() else []
        foreign = thing == "class" and not sight.covers(name)
        if foreign or thing == "aggregation" and not sight.covers(sight.scopes.class_of(int(name))):
            raise Answered(403, "class", read="history")
        return []

    def row(self, row: Row, sight: Sight) -> Json:
        person = self.gate.access.people.get(row.name)
        shown = {"line": row.line, "place": row.place, "at": row.at, "name": row.name, "kind": row.kind,
                 "by": person.signs if person else row.name, "act": sight.act_of(row), "reason": row.reason,
                 "status": row.status, "known": row.known, "answer": row.answer}
        return shown | {"change": sight.change_of(row)} if row.change else shown

    # ---- what was done since the catalogue

    async def since(self, path: str) -> Answer:
        need(self.person, "catalogue")
        match = SINCE.fullmatch(path)
        if not match:
            raise Answered(404, "path")
        begin, after = moment_before(match[1]), place_of(match[2], match[3], (0, 0))
        sight = Sight(self.gate, self.caller, ("catalogue",))
        index = await self.index()
        rows = await asyncio.to_thread(index.since, begin, after, MOST_SINCE + 1)
        shown = [self.deed(it, sight) for it in rows[:MOST_SINCE] if await sight.sees(it)]
        looked = rows[:MOST_SINCE]
        last = mark_of(looked[-1]) if looked else f"{after[0]}.{after[1]}"
        return answer_of({"rows": shown, "last": last, "more": len(rows) > MOST_SINCE})

    def deed(self, row: Row, sight: Sight) -> Json:
        answer: dict[str, Any] = row.answer if isinstance(row.answer, dict) else {}
        return {"act": {"act": row.kind, **sight.act_of(row)}, "answer": answer}


def mark_of(row: Row) -> str:
    return f"{row.line}.{row.place}"


def next_of(rows: list[Row], most: int) -> str | None:
    """Returns where the next answer goes on, or None if this one has all."""
    return mark_of(rows[most]) if len(rows) > most else None


def answer_of(body: object) -> Answer:
    return Answer(200, json.dumps(body, separators=(",", ":"), ensure_ascii=False).encode())
