"""The classes that an act is about: of records the office is asked, of aggregations the catalogue and the journal."""
from collections.abc import Awaitable, Callable

from office_gate.body import Json, number_in
from office_gate.catalogue import Aggregations
from office_gate.pace import each
from office_gate.words import OF_RECORD

Scope = list[str | None]
"""classes, for each of which a right is needed. None is in no class, or in one that nobody knows"""
Asking = Callable[[int], Awaitable[Json | None]]
"""returns what the office reports of a record"""


def text(value: object) -> str | None:
    return value if type(value) is str else None


def split(target: object) -> tuple[str, str]:
    kind, _, name = (text(target) or "").partition(":")
    return kind, name


def number_of(name: str) -> int | None:
    return int(name) if name.isascii() and name.isdigit() and len(name) <= 10 else None


class Scopes:
    """The classes of one list of acts, as they are before its first act."""

    def __init__(self, aggregations: Aggregations, asking: Asking) -> None:
        self.aggregations, self.asking = aggregations, asking
        self.records: dict[int, Json | None] = {}

    async def record(self, number: int | None) -> Json | None:
        if number is None:
            return None
        if number not in self.records:
            self.records[number] = await self.asking(number)
        return self.records[number]

    async def class_of_record(self, number: int | None) -> str | None:
        record = await self.record(number)
        return record["class"] if record else None

    def class_of(self, number: int | None) -> str | None:
        return self.aggregations.class_of(number)

    async def of(self, act: Json) -> Scope:
        kind = act["act"]
        if kind == "set-class-schedule":
            return [text(act.get("class"))]
        if kind == "add-class":
            return [text(act.get("code"))]
        if kind == "add-aggregation":
            return self.both(act, "parent")
        if kind == "close-aggregation":
            return [self.class_of(number_in(act, "aggregation"))]
        if kind == "add-record":
            return self.both(act, "aggregation")
        if kind in OF_RECORD:
            return [await self.class_of_record(number_in(act, "record"))]
        if kind in ("reclassify", "hold-on", "hold-off"):
            return [await self.of_target(act.get("target"))]
        return [None]

    def both(self, act: Json, container: str) -> Scope:
        """What is put into a container is in the class that it names, and counts for that of the container."""
        scope: Scope = []
        if act.get("class") is not None:
            scope.append(text(act["class"]))
        if act.get(container) is not None:
            scope.append(self.class_of(number_in(act, container)))
        return scope or [None]

    async def of_target(self, target: object) -> str | None:
        kind, name = split(target)
        if kind == "class":
            return name
        if kind == "aggregation":
            return self.class_of(number_of(name))
        return await self.class_of_record(number_of(name)) if kind == "record" else None

    async def given_by(self, act: Json) -> str | None:
        """Returns the class that an act of reclassifying gives: an own one, or else what its target then inherits."""
        if act.get("class") is not None:
            return text(act["class"])
        kind, name = split(act.get("target"))
        number = number_of(name)
        if kind == "record":
            record = await self.record(number)
            return self.class_of(record["aggregation"]) if record else None
        return self.class_of(self.aggregations.parents.get(number or 0))

    async def given_in(self, acts: list[Json]) -> Scope:
        """Returns the classes that the list gives to things: within the list a thing may have any of these."""
        return [await self.given_by(act) async for _, act in each(acts) if act["act"] == "reclassify"]


def has_thing(act: Json) -> bool:
    """Returns whether an act is about a record or an aggregation that is there, whose class the list may change."""
    return act["act"] in (*OF_RECORD, "reclassify", "close-aggregation", "add-record", "add-aggregation") or \
        act["act"] in ("hold-on", "hold-off") and split(act.get("target"))[0] != "class"
