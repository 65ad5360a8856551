"""Whether a name may do the acts of a list: kind by kind, its own name, the day, a reason, and the classes."""
import datetime
import re
from collections import Counter
from dataclasses import dataclass, field

from office_gate.access import Access, Person
from office_gate.body import Json, is_act
from office_gate.errors import Answered
from office_gate.office import ends_of
from office_gate.pace import each
from office_gate.scopes import Scopes, has_thing
from office_gate.words import ACTS, LATER_DAY, RESUME, SIGNED

DAY = re.compile(r"\d\d\d\d-\d\d-\d\d", re.ASCII)


@dataclass(frozen=True)
class Caller:
    """Who asks, from where and why."""

    person: Person
    origin: str
    reason: str
    lines: dict[str, str]
    # up to then an act waits for those before it, and for the office
    ends: float = field(default_factory=ends_of)
    # whether the office has a vault; an older configuration of nginx does not report that it has none
    has_vault: bool = True


def today(access: Access) -> str:
    return datetime.datetime.now(access.zone).date().isoformat()


def may_act(person: Person) -> bool:
    """Reports whether a name has a right to any kind of act."""
    return any(map(person.may, ACTS))


def kinds_in(values: list[object]) -> dict[str, int]:
    """Counts the acts of a list by their kinds, of those that there are."""
    counts = Counter(value["act"] for value in values if is_act(value))
    return {kind: counts[kind] for kind in ACTS if counts[kind]}


async def kinds(person: Person, acts: list[Json]) -> None:
    """Refuses a kind that is none, one that the name has no right for, and a second opening of a run."""
    may = {kind: person.may(kind) for kind in ACTS}
    opens = False
    async for place, act in each(acts):
        kind = act["act"]
        if kind not in may or opens and kind == "open-run":
            raise Answered(400, "act", place=place, refused=2)
        if not may[kind]:
            raise Answered(403, "right", act=kind, place=place)
        opens = opens or kind == "open-run"


async def sign(person: Person, acts: list[Json]) -> None:
    """Refuses an act that names another person than the one who signed in."""
    own = ("", person.name, person.signs)
    async for place, act in each(acts):
        if act["act"] in SIGNED and act.get("by") is not None and not (type(act["by"]) is str and act["by"] in own):
            raise Answered(403, "by", place=place)


async def signed(person: Person, acts: list[Json]) -> list[Json]:
    """Returns acts with the name that signed in where they name a person."""
    return [act | {"by": person.signs} if act["act"] in SIGNED else act async for _, act in each(acts)]


async def days(access: Access, person: Person, acts: list[Json]) -> list[int]:
    """Refuses a day after today without the right to it. Returns the places of acts with a day before today."""
    now, earlier, may_later = today(access), list[int](), person.may_all(LATER_DAY)
    async for place, act in each(acts):
        day = act.get("day")
        # what is no day is left to the office, which refuses it
        if type(day) is not str or not DAY.fullmatch(day):
            continue
        if day > now and not may_later:
            raise Answered(403, "future", place=place, today=now)
        if day < now:
            earlier.append(place)
    return earlier


def reason(access: Access, caller: Caller, kind: str, place: int | None = None) -> None:
    if kind in access.rules.reasons and not caller.reason:
        where = {} if place is None else {"place": place}
        raise Answered(400, "reason", act=kind, **where)


async def reasons(access: Access, caller: Caller, acts: list[Json]) -> None:
    async for place, act in each(acts):
        reason(access, caller, act["act"], place)


async def classes(person: Person, acts: list[Json], scopes: Scopes) -> None:
    """Refuses what is about a class for which the name has no right."""
    whole = {kind: person.may_all(kind) for kind in {act["act"] for act in acts}}
    if all(whole.values()):
        return
    given = frozenset(await scopes.given_in(acts))
    in_given = {kind: all([person.may_in(kind, code) async for _, code in each(given)])
                for kind, is_whole in whole.items() if not is_whole}
    async for place, act in each(acts):
        kind = act["act"]
        if whole[kind]:
            continue
        scope = await scopes.of(act)
        if not all(person.may_in(kind, code) for code in scope) or has_thing(act) and not in_given[kind]:
            raise Answered(403, "class", act=kind, place=place)


def resume(access: Access, caller: Caller) -> None:
    """Refuses to carry out a run without the right to it."""
    if not caller.person.may_all(RESUME):
        raise Answered(403, "right", act=RESUME)
    reason(access, caller, RESUME)
