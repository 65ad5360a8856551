"""Random offices as models: classes with rules, files and records, and the acts that make such an office directly."""
from __future__ import annotations

import base64
import datetime
import random
from dataclasses import dataclass, field
from typing import Any, NamedTuple

FIRST = datetime.date(1998, 1, 2)
PLAN_DAY = "1990-01-02"
NAMES = ["Bauantrag", "Garten, Zaun", "Personal \"Akte\"", "Straße und Brücke", "Müll; Abfuhr", "Åse Ø", "Letters", "a  b", "Rechnung 5 €"]
Rule = tuple[str, str, int, str, str]


class Class(NamedTuple):
    """A class: the word and title of the other system, and its rule."""

    word: str
    title: str
    rule: Rule


class File(NamedTuple):
    """A file: its class is given by its place in the list, and its parent by its ref."""

    ref: str
    title: str
    place: int | None
    parent: str | None
    opened: datetime.date
    closed: datetime.date | None


class Record(NamedTuple):
    """A record; `rule` is its own, `place` that of an own class, and `event` the day on which its event occurred."""

    ref: str
    title: str
    originated: datetime.date
    file: str
    content: bytes = b""
    rule: Rule | None = None
    place: int | None = None
    filed: datetime.date | None = None
    event: datetime.date | None = None


@dataclass
class Model:
    """A whole office."""

    classes: list[Class] = field(default_factory=list)
    files: list[File] = field(default_factory=list)
    records: list[Record] = field(default_factory=list)


def some_days(rng: random.Random, most: int) -> datetime.timedelta:
    return datetime.timedelta(days=rng.randint(0, most))


def title(rng: random.Random) -> str:
    return f"{rng.choice(NAMES)} {rng.randint(1, 99)}".replace("  ", " ")


def rules(rng: random.Random, trigger: str, offset: str, actions: tuple[str, ...]) -> list[Rule]:
    """Makes three rules, and one that keeps."""
    made: list[Rule] = [(trigger, "years", rng.randint(1, 30), offset, rng.choice(actions)) for _ in range(3)]
    return [*made, ("added", "days", 0, "none", "keep")]


def files(rng: random.Random, model: Model, count: int, inner: int = 1) -> None:
    """Adds files, some within others if that is wanted, some closed: a file in a closed one is closed no later."""
    for number in range(1, count + 1):
        around = rng.choice([None, None, *[each for each in model.files * inner if each.parent is None]])
        opened = (around.opened if around else FIRST) + some_days(rng, 900)
        least = opened + some_days(rng, 700)
        closed = rng.choice([None, least, least])
        if around is not None and around.closed is not None:
            opened = min(opened, around.closed)
            closed = min(max(opened, closed or around.closed), around.closed)
        ref = f"{around.ref}-{number}" if around else f"A {number}/{rng.randint(1990, 2020)}"
        place = rng.randrange(len(model.classes)) if around is None or rng.random() < 0.3 else None
        model.files.append(File(ref, title(rng), place, around.ref if around else None, opened, closed))


def records(rng: random.Random, model: Model, count: int) -> None:
    """Adds records, none of them from after the end of its file."""
    for number in range(1, count + 1):
        file = rng.choice(model.files)
        last = file.closed or file.opened + datetime.timedelta(days=900)
        originated = file.opened + some_days(rng, (last - file.opened).days) - some_days(rng, 40)
        content = f"content {rng.randint(1, 9)}".encode() if rng.random() < 0.8 else b""
        model.records.append(Record(f"D-{number}-{rng.randint(0, 9)}", title(rng), originated, file.ref, content))


def code_of(rule: Rule, codes: dict[Rule, str]) -> str:
    return codes.setdefault(rule, f"S{len(codes)}")


def acts_of(model: Model) -> tuple[list[dict[str, Any]], dict[str, Rule], dict[str, str]]:
    """Returns the acts of an office in the order of their days, its schedules by their codes, and its words by codes."""
    codes: dict[Rule, str] = {}
    first: list[dict[str, Any]] = []
    for place, each in enumerate(model.classes):
        first.append({"act": "add-class", "day": PLAN_DAY, "code": f"K{place}", "title": each.title, "schedule": code_of(each.rule, codes)})
    numbers = numbers_of(model)
    later = [act for file in model.files for act in file_acts(file, numbers)]
    later += [record_act(each, model, numbers, codes) for each in model.records]
    later.sort(key=lambda pair: pair[0])
    schedules = [{"act": "add-schedule", "day": PLAN_DAY, "code": code, **dict(zip(("trigger", "unit", "count", "offset", "action"), rule))}
                 for rule, code in codes.items()]
    return ([*schedules, *first, *(act for _, act in later)], {code: rule for rule, code in codes.items()},
            {f"K{place}": each.word for place, each in enumerate(model.classes)})


def depth_of(ref: str, model: Model) -> int:
    file = next(each for each in model.files if each.ref == ref)
    return 0 if file.parent is None else 1 + depth_of(file.parent, model)


def numbers_of(model: Model) -> dict[str, int]:
    """Returns the number that each file gets: they are added by their days, and those around others first."""
    order = sorted(model.files, key=lambda each: (each.opened, depth_of(each.ref, model)))
    return {each.ref: number for number, each in enumerate(order, 1)}


Timed = tuple[tuple[str, int, int], dict[str, Any]]


def file_acts(file: File, numbers: dict[str, int]) -> list[Timed]:
    day, number = file.opened.isoformat(), numbers[file.ref]
    added = {"act": "add-aggregation", "day": day, "ref": file.ref, "title": file.title,
             "parent": numbers[file.parent] if file.parent else None, "class": None if file.place is None else f"K{file.place}"}
    acts: list[Timed] = [((day, 0, number), added)]
    if file.closed:
        day = file.closed.isoformat()
        # what is in another file is closed before it
        acts.append(((day, 2, 0 if file.parent else 1), {"act": "close-aggregation", "day": day, "aggregation": number}))
    return acts


def record_act(record: Record, model: Model, numbers: dict[str, int], codes: dict[Rule, str]) -> Timed:
    opened = next(each.opened for each in model.files if each.ref == record.file)
    day = (record.filed or max(opened, record.originated)).isoformat()
    return (day, 1, model.records.index(record)), {
        "act": "add-record", "day": day, "ref": record.ref, "title": record.title, "originated": record.originated.isoformat(),
        "aggregation": numbers[record.file], "class": None if record.place is None else f"K{record.place}",
        "schedule": code_of(record.rule, codes) if record.rule else None, "content": base64.b64encode(record.content).decode()}


def event_acts(model: Model, day: str, numbers: dict[str, int]) -> list[dict[str, Any]]:
    """Returns the events, for which the office has numbered the records."""
    return [{"act": "event", "day": day, "record": numbers[each.ref], "occurred": each.event.isoformat(), "by": "T"}
            for each in model.records if each.event]
