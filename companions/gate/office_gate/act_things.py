"""The things that an act is about, and the value that it gives to one of them."""
import re
from dataclasses import dataclass

from office_gate.body import Json, number_in
from office_gate.scopes import number_of, split
from office_gate.words import OF_RECORD, RESUME

CODE = re.compile("[A-Za-z0-9-]{1,16}")
KINDS_OF_TARGET = ("record", "aggregation")
LEFT_OUT = ("act", "content")
"""members that no row of a history has: the kind stands beside them, and a content is nobody's to read there"""
NAMED = {
    "add-schedule": (("schedule", "code"),),
    "add-class": (("class", "code"), ("schedule", "schedule")),
    "set-class-schedule": (("class", "class"), ("schedule", "schedule")),
    "place-hold": (("hold", "code"),),
    "lift-hold": (("hold", "hold"),),
    "hold-on": (("hold", "hold"),),
    "hold-off": (("hold", "hold"),),
    "add-aggregation": (("aggregation", "parent"), ("class", "class")),
    "close-aggregation": (("aggregation", "aggregation"),),
    "add-record": (("aggregation", "aggregation"),),
    "reclassify": (("class", "class"),),
    "set-record-schedule": (("schedule", "schedule"),),
    "review": (("schedule", "schedule"),),
}
"""of each kind the things that its members name, beside its record or its target"""


@dataclass(frozen=True)
class Change:
    """A value that a thing has from an act on, as the schedule of a class. None stands for no value of its own."""

    thing: str
    name: str
    value: str | None


def code_in(act: Json, name: str) -> str | None:
    """Returns a code, or None if the member is none."""
    value = act.get(name)
    return value if isinstance(value, str) and CODE.fullmatch(value) else None


def target_of(act: Json) -> str | None:
    """Returns the target of an act in its one spelling, or None if it has none."""
    kind, name = split(act.get("target"))
    if kind == "class":
        return f"class:{name}" if CODE.fullmatch(name) else None
    number = number_of(name) if kind in KINDS_OF_TARGET else None
    return f"{kind}:{number}" if number else None


def things_of(act: Json) -> set[str]:
    """Names the things that an act is about, as `record:8`."""
    kind, things = act["act"], set[str]()
    if kind in OF_RECORD and (number := number_in(act, "record")):
        things.add(f"record:{number}")
    for thing, member in NAMED.get(kind, ()):
        name = number_in(act, member) if thing == "aggregation" else code_in(act, member)
        if name:
            things.add(f"{thing}:{name}")
    if kind in ("reclassify", "hold-on", "hold-off") and (target := target_of(act)):
        things.add(target)
    return things


def made_by(kind: str, answer: Json) -> set[str]:
    """Names the things that only the answer names: what was made, what a step took, the run that was closed."""
    made = {"add-record": "record", "add-aggregation": "aggregation", "open-run": "run"}
    things = set()
    if kind in made and (number := number_in(answer, "number")):
        things.add(f"{made[kind]}:{number}")
    if kind in ("run-step", RESUME):
        things |= {f"{thing}:{answer[name]}" for thing, name in (("record", "record"), ("run", "certificate"))
                   if number_in(answer, name)}
    return things


def changes_of(act: Json, answer: Json) -> list[Change]:
    """Lists the values that an act gave, in the order of a history: the first one is what the act is for."""
    kind, number = act["act"], number_in(answer, "number")
    if kind in ("set-class-schedule", "add-class"):
        code = code_in(act, "code" if kind == "add-class" else "class")
        return [Change(f"class:{code}", "schedule", code_in(act, "schedule"))]
    if kind == "set-record-schedule" or kind == "review" and act.get("schedule") is not None:
        return [Change(f"record:{number_in(act, 'record')}", "schedule", code_in(act, "schedule"))]
    if kind == "reclassify":
        return [Change(target_of(act) or "", "class", code_in(act, "class"))]
    if kind == "add-aggregation":
        return [Change(f"aggregation:{number}", "class", code_in(act, "class"))]
    # what is answered as there already keeps what it has
    if kind == "add-record" and not answer.get("same"):
        return [Change(f"record:{number}", member, code_in(act, member)) for member in ("class", "schedule")]
    return []


def members_of(act: Json) -> Json:
    """Returns the members of an act that a history shows."""
    return {name: value for name, value in act.items()
            if name not in LEFT_OUT and (value is None or isinstance(value, str | int))}
