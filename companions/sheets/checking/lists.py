"""A list of acts, as the program reads it: where each act is in the text, and what is wrong with each."""
from __future__ import annotations

import codecs
import datetime
import difflib
import json
from collections.abc import Callable, Iterable
from dataclasses import dataclass
from typing import Optional

from checking import act_forms
from checking.forms import is_count, shown, why

Part = Callable[[object], Optional[int]]
SPACE = " \t\r\n"
LATE = ("is after today, {today}. Once it is done, the office takes no act of an earlier day any more, no hold either, "
        "and records may be destroyed early. Correct it, or say --late where it is meant")


class NoList(Exception):
    """The bytes are no list of acts: the program says `office: json`."""


@dataclass(frozen=True)
class Act:
    """An item of a list: its place from 0, its line from 1, and its value."""

    place: int
    line: int
    value: object

    def name(self) -> str:
        kind = self.value.get("act") if isinstance(self.value, dict) else None
        known = f", {kind}" if isinstance(kind, str) and kind in act_forms.ACTS else ""
        return f"act {self.place} ({ordinal(self.place + 1)}, line {self.line}{known})"


def ordinal(number: int) -> str:
    ending = "th" if number % 100 in (11, 12, 13) else {1: "st", 2: "nd", 3: "rd"}.get(number % 10, "th")
    return f"the {number}{ending}"


# ---- the list


def acts_in(data: bytes) -> list[Act]:
    """Returns the items of the list that the bytes are."""
    if data.startswith(codecs.BOM_UTF8):
        raise NoList("the file begins with a byte order mark: save it as UTF-8 without one (in Notepad, UTF-8 and not "
                     "UTF-8 with BOM)")
    if data.startswith((codecs.BOM_UTF16_LE, codecs.BOM_UTF16_BE)):
        raise NoList("the file is UTF-16: save it as UTF-8")
    try:
        text = data.decode()
    except UnicodeDecodeError as fault:
        line = data.count(b"\n", 0, fault.start) + 1
        raise NoList(f"line {line} is not UTF-8: save the file as UTF-8") from fault
    try:
        values = act_forms.json_of(data)
    except act_forms.NotJson as fault:
        raise NoList(json_why(fault.__cause__)) from fault
    if not isinstance(values, list):
        raise NoList(f"the file has {kind_of(values)} and no list: put [ in front of the acts, and ] behind them")
    return [Act(place, line, value) for place, (line, value) in enumerate(zip(lines_of(text, len(values)), values))]


def json_why(fault: BaseException | None) -> str:
    if isinstance(fault, json.JSONDecodeError):
        is_comma = fault.doc[:fault.pos].rstrip().endswith(",") and fault.doc[fault.pos:fault.pos + 1] in ("]", "}")
        what = "there is a comma too many" if is_comma else fault.msg
        return f"no JSON at line {fault.lineno}, column {fault.colno}: {what}"
    if isinstance(fault, UnicodeEncodeError):
        return "no JSON: a text has half of a pair of \\u escapes"
    return "no JSON: a number is too large, is none (NaN), or the values are nested 128 deep"


def lines_of(text: str, count: int) -> list[int]:
    """Returns the line in which each item of a list begins; the text is a list with so many items."""
    decoder = json.JSONDecoder()
    at, line, found = text.index("[") + 1, 1, []
    done = 0
    for _ in range(count):
        at = past_space(text, at)
        line += text.count("\n", done, at)
        done = at
        found.append(line)
        _, at = decoder.raw_decode(text, at)
        # past the comma, or the end of the list
        at = past_space(text, at) + 1
    return found


def past_space(text: str, at: int) -> int:
    while text[at] in SPACE:
        at += 1
    return at


def kind_of(value: object) -> str:
    names = {dict: "an object", list: "a list", str: "a text", bool: "a truth value", type(None): "null"}
    return names.get(type(value), "a number")


# ---- an act


def faults_of(act: Act) -> list[str]:
    """What is wrong with an act; nothing where it reads."""
    value = act.value
    if not isinstance(value, dict):
        return [f"is {kind_of(value)}, and an act is an object as {{\"act\":\"run-step\"}}"]
    kind = value.get("act")
    if not isinstance(kind, str) or kind not in act_forms.ACTS:
        return [unknown_why(value)]
    parts = parts_of(kind)
    wrong = [name for name, part in parts.items()
             if (act_forms.count_part(value) if name == "count" else part(value.get(name)))]
    if "unit" in wrong and is_count(value.get("count")):
        # only with a unit does a count have a limit
        wrong.remove("count")
    strange = [strange_why(name, value, parts) for name in value if name != "act" and name not in parts]
    return [*strange, *(why(value, name) for name in wrong)]


def parts_of(kind: str) -> dict[str, Part]:
    """Returns the members of a kind of act beside `act`, each with what says its refusal."""
    return act_forms.ACTS[kind]


def unknown_why(value: dict[str, object]) -> str:
    if "act" not in value:
        return f"has no member \"act\"; it is one of {', '.join(act_forms.ACTS)}"
    return f"act {shown(value['act'])} is unknown{guess(value['act'], act_forms.ACTS)}; there are {', '.join(act_forms.ACTS)}"


def strange_why(name: str, value: dict[str, object], parts: dict[str, Part]) -> str:
    missing = [it for it in parts if it not in value]
    names = ", ".join(["act", *parts])
    return f"member {shown(name)} is unknown{guess(name, missing)}; there are {names}"


def guess(word: object, words: Iterable[str]) -> str:
    near = difflib.get_close_matches(word.lower(), list(words), 1) if isinstance(word, str) else []
    return f" (is {near[0]} meant?)" if near else ""


def late_why(act: Act, today: datetime.date) -> str | None:
    """What a day after today means, where an act that reads has one."""
    day = act.value.get("day") if isinstance(act.value, dict) else None
    if day is None or day <= today.isoformat():
        return None
    return f"day {shown(day)} " + LATE.format(today=today)


def back_whys(acts: list[Act]) -> list[str]:
    """Returns the acts whose day is before that of one above: the office refuses these, once that one is done."""
    latest, above, found = "", -1, []
    for act in acts:
        day = act.value.get("day") if isinstance(act.value, dict) else None
        if not isinstance(day, str) or act_forms.DAY(day) is not None:
            continue
        if day < latest:
            found.append(f"{act.name()}: day {shown(day)} is before {latest}, the day of act {above}: the office "
                         "refuses it (1) once that one is done. Sort the acts by their days")
        else:
            latest, above = day, act.place
    return found
