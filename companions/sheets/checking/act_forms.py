"""The forms of acts, as docs/ACTS.md has them: how a list is read of JSON, and for each member whether it is of its form."""
from __future__ import annotations

import base64
import datetime
import json
import math
import re
from collections.abc import Callable
from typing import NoReturn, Optional

from office_common import facts

Part = Callable[[object], Optional[int]]
LONGEST_CONTENT, LONGEST_TEXT, LONGEST_CODE = facts.LONGEST_CONTENT, facts.LIMITS["text"], facts.LIMITS["code"]
LARGEST, LONGEST = facts.LIMITS["number"], facts.PERIODS
MOST_NESTED = 127


class NotJson(Exception):
    """Bytes that are no JSON, or JSON that the program does not read."""


# ---- JSON, as serde_json reads it


def finite(text: str) -> float:
    number = float(text)
    if math.isinf(number):
        raise NotJson
    return number


def whole(text: str) -> int | float:
    """An integer without a sign is a number, any other one is as good as a fraction."""
    return int(text) if text.isdigit() and len(text) < 20 else finite(text)


def constant(text: str) -> NoReturn:
    raise NotJson


def tidied(value: object, nested: int) -> object:
    """A value whose objects were read as pairs, with these as dictionaries; texts without lone surrogates, nested not too deep."""
    if nested > MOST_NESTED and isinstance(value, (list, tuple)):
        raise NotJson
    if isinstance(value, str):
        value.encode()
    if isinstance(value, list):
        return [tidied(it, nested + 1) for it in value]
    if isinstance(value, tuple):
        return {tidied(name, nested): tidied(it, nested + 1) for name, it in value}
    return value


def json_of(body: bytes) -> object:
    try:
        read = json.loads(body.decode(), parse_float=finite, parse_int=whole, parse_constant=constant, object_pairs_hook=tuple)
        return tidied(read, 1)
    except (ValueError, RecursionError) as why:
        raise NotJson from why


# ---- acts: the form of each member, none where it is of its form, else its refusal


def is_day(value: str) -> bool:
    try:
        return bool(re.fullmatch("[0-2][0-9]{3}-[0-9]{2}-[0-9]{2}", value)) and bool(datetime.date.fromisoformat(value))
    except ValueError:
        return False


def is_code(value: str) -> bool:
    return bool(re.fullmatch("[A-Za-z0-9-]+", value)) and len(value) <= LONGEST_CODE


def is_text(value: str) -> bool:
    return 1 <= len(value.encode()) <= LONGEST_TEXT and not re.search("[\x00-\x1f\x7f-\x9f]", value)


def is_digest(value: str) -> bool:
    return bool(re.fullmatch("[0-9a-f]{64}", value))


def text_part(test: Callable[[str], bool]) -> Part:
    return lambda value: None if isinstance(value, str) and test(value) else 2


def word_part(words: list[str]) -> Part:
    return text_part(set(words).__contains__)


def number_part(value: object) -> int | None:
    if isinstance(value, bool) or not isinstance(value, (int, float)):
        return 2
    return None if isinstance(value, int) and 1 <= value <= LARGEST else 3


def content_part(value: object) -> int | None:
    try:
        content = base64.b64decode(value, validate=True) if isinstance(value, str) else None
    except ValueError:
        return 2
    if content is None or base64.b64encode(content).decode() != value:
        return 2
    return 3 if len(content) > LONGEST_CONTENT else None


def thing_part(value: str) -> int | None:
    """The number that stands after a target's kind."""
    if not re.fullmatch("0|[1-9][0-9]*", value):
        return 2
    return None if len(value) <= 10 and 1 <= int(value) <= LARGEST else 3


def classified_part(value: object) -> int | None:
    kind, colon, name = value.partition(":") if isinstance(value, str) else ("", "", "")
    return thing_part(name) if colon and kind in ("aggregation", "record") else 2


def target_part(value: object) -> int | None:
    if isinstance(value, str) and value.startswith("class:"):
        return None if is_code(value[6:]) else 2
    return classified_part(value)


def or_null(part: Part) -> Part:
    return lambda value: None if value is None else part(value)


def counted(value: object) -> int | None:
    """The form of a count alone; its limit is that of the act's unit."""
    return 2 if isinstance(value, bool) or not isinstance(value, (int, float)) else None


DAY = text_part(is_day)
FORMS: dict[str, Part] = {
    "day": DAY, "code": text_part(is_code), "text": text_part(is_text), "number": number_part, "count": counted,
    "digest": text_part(is_digest), "content": content_part, "target": target_part, "classified": classified_part,
    "code or null": or_null(text_part(is_code)), "number or null": or_null(number_part),
    **{name: word_part(words) for name, words in facts.WORDS.items()},
}
"""for each form of a member, what gives its refusal"""
ACTS: dict[str, dict[str, Part]] = {kind: {name: FORMS[form] for name, form in members.items()}
                                    for kind, members in facts.ACTS.items()}


def count_part(act: dict[str, object]) -> int | None:
    """The count of a schedule, up to its unit's limit."""
    count, unit = act.get("count"), act.get("unit")
    if (refusal := counted(count)) is not None:
        return refusal
    return None if isinstance(count, int) and count <= LONGEST.get(unit if isinstance(unit, str) else "", 0) else 3


def act_refusal(act: object) -> int | None:
    """Why a value is no act, none where it is one."""
    kind = act.get("act") if isinstance(act, dict) else None
    if not isinstance(act, dict) or not isinstance(kind, str) or kind not in ACTS:
        return 2
    parts = ACTS[kind]
    if not set(act) <= {"act", *parts}:
        return 2
    found = [count_part(act) if name == "count" else part(act.get(name)) for name, part in parts.items()]
    return min((it for it in found if it), default=None)
