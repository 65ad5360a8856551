"""The forms of values: how a column of FILE is written as a member of a line, read back, and described."""
import datetime
import re
from collections.abc import Callable, Sequence
from typing import Any, NamedTuple

from office_common.facts import LIMITS, WORDS

EPOCH = datetime.date(1970, 1, 1)
TARGETS = ("class", "aggregation", "record")
"""what a hold can be put on"""
Schema = dict[str, Any]


class Kind(NamedTuple):
    """The form of a value: its schema, whether a member has it, and both directions between column and member."""

    schema: Schema
    has_form: Callable[[Any], bool]
    member_of: Callable[[Any], Any]
    column_of: Callable[[Any], Any]


def same(value: Any) -> Any:
    return value


def text_of(pattern: str) -> Kind:
    """Returns the kind of the texts that match a pattern in whole."""
    form = re.compile(pattern)
    return Kind({"type": "string", "pattern": f"^{pattern}$"},
                lambda value: isinstance(value, str) and form.fullmatch(value) is not None, same, same)


def number_from(least: int, most: int) -> Kind:
    """Returns the kind of the whole numbers within bounds."""
    return Kind({"type": "integer", "minimum": least, "maximum": most},
                lambda value: type(value) is int and least <= value <= most, same, same)


def one_of(words: Sequence[str]) -> Kind:
    """Returns the kind of a list of words."""
    return Kind({"enum": list(words)}, lambda value: isinstance(value, str) and value in words, same, same)


def day_of(number: object) -> object:
    """Returns the day with a number, 1970-01-01 being 0; any other value is returned as it is, and has no form."""
    try:
        return (EPOCH + datetime.timedelta(number)).isoformat() if isinstance(number, int) else number
    except OverflowError:
        return number


def number_of(day: str) -> int:
    return (datetime.date.fromisoformat(day) - EPOCH).days


def is_day(value: object) -> bool:
    """Returns whether a member is a day of the calendar, with a year of four digits."""
    try:
        return isinstance(value, str) and day_of(number_of(value)) == value
    except ValueError:
        return False


DAY = Kind({"type": "string", "format": "date", "pattern": "^[0-9]{4}-[0-9]{2}-[0-9]{2}$"}, is_day, day_of, number_of)
CODE = text_of(f"[A-Za-z0-9-]{{1,{LIMITS['code']}}}")
DIGEST = text_of("[0-9a-f]{64}")
TEXT = Kind({"type": "string", "minLength": 1, "maxLength": LIMITS["text"]},
            lambda value: isinstance(value, str) and 1 <= len(value.encode()) <= LIMITS["text"], same, same)
NUMBER = number_from(1, LIMITS["number"])
COUNT = number_from(0, LIMITS["number"])
LENGTH = number_from(0, LIMITS["content"])
FLAG = Kind({"type": "boolean"}, lambda value: isinstance(value, bool),
            lambda column: bool(column) if column in (0, 1) else column, int)
TRIGGER, UNIT, OFFSET, ACTION, STATUS, OUTCOME = (
    one_of(WORDS[name]) for name in ("trigger", "unit", "offset", "action", "status", "outcome"))
TARGET = one_of(TARGETS)
