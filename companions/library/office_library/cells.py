"""The cells of a library: the form of each, and the rule and the entry that the cells of a row make."""
import datetime
import re
import unicodedata
from collections.abc import Mapping
from dataclasses import dataclass

from office_common.facts import ACTS, LIMITS, PERIODS, WORDS

RULE = tuple(member for member in ACTS["add-schedule"] if member not in ("day", "code"))
"""the columns of a rule: those of the act that adds a schedule"""
NEEDED = ("class", "title", "schedule", *RULE, "law", "section", "as of")
OPTIONAL = ("why", "notation", "checked by", "source")
COLUMNS = (*NEEDED[:-1], "why", "notation", "as of", "checked by", "source")
NOBODY = "nobody yet"
"""who has checked a library that nobody has checked"""
MOST_BYTES = 1_000
"""bytes of a cell that is no title"""
CODE = re.compile("[A-Za-z0-9-]{1,%d}" % LIMITS["code"])
COUNT = re.compile("[0-9]{1,9}")
DAY = re.compile("[0-9]{4}-[0-9]{2}-[0-9]{2}")


class Wrong(Exception):
    """A cell or a member that is not of its form, and why."""


@dataclass(frozen=True)
class Rule:
    """A rule of disposal, as a schedule has it."""

    trigger: str
    unit: str
    count: int
    offset: str
    action: str

    def text(self) -> str:
        """Returns the rule as the pages write it."""
        return f"{self.trigger} {self.unit} {self.count} {self.offset} {self.action}"


@dataclass(frozen=True)
class Entry:
    """The law behind the rule of a class, as of a day, and who has checked that."""

    day: str
    title: str
    schedule: str
    law: str
    section: str
    why: str
    notation: str
    checked: str
    source: str


ENTRY = tuple(Entry.__dataclass_fields__)
"""the members of an entry, in their order"""


def is_day(text: str) -> bool:
    """Returns whether a text is a day."""
    try:
        return bool(DAY.fullmatch(text)) and datetime.date.fromisoformat(text).isoformat() == text
    except ValueError:
        return False


def is_plain(text: str) -> bool:
    """Returns whether a text fits in one line: it has no control characters, and no marks that end a line."""
    return all(unicodedata.category(letter) not in ("Cc", "Cs", "Zl", "Zp") for letter in text)


def day_of(text: str) -> str:
    if not is_day(text):
        raise Wrong(f"{text!r} is no day as 2025-01-01")
    return text


def code_of(text: str) -> str:
    if not CODE.fullmatch(text):
        raise Wrong(f"{text!r} is no code: 1 to {LIMITS['code']} letters, digits and hyphens")
    return text


def text_of(text: str, most: int = MOST_BYTES) -> str:
    if not is_plain(text):
        raise Wrong(f"{text!r} has a control character or a line break")
    if len(text.encode()) > most:
        raise Wrong(f"{text[:40]!r}.. has {len(text.encode())} bytes; at most {most} fit")
    return text


def count_of(text: str, unit: str) -> int:
    if not COUNT.fullmatch(text):
        raise Wrong(f"{text!r} is no count in digits")
    if int(text) > PERIODS[unit]:
        raise Wrong(f"{text} is more than {PERIODS[unit]:,} {unit}")
    return int(text)


def rule_of(cells: Mapping[str, str]) -> Rule:
    """Reads the rule of a row."""
    for name in RULE:
        if name in WORDS and cells[name] not in WORDS[name]:
            raise Wrong(f"{name}: {cells[name]!r} is none of {', '.join(WORDS[name])}")
    unit = cells["unit"]
    return Rule(cells["trigger"], unit, count_of(cells["count"], unit), cells["offset"], cells["action"])


def shown_title(title: str, notation: str) -> str:
    """Returns the title of a class in the office: the sign of the filing plan comes first."""
    return f"{notation} {title}" if notation else title


def entry_of(cells: Mapping[str, str]) -> Entry:
    """Reads the entry of a row."""
    texts = {name: text_of(cells[name]) for name in ("law", "section", "why", "notation", "checked by", "source")}
    text_of(shown_title(cells["title"], cells["notation"]), LIMITS["text"])
    checked = "" if texts["checked by"].startswith(NOBODY) else texts["checked by"]
    return Entry(day_of(cells["as of"]), cells["title"], code_of(cells["schedule"]), texts["law"], texts["section"],
                 texts["why"], texts["notation"], checked, texts["source"])
