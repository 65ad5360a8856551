"""The laws of an office, in a file of JSON beside its FILE: the entries of each class, the newest first.

    {"form": "office-mandates 1", "schedules": {CODE: RULE}, "classes": {CODE: [ENTRY, ..]}}

An entry that is there never changes. One of a later day goes above it, so what was shown on a day can be shown again.
"""
import json
from collections.abc import Iterable
from dataclasses import asdict, dataclass, replace
from pathlib import Path
from typing import Any

from office_common.errors import USAGE, WRONG, Refused

from office_library.cells import ENTRY, RULE, Entry, Rule, Wrong, code_of, day_of, rule_of, text_of
from office_library.sheet import Row

FORM = "office-mandates 1"


@dataclass(frozen=True)
class Mandates:
    """The laws of an office: the rule of each schedule, and the entries of each class."""

    schedules: dict[str, Rule]
    classes: dict[str, tuple[Entry, ...]]

    def entry(self, code: str, day: str) -> Entry | None:
        """Returns the entry of a class as of a day, or None if it has none of that day or before."""
        return next((entry for entry in self.classes.get(code, ()) if entry.day <= day), None)


@dataclass
class Counts:
    """How many rows were new classes, later entries of a class, or there already."""

    added: int = 0
    renewed: int = 0
    same: int = 0


# ---- the file


def members(value: Any, names: Iterable[str] | None = None) -> dict[str, Any]:
    """Returns an object, which must have exactly these members."""
    if not isinstance(value, dict) or names is not None and sorted(value) != sorted(names):
        raise Wrong("an object has other members than " + ", ".join(names or ["codes"]))
    return value


def stored_rule(value: Any) -> Rule:
    """Reads the rule of a schedule."""
    named = members(value, RULE)
    if not isinstance(named["count"], int) or isinstance(named["count"], bool):
        raise Wrong("a count is no number")
    if not all(isinstance(named[name], str) for name in RULE if name != "count"):
        raise Wrong("a member of a rule is no text")
    return rule_of({**named, "count": str(named["count"])})


def stored_entry(value: Any) -> Entry:
    """Reads an entry."""
    named = members(value, ENTRY)
    if not all(isinstance(text, str) for text in named.values()):
        raise Wrong("a member of an entry is no text")
    day_of(named["day"])
    code_of(named["schedule"])
    return Entry(**{name: text_of(named[name]) for name in ENTRY})


def stored_entries(value: Any, schedules: dict[str, Rule]) -> tuple[Entry, ...]:
    """Reads the entries of a class: each later than the one below it."""
    if not isinstance(value, list) or not value:
        raise Wrong("a class has no list of entries")
    entries = tuple(stored_entry(entry) for entry in value)
    if any(entry.day <= older.day for entry, older in zip(entries, entries[1:])):
        raise Wrong("the entries of a class are not in the order of their days")
    if any(entry.schedule not in schedules for entry in entries):
        raise Wrong("an entry has a schedule without a rule")
    return entries


def mandates_of(data: bytes) -> Mandates:
    """Reads the laws of an office. Wrong says what is damaged."""
    try:
        whole = members(json.loads(data), ("form", "schedules", "classes"))
    except (ValueError, RecursionError) as error:
        raise Wrong("it is no JSON") from error
    if whole["form"] != FORM:
        raise Wrong(f"its form is not {FORM}")
    schedules = {code_of(code): stored_rule(rule) for code, rule in members(whole["schedules"]).items()}
    return Mandates(schedules, {code_of(code): stored_entries(entries, schedules)
                                for code, entries in members(whole["classes"]).items()})


def read(path: Path) -> Mandates:
    """Reads the laws of an office in a file."""
    try:
        return mandates_of(path.read_bytes())
    except OSError as error:
        raise Refused(USAGE, f"{path}: {error.strerror}") from error
    except Wrong as wrong:
        raise Refused(USAGE, f"{path} is damaged: {wrong}") from wrong


def text_of_all(mandates: Mandates) -> str:
    """Writes the laws of an office, the same text for the same laws."""
    whole = {"form": FORM, "schedules": {code: asdict(rule) for code, rule in mandates.schedules.items()},
             "classes": {code: [asdict(entry) for entry in entries] for code, entries in mandates.classes.items()}}
    return json.dumps(whole, ensure_ascii=False, indent=1, sort_keys=True) + "\n"


# ---- what is added


def with_entry(entries: tuple[Entry, ...], row: Row, counts: Counts) -> tuple[Entry, ...]:
    """Puts the entry of a row above the others of its class. Wrong says why it has no place there."""
    there = next((entry for entry in entries if entry.day == row.entry.day), None)
    if there and replace(there, source=row.entry.source) == row.entry:
        counts.same += 1
        return entries
    if there:
        raise Wrong(f"class {row.code} has another entry as of {there.day}: give the row a later day")
    if entries and row.entry.day < entries[0].day:
        raise Wrong(f"class {row.code} has an entry as of {entries[0].day}, and this row is older")
    counts.added += not entries
    counts.renewed += bool(entries)
    return (row.entry, *entries)


def merged(mandates: Mandates, rows: Iterable[Row]) -> tuple[Mandates, Counts]:
    """Adds rows, one of each class. Refused names each that would change what is there; then nothing is added."""
    schedules, classes = dict(mandates.schedules), dict(mandates.classes)
    counts, reports = Counts(), []
    for row in rows:
        try:
            if schedules.setdefault(row.entry.schedule, row.rule) != row.rule:
                raise Wrong(f"schedule {row.entry.schedule} has another rule: {schedules[row.entry.schedule].text()}")
            classes[row.code] = with_entry(classes.get(row.code, ()), row, counts)
        except Wrong as wrong:
            reports.append(f"{row.place}: {wrong}")
    if reports:
        raise Refused(WRONG, "\n".join(reports))
    return Mandates(schedules, classes), counts
