"""What a source gives: rules, classes, files, records and events, as rows of the sheets that office-convert reads."""
from __future__ import annotations

from collections import Counter
from dataclasses import dataclass, field
from typing import NamedTuple

from office_bring import texts
from office_bring.codes import Codes
from office_bring.ledger import Ledger, Wrong


class Rule(NamedTuple):
    """A disposal schedule, whose code is made of itself: the same rule has the same code in all runs."""

    trigger: str
    unit: str
    length: int
    offset: str
    action: str

    def code(self) -> str:
        """Returns the code, such as C-10Y-M1-D: closed, ten years, from month 1, destroy. No two triggers, units or
        actions begin with the same letter."""
        if self.action == "keep":
            return "KEEP"
        offset = self.offset.replace("from-month-", "M").replace("month", "M").replace("quarter", "Q").replace("none", "")
        parts = [self.trigger[0], f"{self.length}{self.unit[0]}", offset, self.action[0]]
        return "-".join(part for part in parts if part).upper()


KEEP = Rule("added", "days", 0, "none", "keep")


class Class(NamedTuple):
    """A row of the sheet of classes."""

    code: str
    title: str
    schedule: str


class File(NamedTuple):
    """A row of the sheet of files."""

    ref: str
    title: str
    code: str
    parent: str
    opened: str
    closed: str


class Record(NamedTuple):
    """A row of the sheet of records."""

    ref: str
    title: str
    originated: str
    file: str
    code: str
    schedule: str
    path: str
    filed: str


class Event(NamedTuple):
    """A row of the sheet of events."""

    ref: str
    occurred: str


class Change(NamedTuple):
    """A text that the sheets have in another form than the source."""

    reason: str
    ref: str
    source: str
    sheet: str


@dataclass
class Brought:
    """The rows of all sheets, the text that differ from the source, and what somebody should look at."""

    codes: Codes
    ledger: Ledger = field(default_factory=Ledger)
    prefix: str = ""
    rules: dict[str, Rule] = field(default_factory=dict)
    classes: dict[str, Class] = field(default_factory=dict)
    files: dict[str, File] = field(default_factory=dict)
    records: dict[str, Record] = field(default_factory=dict)
    events: dict[str, Event] = field(default_factory=dict)
    changes: list[Change] = field(default_factory=list)
    looks: list[str] = field(default_factory=list)
    notes: Counter[str] = field(default_factory=Counter)

    def rule(self, rule: Rule) -> str:
        """Notes a rule, and returns its code."""
        self.rules[rule.code()] = rule
        return rule.code()

    def ref(self, text: str) -> str:
        """Returns the ref of a thing of the source."""
        whole = self.prefix + text
        made = texts.ref(whole)
        if not texts.in_one_line(text):
            raise Wrong("it has no ref")
        if made != whole:
            self.changes.append(Change("ref", made, whole, made))
        return made

    def title(self, text: str, ref: str) -> str:
        """Returns a title. That of a thing without one is its ref."""
        made = texts.title(text) or texts.title(ref)
        if made != text:
            self.changes.append(Change("title" if text.strip() else "no title", ref, text, made))
        return made

    def class_of(self, word: str, title: str = "", schedule: str | None = None) -> str:
        """Notes a class, and returns its code. A source may name a class often, and give its schedule only once."""
        code = self.codes.of(word)
        word = " ".join(word.split())
        whole = f"{word} {title}".strip() if title and title != word else word
        known = self.classes.get(code)
        if known is None:
            self.classes[code] = Class(code, texts.title(whole), schedule or "")
            if texts.title(whole) != whole:
                self.changes.append(Change("title", code, whole, texts.title(whole)))
        elif schedule and not known.schedule:
            self.classes[code] = known._replace(schedule=schedule)
        elif schedule and known.schedule != schedule:
            raise Wrong(f"its class {code} has the schedule {known.schedule} above, and {schedule} here")
        return code

    def add_file(self, file: File) -> None:
        """Notes a file."""
        if file.ref in self.files:
            raise Wrong(f"its ref \"{file.ref}\" is that of another file too")
        self.files[file.ref] = file

    def add_record(self, record: Record) -> None:
        """Notes a record."""
        if record.ref in self.records:
            raise Wrong(f"its ref \"{record.ref}\" is that of another record too")
        self.records[record.ref] = record

    def look(self, place: str, text: str) -> None:
        """Notes what somebody should look at."""
        self.looks.append(f"{place}: {text}")

    def count(self) -> str:
        """Returns the numbers of rows."""
        counts = {"rules": len(self.rules), "classes": len(self.classes), "files": len(self.files), "records": len(self.records),
                  "events": len(self.events)}
        return ", ".join(f"{count} {name}" for name, count in counts.items() if count) or "nothing"
