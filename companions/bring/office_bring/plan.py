"""A filing plan as a table: each row is a class or a heading, with a period if the plan gives one."""
from __future__ import annotations

import re
from pathlib import Path

from office_bring.brought import KEEP, Brought, Rule
from office_bring.how import How
from office_bring.ledger import Wrong
from office_bring.moments import shown
from office_bring.tables import Row, Table, plain

COLUMNS = {
    "notation": ("Kennzeichen", "Aktenplankennzeichen", "Aktenzeichen", "Notation", "Ziffer", "Code", "Class", "Nummer", "Number"),
    "title": ("Bezeichnung", "Titel", "Betreff", "Title", "Name", "Description"),
    "period": ("Aufbewahrungsfrist", "Aufbewahrungsdauer", "Frist", "Retention period", "Retention", "Period"),
    "unit": ("Einheit", "Unit"),
    "trigger": ("Fristbeginn", "Beginn der Frist", "Trigger", "Begins"),
    "action": ("Aussonderungsart", "Aussonderung", "Disposition", "Disposal action", "Action"),
}
NEEDED = ("notation", "title")
PERIOD = re.compile(r"([0-9]{1,6})\s*([A-Za-z]*)\.?", re.ASCII)
UNITS = {"days": ("t", "tag", "tage", "day", "days"), "weeks": ("w", "woche", "wochen", "week", "weeks"),
         "months": ("m", "monat", "monate", "month", "months"), "years": ("j", "jahr", "jahre", "y", "year", "years")}
PERMANENT = ("dauernd", "dauerhaft", "unbefristet", "permanent", "permanently", "keep")
ACTIONS = {"destroy": ("v", "vernichten", "kassieren", "destroy", "delete"), "transfer": ("a", "abgeben", "archivieren", "transfer"),
           "review": ("b", "bewerten", "prüfen", "review"), "keep": PERMANENT}
TRIGGERS = {"closed": ("abschluss", "abschluss der akte", "schließung", "closed", "closing", "file closed"),
            "origin": ("entstehung", "origin", "created", "creation"),
            "last-addition": ("letzte ablage", "letzte bearbeitung", "last addition"), "event": ("ereignis", "event")}


def meant(table: dict[str, tuple[str, ...]], text: str) -> str | None:
    """Returns the term of an office that a text means, or None."""
    return next((name for name, texts in table.items() if plain(text) in texts or plain(text) == plain(name)), None)


def headings(notations: list[str]) -> set[str]:
    """Returns the notations that others begin with, as 20 begins 20.1 and 20/1."""
    ends = re.compile(r"[^0-9A-Za-z]")
    return {text[:match.start()] for text in notations for match in ends.finditer(text)}


class Plan:
    """A filing plan that is read."""

    def __init__(self, table: Table, how: How, brought: Brought) -> None:
        self.table, self.how, self.brought = table, how, brought
        self.headings = headings(table.texts("notation"))

    def rule(self, row: Row, place: str) -> Rule | None:
        """Returns the rule of a row. What is not read leaves none, and is named."""
        period, action = self.table.cell(row, "period"), self.table.cell(row, "action")
        trigger, unit = self.table.cell(row, "trigger"), self.table.cell(row, "unit")
        if plain(period) in PERMANENT or not period and meant(ACTIONS, action) == "keep":
            return KEEP
        match = PERIOD.fullmatch(period)
        unread = [(name, text) for name, text, table in (("action", action, ACTIONS), ("trigger", trigger, TRIGGERS),
                                                         ("unit", unit, UNITS)) if text and meant(table, text) is None]
        if match is None or match[2] and meant(UNITS, match[2]) is None:
            unread.append(("period", period))
        rule = None if unread or match is None else self.how.usual.rule(
            int(match[1]), meant(UNITS, match[2] or unit), meant(TRIGGERS, trigger), meant(ACTIONS, action))
        if isinstance(rule, Rule):
            return rule
        for name in ("period", "action", "trigger", "unit"):
            self.table.lose(row, name, "a rule that is not read")
        texts = ", ".join(f"{name} \"{shown(text)}\"" for name, text in unread if text)
        if texts or rule:
            self.brought.look(place, f"its rule is not read: {texts}" if texts else f"its rule is not whole: say {rule}")
        return None

    def take(self, row: Row) -> None:
        """Takes a class, or counts a heading as lost."""
        notation, title = self.table.cell(row, "notation"), self.table.cell(row, "title")
        if not notation:
            raise Wrong("it has no notation")
        rule = self.rule(row, f"{row.place()}, {notation}")
        if rule is None and notation in self.headings and not self.table.cell(row, "period"):
            self.lose_all(row, "headings, since classes have no hierarchy")
            return
        is_again = self.brought.codes.of(notation) in self.brought.classes
        self.brought.class_of(notation, title, self.brought.rule(rule) if rule else self.how.schedule)
        if is_again:
            self.lose_all(row, "classes that have the code of another")

    def lose_all(self, row: Row, reason: str) -> None:
        """Counts all cells of a row as lost."""
        for name in self.table.columns:
            self.table.lose(row, name, reason)


def bring(path: Path, how: How, brought: Brought) -> None:
    """Reads a filing plan."""
    table = how.table(path, COLUMNS, NEEDED)
    plan = Plan(table, how, brought)
    table.each(brought.ledger, plan.take)
