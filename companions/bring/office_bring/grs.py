"""The General Records Schedules of the National Archives of the United States, as a table.

An instruction is a sentence of law. Three forms of it are read as a whole; any other leaves the schedule empty.
"""
from __future__ import annotations

import re
from pathlib import Path

from office_bring.brought import Brought, Rule
from office_bring.how import How
from office_bring.ledger import Wrong
from office_bring.moments import shown
from office_bring.tables import Row, Table

COLUMNS = {"number": ("GRS Number", "Schedule Number", "GRS"), "item": ("Item Number", "Item"),
           "title": ("Records Title", "Title", "Records Description"),
           "instruction": ("Disposition Instruction", "Disposition Instructions", "Disposition"),
           "authority": ("Disposition Authority", "Authority")}
NEEDED = ("number", "item", "title", "instruction")
LONGER = r"(?:, but longer retention is authorized(?: if (?:required|needed) for business use)?)?\.?"
PERIOD = r"(\d{1,3}) (day|week|month|year)\(?s?\)?"
AGE = re.compile(rf"(?:Temporary\. )?Destroy when {PERIOD} old{LONGER}", re.ASCII)
EVENT = re.compile(rf"(?:Temporary\. )?Destroy {PERIOD} after ([^,.;]+){LONGER}", re.ASCII)
CUSTODY = re.compile(rf"Permanent\. Transfer(?: legal custody)? to the National Archives when {PERIOD} old\.?", re.ASCII)
DOUBTFUL = re.compile(r"\b(?:or|and|whichever|earlier|later|sooner|until|unless)\b")


def rule_of(text: str) -> Rule | None:
    """Returns the rule that an instruction states, None if it is of another form or names several days."""
    text = " ".join(text.split())
    if match := AGE.fullmatch(text):
        return Rule("origin", f"{match[2]}s", int(match[1]), "none", "destroy")
    if match := CUSTODY.fullmatch(text):
        return Rule("origin", f"{match[2]}s", int(match[1]), "none", "transfer")
    match = EVENT.fullmatch(text)
    if match is None or DOUBTFUL.search(match[3]):
        return None
    return Rule("event", f"{match[2]}s", int(match[1]), "none", "destroy")


def bring(path: Path, how: How, brought: Brought) -> None:
    """Reads a table of schedules: each item is a class."""
    table = how.table(path, COLUMNS, NEEDED)

    def take(row: Row) -> None:
        word = word_of(table, row)
        text = table.cell(row, "instruction")
        rule = rule_of(text)
        if rule is None:
            table.lose(row, "instruction", "a rule that is not read")
            brought.look(f"{row.place()}, {word}", f"its rule is not read: {shown(text)}")
        elif "longer retention" in text:
            brought.notes["rules with leave to keep longer: place a hold, or give another schedule"] += 1
        if brought.codes.of(word) in brought.classes:
            raise Wrong(f"the item \"{word}\" is above too, or another one with its code")
        brought.class_of(word, table.cell(row, "title"), brought.rule(rule) if rule else how.schedule)
    table.each(brought.ledger, take)


def word_of(table: Table, row: Row) -> str:
    """Returns the word of an item, such as GRS 1.1 010."""
    number, item = table.cell(row, "number"), table.cell(row, "item")
    if not number or not item:
        raise Wrong("it has no number of a schedule and an item")
    return f"GRS {number.removeprefix('GRS').strip()} {item}"
