"""Holdings from before: a sheet of files and one of records as acts in the order of their days."""
from __future__ import annotations

import datetime
from collections.abc import Callable
from dataclasses import dataclass

from spreadsheet.acts import ActFindings, ActRow, ActTurner, Asked
from spreadsheet.cells import Files, Wrong, code_of, content_of, text_of
from spreadsheet.columns import SYNONYMS, Columns, Form
from spreadsheet.kinds import NAMES
from spreadsheet.members import Pending, Things
from spreadsheet.sheet import Row

DAYS = {"opened": ["open", "from", "begun", "eröffnet", "angelegt", "von"],
        "closed": ["to", "until", "ended", "geschlossen", "abgeschlossen", "bis"],
        "filed": ["added", "filed on", "abgelegt", "abgelegt am"]}
FILES = Form(["ref", "title", "class", "parent", "opened", "closed"], ["ref", "title", "opened"], [],
             {**{it: NAMES[it] for it in ("ref", "title", "class", "parent")}, **DAYS})
# the aggregation of a record is that of the sheet of files, by its ref
RECORDS = Form(["ref", "title", "originated", "aggregation", "class", "schedule", "content", "filed"],
               ["ref", "title", "originated", "aggregation"], [],
               {**SYNONYMS, "aggregation": [*SYNONYMS["aggregation"], "file", "file ref"], **DAYS})
# of the acts of one day aggregations come first, then records, then closings
ADDED, FILED, CLOSED = 0, 1, 2


@dataclass
class HistoryRow(ActRow):
    """An act of the past, with what decides where it comes; a content is read when the act is made."""

    turn: int = ADDED
    depth: int = 0
    cell: str = ""
    files: Files | None = None

    def place(self) -> tuple[str, int, int]:
        return str(self.act["day"]), self.turn, -self.depth if self.turn == CLOSED else self.depth

    def made(self, numbers: dict[str, int]) -> dict[str, object]:
        act = super().made(numbers)
        return {**act, "content": self.files.content(self.cell)} if self.files else act


class HistoryTurner(ActTurner):
    """Turns a sheet of files, then one of records; refs of files are their own, and the office numbers them."""

    def __init__(self, columns: Columns, things: Things, asked: Asked, files: Files | None = None) -> None:
        super().__init__("history", columns, things, asked)
        self.files = files
        self.spans: dict[str, tuple[datetime.date, datetime.date | None]] = {}
        self.depths: dict[str, int] = {}

    def days(self) -> tuple[str, ...]:
        return ("opened", "closed", "originated", "filed")

    def kind_of(self, row: Row) -> str | None:
        return "add-aggregation" if "opened" in self.columns.form.names else "add-record"

    def turn(self, row: Row, found: ActFindings) -> None:
        """Puts the acts of a row among those that are good, or says what is wrong with its cells."""
        before = len(found.kinds)
        acts = self.file(row, found) if self.kind_of(row) == "add-aggregation" else self.record(row, found)
        self.check_strange(row, "history", found)
        if len(found.kinds) > before:
            found.wrong.append(row.number)
        else:
            found.good += acts

    def read(self, row: Row, found: ActFindings, name: str, part: Callable[[str], object]) -> object:
        """Returns the value of a cell, none where it is wrong."""
        act: dict[str, object] = {}
        self.put(act, row, found, name, lambda: part(self.cell(row, name)))
        return act.get(name)

    def maybe_day(self, name: str) -> Callable[[str], object]:
        return lambda cell: self.past(name, cell) if cell else None

    def past(self, name: str, cell: str) -> datetime.date:
        day = self.day(name, cell)
        if day > self.asked.today:
            raise Wrong("late", f"is after today, {self.asked.today}")
        return day

    def file(self, row: Row, found: ActFindings) -> list[ActRow]:
        """The acts of a file: it is added on the day when it was opened, and closed on the day when it was closed."""
        ref = self.read(row, found, "ref", text_of)
        title = self.read(row, found, "title", text_of)
        code = self.read(row, found, "class", lambda cell: code_of(cell) or None)
        parent = self.read(row, found, "parent", lambda cell: self.things.number("aggregation", cell) if cell else None)
        opened = self.read(row, found, "opened", lambda cell: self.past("opened", cell))
        closed = self.read(row, found, "closed", self.maybe_day("closed"))
        if not isinstance(ref, str) or not isinstance(opened, datetime.date):
            return []
        if ref in self.spans:
            self.wrong(row, "ref", Wrong("again", "is in another row too"), found)
        if isinstance(closed, datetime.date) and closed < opened:
            self.wrong(row, "closed", Wrong("order", f"is before the day when it was opened, {opened}"), found)
        self.spans[ref] = (opened, closed if isinstance(closed, datetime.date) else None)
        self.depths[ref] = self.depths.get(parent.ref, 0) + 1 if isinstance(parent, Pending) else 0
        if isinstance(parent, Pending) and (parent.ref not in self.spans or self.spans[parent.ref][0] > opened):
            self.wrong(row, "parent", Wrong("parent", "is to be in a row above, and opened no later"), found)
        added = {"act": "add-aggregation", "day": opened.isoformat(), "ref": ref, "title": title, "parent": parent,
                 "class": code}
        acts: list[ActRow] = [HistoryRow(row.number, added, ADDED, self.depths[ref])]
        if isinstance(closed, datetime.date):
            end = {"act": "close-aggregation", "day": closed.isoformat(), "aggregation": Pending(ref)}
            acts.append(HistoryRow(row.number, end, CLOSED, self.depths[ref]))
        return acts

    def record(self, row: Row, found: ActFindings) -> list[ActRow]:
        """The act of a record: it is filed on its day of filing, else when it was made, or when its file was opened."""
        ref = self.read(row, found, "ref", text_of)
        title = self.read(row, found, "title", text_of)
        originated = self.read(row, found, "originated", lambda cell: self.past("originated", cell))
        name = self.read(row, found, "aggregation", text_of)
        codes = {it: self.read(row, found, it, lambda cell: code_of(cell) or None) for it in ("class", "schedule")}
        filed = self.read(row, found, "filed", self.maybe_day("filed"))
        content = self.read(row, found, "content", self.content)
        if isinstance(name, str) and name not in self.spans:
            self.wrong(row, "aggregation", Wrong("noRef", "is the ref of no file in the sheet of files"), found)
        if isinstance(ref, str):
            self.once("add-record", {"ref": ref}, row, found)
        if not isinstance(name, str) or name not in self.spans or not isinstance(originated, datetime.date):
            return []
        opened, closed = self.spans[name]
        day = filed if isinstance(filed, datetime.date) else max(originated, opened)
        if day < opened or (closed and day > closed):
            told = "filed" if self.cell(row, "filed") else "originated"
            why = f"its file was open from {opened} to {closed or 'now'}: write the day of filing in a column filed"
            self.wrong(row, told, Wrong("span", why), found)
        act = {"act": "add-record", "day": day.isoformat(), "ref": ref, "title": title,
               "originated": originated.isoformat(), "aggregation": Pending(name), **codes, "content": content}
        return [HistoryRow(row.number, act, FILED, 0, self.cell(row, "content"), self.files)]

    def content(self, cell: str) -> object:
        if self.files is None:
            return content_of(cell)
        self.files.check(cell)
        return ""


def sorted_acts(rows: list[ActRow]) -> list[ActRow]:
    """Returns the acts by their days; those of one day as they follow from one another."""
    return sorted(rows, key=lambda it: it.place() if isinstance(it, HistoryRow) else ("", 0, 0))
