"""Rows of a sheet as rows of an import: those that are good, and what is wrong with the cells of the others."""
from __future__ import annotations

import csv
import datetime
import io
from collections.abc import Callable, Iterator
from dataclasses import dataclass, field

from spreadsheet.catalogue import Catalogue
from spreadsheet.cells import Files, Wrong, code_of, content_of, in_one_line, note_of, number_of, text_of
from spreadsheet.columns import NAMES, Columns
from spreadsheet.days import Order, at_place, day_read, order_of, why_no_day
from spreadsheet.members import Things, look_day
from spreadsheet.sheet import Row, in_quotes, place


@dataclass
class Findings:
    """What was found in the rows. A good row is its number in the sheet, and the cells of the import."""

    good: list[tuple[int, list[str]]] = field(default_factory=list)
    wrong: list[int] = field(default_factory=list)
    said: list[str] = field(default_factory=list)
    notes: list[str] = field(default_factory=list)
    # the row, the column's name and the kind of each that is wrong, and of each that somebody should look at
    kinds: list[tuple[int, str, str]] = field(default_factory=list)
    looks: list[tuple[int, str, str]] = field(default_factory=list)
    empty: int = 0

    def count(self) -> int:
        return len(self.good) + len(self.wrong) + self.empty

    def spans(self) -> list[tuple[int, int, int]]:
        """Which rows of the import are which of the sheet: the first of each, and how many follow one another."""
        found: list[tuple[int, int, int]] = []
        for at, (number, _) in enumerate(self.good, 1):
            first, row, many = found[-1] if found else (0, 0, 0)
            if found and number == row + many:
                found[-1] = (first, row, many + 1)
            else:
                found.append((at, number, 1))
        return found


class Turner:
    """Turns rows by the columns of a sheet; `first_year` is that of two digits, where they may be a year."""

    def __init__(self, columns: Columns, files: Files | None, first_year: int | None, join_lines: bool,
                 today: datetime.date | None = None, catalogue: Catalogue | None = None,
                 zone: datetime.tzinfo | None = None) -> None:
        self.columns, self.files, self.first_year, self.join_lines = columns, files, first_year, join_lines
        self.today, self.things = today or datetime.date.today(), Things(catalogue)
        self.zone = zone
        self.refs: dict[str, int] = {}
        self.order = Order("ymd", None)

    def all(self, rows: list[Row], days: str | None) -> Findings:
        """Returns all rows, by the order of days that is asked for, else by the one that the column shows."""
        found = Findings()
        filled = [it for it in rows if not it.is_empty()]
        found.empty = len(rows) - len(filled)
        cells = ((self.where(it, "originated"), self.cell(it, "originated")) for it in filled)
        self.order = order_of(cells, days, self.first_year)
        for row in filled:
            self.turn(row, found)
        return found

    def cell(self, row: Row, name: str) -> str:
        """Returns a cell without the spaces around it; one that the row has not is empty."""
        if name in self.columns.values:
            return self.columns.values[name]
        at = self.columns.places.get(name, len(row.cells))
        cell = row.cells[at].strip() if at < len(row.cells) else ""
        if name == "originated":
            cell = at_place(cell, self.zone)
        return in_one_line(cell) if self.join_lines and name in ("ref", "title") else cell

    def where(self, row: Row, name: str) -> str:
        at = self.columns.places.get(name)
        return f"row {row.number}" if at is None else place(at, row.number)

    # ---- the cells that need more than their own text

    def ref(self, row: Row, cell: str) -> str:
        text = text_of(cell)
        if text in self.refs:
            raise Wrong("twice", f"is the ref of row {self.refs[text]} too, and each record has a ref of its own")
        self.refs[text] = row.number
        return text

    def day(self, cell: str) -> str:
        read = day_read(cell, self.order.name, self.first_year)
        if read is None:
            raise Wrong(*why_no_day(cell, self.order.name, self.first_year))
        return read.isoformat()

    def aggregation(self, cell: str) -> str:
        """Returns the number of an aggregation, or that of the one whose ref the catalogue has."""
        return str(self.things.number("aggregation", cell)) if cell and self.things.catalogue else number_of(cell)

    def look(self, name: str, value: str) -> tuple[str, str] | None:
        """What somebody should look at in a cell that is of its form."""
        if name == "originated":
            return look_day(datetime.date.fromisoformat(value), self.today, None)
        if name == "aggregation":
            return self.things.look("aggregation", int(value), "add-record")
        return self.things.look_code(name, value, False) if name in ("class", "schedule") else None

    def content(self, cell: str) -> str:
        """Returns the base64, or the name of a file that is there and not too large: it is read when it is written."""
        if self.files is None:
            return content_of(cell)
        self.files.check(cell)
        return cell

    # ---- rows

    def turn(self, row: Row, found: Findings) -> None:
        """Puts a row among those that are good, or says what is wrong with each of its cells."""
        parts: dict[str, Callable[[str], str]] = {
            "ref": lambda cell: self.ref(row, cell), "title": text_of, "originated": self.day,
            "aggregation": self.aggregation, "class": code_of, "schedule": code_of, "content": self.content}
        values, said = [], []
        for name, part in parts.items():
            cell = self.cell(row, name)
            note = note_of(cell) if name in ("ref", "title") else None
            try:
                values.append(part(cell))
                note = note or self.look(name, values[-1])
            except Wrong as why:
                found.kinds.append((row.number, name, why.kind))
                said.append(f"{self.where(row, name)} ({name}): {in_quotes(cell) + ' ' if cell else ''}{why}")
            if note:
                found.looks.append((row.number, name, note[0]))
                found.notes.append(f"{self.where(row, name)} ({name}): {in_quotes(cell)} {note[1]}")
        for at in self.columns.nameless(len(row.cells)):
            if row.cells[at].strip():
                found.kinds.append((row.number, "", "nameless"))
                said.append(f"{place(at, row.number)}: {in_quotes(row.cells[at])} is in a column without a name")
        if said:
            found.wrong.append(row.number)
            found.said += said
        else:
            found.good.append((row.number, values))

    def lines(self, found: Findings) -> Iterator[str]:
        """Gives the lines of the import, one after another: the content of a file is read when its line is made."""
        yield line_of(NAMES)
        for _, values in found.good:
            yield line_of([*values[:-1], self.files.content(values[-1]) if self.files else values[-1]])


def line_of(cells: list[str]) -> str:
    line = io.StringIO()
    csv.writer(line, lineterminator="\n").writerow(cells)
    return line.getvalue()
