"""Rows of a sheet as acts of one kind: those that are good, and what is wrong with the cells of the others."""
from __future__ import annotations

import datetime
from collections.abc import Callable
from dataclasses import dataclass, field

from spreadsheet.cells import Wrong, in_one_line, note_of, text_of
from spreadsheet.columns import Columns
from spreadsheet.days import Order, at_place, day_read, order_of, why_no_day
from spreadsheet.kinds import MAYBE, MEMBERS, WORDS, form_of, word_named
from spreadsheet.members import Pending, Things, count_of, digest_of, look_day, needed_code, word_of
from spreadsheet.sheet import Row, in_quotes, place

TEXTS = ("ref", "title", "reason", "by")
CODES = {"code", "class", "schedule", "hold"}
# what the code of each kind is that of
OF_CODE = {"add-schedule": "schedule", "add-class": "class", "place-hold": "hold"}
# the columns that hold days
DAYS = ("occurred", "day")
# kinds in which a second row for the same thing is a mistake: the members that say which thing it is
ONCE = {"add-schedule": ["code"], "add-class": ["code"], "add-aggregation": ["ref"],
        "close-aggregation": ["aggregation"], "set-class-schedule": ["class"], "place-hold": ["code"],
        "lift-hold": ["hold"], "hold-on": ["hold", "target"],
        "hold-off": ["hold", "target"], "reclassify": ["target"],
        "add-record": ["ref"],
        **dict.fromkeys(("event", "review", "confirm", "receipt", "set-record-schedule"), ["record"])}


@dataclass
class ActRow:
    """A good row: its number in the sheet, and its act; numbers that the office is still to give are Pending."""

    number: int
    act: dict[str, object]

    def needs(self) -> list[str]:
        """Returns the refs of the aggregations whose numbers it waits for."""
        return [it.ref for it in self.act.values() if isinstance(it, Pending)]

    def made(self, numbers: dict[str, int]) -> dict[str, object]:
        """Returns the act, with the numbers that the office gave."""
        return {name: numbers[it.ref] if isinstance(it, Pending) else it for name, it in self.act.items()}


@dataclass
class ActFindings:
    """What was found in the rows, as Findings of an import has it; rows that say no, or say nothing, are counted."""

    good: list[ActRow] = field(default_factory=list)
    wrong: list[int] = field(default_factory=list)
    said: list[str] = field(default_factory=list)
    notes: list[str] = field(default_factory=list)
    kinds: list[tuple[int, str, str]] = field(default_factory=list)
    looks: list[tuple[int, str, str]] = field(default_factory=list)
    refused: list[int] = field(default_factory=list)
    undecided: list[int] = field(default_factory=list)
    empty: int = 0

    def count(self) -> int:
        rows = {it.number for it in self.good} | set(self.wrong)
        return len(rows) + len(self.refused) + len(self.undecided) + self.empty


@dataclass(frozen=True)
class Asked:
    """What is the same for all rows: today, and how days and line breaks are read."""

    today: datetime.date
    days: str | None = None
    first_year: int | None = None
    join_lines: bool = False
    is_late_meant: bool = False
    zone: datetime.tzinfo | None = None


class ActTurner:
    """Turns rows by the columns of a sheet into acts of a kind."""

    def __init__(self, kind: str, columns: Columns, things: Things, asked: Asked) -> None:
        self.kind, self.columns, self.asked = kind, columns, asked
        self.things, self.catalogue = things, things.catalogue
        self.orders: dict[str, Order] = {}
        self.seen: dict[tuple[object, ...], int] = {}

    def all(self, rows: list[Row]) -> ActFindings:
        """Returns all rows; what they add is to be gathered before, from this sheet and from others."""
        found = ActFindings()
        filled = [it for it in rows if not it.is_empty()]
        found.empty = len(rows) - len(filled)
        # a program writes the days of all columns alike
        days = [it for it in self.days() if it in self.columns.form.names]
        cells = ((self.where(row, name), self.cell(row, name)) for name in days for row in filled)
        order = order_of(cells, self.asked.days, self.asked.first_year)
        self.orders = dict.fromkeys(days, order)
        for row in filled:
            self.turn(row, found)
        return found

    def gather(self, rows: list[Row]) -> None:
        """Notes which codes and refs the sheet itself adds: rows may name them before and after."""
        for row in rows:
            kind = self.kind_of(row)
            if kind in ("add-schedule", "add-class"):
                self.things.added[kind.removeprefix("add-")].add(self.cell(row, "code"))
            elif kind == "add-aggregation":
                self.things.added["aggregation"].add(self.cell(row, "ref"))

    def days(self) -> tuple[str, ...]:
        """Returns the columns that hold days."""
        return DAYS

    # ---- cells

    def cell(self, row: Row, name: str) -> str:
        """Returns a cell without the spaces around it; one that the row has not is empty."""
        if name in self.columns.values:
            return self.columns.values[name]
        at = self.columns.places.get(name, len(row.cells))
        cell = row.cells[at].strip() if at < len(row.cells) else ""
        if name in self.days():
            cell = at_place(cell, self.asked.zone)
        return in_one_line(cell) if self.asked.join_lines and name in TEXTS else cell

    def where(self, row: Row, name: str) -> str:
        at = self.columns.places.get(name)
        return f"row {row.number}" if at is None else place(at, row.number)

    def kind_of(self, row: Row) -> str | None:
        """Returns the kind of a row: of a plan it has a column of its own."""
        return word_named("act", self.cell(row, "act")) if self.kind == "plan" else self.kind

    def day(self, name: str, cell: str) -> datetime.date:
        order = self.orders[name].name
        read = day_read(cell, order, self.asked.first_year)
        if read is None:
            raise Wrong(*why_no_day(cell, order, self.asked.first_year))
        return read

    def act_day(self, row: Row) -> datetime.date:
        cell = self.cell(row, "day") if "day" in self.columns.form.names else ""
        day = self.day("day", cell) if cell else self.asked.today
        if day > self.asked.today and not self.asked.is_late_meant:
            raise Wrong("late", f"is after today, {self.asked.today}: the office takes no act of an earlier day then; "
                        "say --late where it is meant")
        return day

    def value(self, kind: str, name: str, row: Row) -> object:
        """The value of a member, by the cells of a row; the cell that is wrong is that of `name`, or of its ref."""
        cell = self.cell(row, name)
        if not cell and (kind, name) in MAYBE:
            return None
        parts: dict[str, Callable[[], object]] = {
            "count": lambda: count_of(cell, word_named("unit", self.cell(row, "unit"))),
            "digest": lambda: digest_of(cell),
            "occurred": lambda: self.day("occurred", cell).isoformat(),
            "parent": lambda: self.things.number("aggregation", cell),
            "record": lambda: self.things.number("record", cell, self.cell(row, "ref")),
            "aggregation": lambda: self.things.number("aggregation", cell, self.cell(row, "ref")),
            "target": lambda: self.target(kind, row)}
        if name in parts:
            return parts[name]()
        if name in WORDS:
            return word_of(name, cell)
        return needed_code(cell) if name in CODES else text_of(cell)

    def target(self, kind: str, row: Row) -> str:
        names = [it for it in self.columns.form.either if it in self.columns.places or it in self.columns.values]
        return str(self.things.target({name: self.cell(row, name) for name in names}, kind != "reclassify"))

    # ---- rows

    def turn(self, row: Row, found: ActFindings) -> None:
        """Puts a row among those that are good, or says what is wrong with each of its cells."""
        kind = self.kind_of(row)
        if kind is None:
            self.wrong(row, "act", Wrong("word", f"is none of {', '.join(WORDS['act'])}"), found)
            found.wrong.append(row.number)
            return
        if kind == "confirm" and self.is_left(row, found):
            return
        before = len(found.kinds)
        act: dict[str, object] = {"act": kind}
        self.put(act, row, found, "day", lambda: self.act_day(row).isoformat())
        for name in MEMBERS[kind].split():
            self.put(act, row, found, name, lambda: self.value(kind, name, row))
        if len(found.kinds) == before:
            self.once(kind, act, row, found)
        self.check_strange(row, kind, found)
        if len(found.kinds) > before:
            found.wrong.append(row.number)
        else:
            found.good.append(ActRow(row.number, act))
        self.look(kind, act, row, found)

    def put(self, act: dict[str, object], row: Row, found: ActFindings, name: str, part: Callable[[], object]) -> None:
        try:
            act[name] = part()
        except Wrong as why:
            self.wrong(row, name, why, found)

    def shown_at(self, row: Row, name: str) -> str:
        """Returns the column whose cell is the value of a member: that of the ref where the row has that alone."""
        others = {"record": ["ref"], "aggregation": ["ref"], "target": list(self.columns.form.either)}.get(name, [])
        there = [it for it in [name, *others] if it in self.columns.places or it in self.columns.values]
        return next((it for it in there if self.cell(row, it)), there[0] if there else name)

    def wrong(self, row: Row, name: str, why: Wrong, found: ActFindings) -> None:
        at = self.shown_at(row, name)
        found.kinds.append((row.number, at, why.kind))
        cell = self.cell(row, at)
        found.said.append(f"{self.where(row, at)} ({at}): {in_quotes(cell) + ' ' if cell else ''}{why}")

    def is_left(self, row: Row, found: ActFindings) -> bool:
        """Returns whether a row is not to be confirmed: it says no, or nothing."""
        cell = self.cell(row, "decision")
        word = word_named("decision", cell)
        if word == "no":
            found.refused.append(row.number)
        elif not cell:
            found.undecided.append(row.number)
        return word == "no" or not cell

    def once(self, kind: str, act: dict[str, object], row: Row, found: ActFindings) -> None:
        """Says that an earlier row is for the same thing."""
        key = (kind, *(act[name] for name in ONCE[kind]))
        if key in self.seen:
            self.wrong(row, ONCE[kind][-1], Wrong("again", f"is in row {self.seen[key]} too"), found)
        self.seen.setdefault(key, row.number)

    def check_strange(self, row: Row, kind: str, found: ActFindings) -> None:
        """Says which cells belong to no column, and of a plan which do not belong to the row's kind."""
        for at in self.columns.nameless(len(row.cells)):
            if row.cells[at].strip():
                found.kinds.append((row.number, "", "nameless"))
                found.said.append(f"{place(at, row.number)}: {in_quotes(row.cells[at])} is in a column without a name")
        if kind == "confirm":
            self.put({}, row, found, "decision", lambda: word_of("decision", self.cell(row, "decision")))
        for name in self.columns.form.names if self.kind == "plan" else []:
            if name not in (*form_of(kind).names, "act", "day") and self.cell(row, name):
                self.wrong(row, name, Wrong("strange", f"is in a row of {kind}, which has no {name}"), found)

    # ---- what somebody should look at

    def look(self, kind: str, act: dict[str, object], row: Row, found: ActFindings) -> None:
        for name in (it for it in MEMBERS[kind].split() if it in act):
            seen = self.look_at(kind, name, act)
            if seen:
                at = self.shown_at(row, name)
                cell = self.cell(row, at)
                found.looks.append((row.number, at, seen[0]))
                found.notes.append(f"{self.where(row, at)} ({at}): {in_quotes(cell) + ' ' if cell else ''}{seen[1]}")

    def look_at(self, kind: str, name: str, act: dict[str, object]) -> tuple[str, str] | None:
        value = act[name]
        if value is None and name in ("schedule", "class") and kind in ("set-record-schedule", "reclassify"):
            return "emptied", f"the cell is empty: its own {name} is taken away"
        if name == "occurred":
            day = datetime.date.fromisoformat(str(act["day"])) if "day" in act else None
            return look_day(datetime.date.fromisoformat(str(value)), self.asked.today, day)
        if name in ("record", "aggregation", "parent"):
            return self.things.look("record" if name == "record" else "aggregation", value, kind)
        if name == "target":
            what, _, thing = str(value).partition(":")
            if what == "class":
                return self.things.look_code("class", thing, False)
            return self.things.look(what, int(thing), "reclassify")
        if name in CODES:
            what = OF_CODE[kind] if name == "code" else name
            return self.things.look_code(what, str(value or ""), name == "code")
        if name == "ref" and self.catalogue and self.catalogue.number("aggregation", str(value)) is not None:
            return "exists", "is the ref of an aggregation already, by the catalogue"
        return note_of(str(value)) if name in TEXTS else None
