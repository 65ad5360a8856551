"""OpenText Content Manager, once TRIM: a table of records, of which those that others name as their container are files.

All rows of a record type that has a container among them are files. A retention schedule is one of the table of
--schedules, which has the columns of a filing plan. That of a container holds for what is in it.
"""
from __future__ import annotations

from dataclasses import dataclass, field
from pathlib import Path

from office_bring import plan
from office_bring.brought import Brought, File, Record, Rule
from office_bring.codes import Codes
from office_bring.how import How
from office_bring.ledger import Wrong
from office_bring.moments import shown
from office_bring.tables import Row, Table

COLUMNS = {
    "number": ("Record Number", "Expanded Number", "Number"), "title": ("Title (Free Text Part)", "Title", "Record Title"),
    "type": ("Record Type", "Type"), "container": ("Container", "Container Record Number", "Folder"),
    "class": ("Classification", "Classification Name"), "schedule": ("Retention Schedule",),
    "created": ("Date Created", "Created"), "filed": ("Date Registered", "Registered"), "closed": ("Date Closed", "Closed"),
    "path": ("Document Path", "Electronic Document", "File Name", "Extracted File"),
}
NEEDED = ("number", "title", "type", "container", "created")
DAYS = ("created", "filed", "closed")
LOST_SCHEDULE = "a retention schedule that --schedules does not have"


@dataclass
class Holding:
    """A container: its row of the sheet, the rule that holds for what is in it, and the least day of that."""

    file: File
    rule: Rule | None
    around: str
    least: list[str] = field(default_factory=list)


class Records:
    """The records of a table, containers before what is in them."""

    def __init__(self, table: Table, how: How, brought: Brought) -> None:
        self.table, self.how, self.brought = table, how, brought
        self.rules = rules_in(how, brought)
        containers = set(table.texts("container"))
        types = {row.cells.get(table.columns["type"], "") for row in table.rows if self.number(row) in containers}
        self.files = {self.number(row): row for row in table.rows if row.cells.get(table.columns["type"], "") in types}
        self.holdings: dict[str, Holding | None] = {}

    def number(self, row: Row) -> str:
        """Returns the number of a record, which is its ref."""
        return row.cells.get(self.table.columns["number"], "")

    def order(self) -> list[Row]:
        """Returns the rows, each container above what is in it. Those of a circle come last, and are wrong."""
        by_container: dict[str, list[Row]] = {}
        for row in self.table.rows:
            container = row.cells.get(self.table.columns["container"], "")
            by_container.setdefault(container if container in self.files else "", []).append(row)
        waiting, rows, taken = list(reversed(by_container.pop("", []))), [], set()
        while waiting:
            row = waiting.pop()
            rows.append(row)
            taken.add(row.number)
            if self.files.get(self.number(row)) is row:
                waiting.extend(reversed(by_container.pop(self.number(row), [])))
        return [*rows, *(row for row in self.table.rows if row.number not in taken)]

    def take(self, row: Row) -> None:
        """Takes a container or a document."""
        if not self.number(row):
            raise Wrong("it has no number")
        if self.table.cell(row, "type") and self.number(row) in self.files:
            self.take_file(row)
        else:
            self.take_document(row)

    def around(self, row: Row) -> Holding | None:
        """Returns the container of a row, None if it names none."""
        container = self.table.cell(row, "container")
        if not container:
            return None
        if container not in self.holdings:
            raise Wrong(f"its container \"{shown(container)}\" is in no row, or in what it contains")
        holding = self.holdings[container]
        if holding is None:
            raise Wrong(f"its container \"{shown(container)}\" is wrong")
        return holding

    def rule(self, row: Row, around: Holding | None) -> Rule | None:
        """Returns the rule of a row, else that of its container."""
        name = self.table.cell(row, "schedule")
        if name and name not in self.rules:
            self.table.lose(row, "schedule", LOST_SCHEDULE)
        own = self.rules.get(name)
        return own or (around.rule if around is not None else None)

    def take_file(self, row: Row) -> None:
        """Takes a container. What is in a wrong one is wrong too."""
        number = self.table.cell(row, "number")
        if number in self.holdings:
            raise Wrong(f"its number \"{shown(number)}\" is that of another container too")
        self.holdings[number] = None
        around = self.around(row)
        days = {name: self.how.days.day(self.table.cell(row, name)) for name in DAYS}
        if not days["created"]:
            raise Wrong("it has no day of creation")
        self.table.lose(row, "filed", "the day on which a container was registered")
        self.table.lose(row, "path", "documents of containers")
        ref, word = self.brought.ref(number), self.table.cell(row, "class")
        code = self.brought.class_of(word, "", self.how.schedule) if word else "" if around else self.how.class_code()
        file = File(ref, self.brought.title(self.table.cell(row, "title"), ref), code, around.file.ref if around else "",
                    days["created"], days["closed"])
        self.brought.add_file(file)
        self.holdings[number] = Holding(file, self.rule(row, around), self.table.cell(row, "container"), [days["created"]])

    def take_document(self, row: Row) -> None:
        """Takes a document in a container."""
        around = self.around(row)
        if around is None:
            raise Wrong("it is in no container")
        days = {name: self.how.days.day(self.table.cell(row, name)) for name in DAYS}
        if not days["created"]:
            raise Wrong("it has no day of creation")
        self.table.lose(row, "closed", "the day on which a document was closed")
        path = self.table.cell(row, "path") if self.how.with_contents else ""
        if path.startswith(("/", "\\")) or ".." in path.replace("\\", "/").split("/"):
            raise Wrong(f"its file \"{shown(path)}\" is not in the folder of documents")
        ref, word = self.brought.ref(self.table.cell(row, "number")), self.table.cell(row, "class")
        rule = self.rule(row, around)
        title = self.brought.title(self.table.cell(row, "title"), ref)
        code = self.brought.class_of(word, "", self.how.schedule) if word else ""
        self.brought.add_record(Record(ref, title, days["created"], around.file.ref, code, self.brought.rule(rule) if rule else "",
                                       path, days["filed"]))
        around.least += [days["filed"]] if days["filed"] else []

    def open_early(self) -> None:
        """Opens each container no later than the day on which something was put into it."""
        for number, holding in reversed(self.holdings.items()):
            if holding is None:
                continue
            opened = min(holding.least)
            if opened != holding.file.opened:
                self.brought.files[holding.file.ref] = holding.file._replace(opened=opened)
                self.brought.notes["containers opened on the least day of what is in them"] += 1
            outer = self.holdings.get(holding.around)
            if outer is not None:
                outer.least.append(opened)


def rules_in(how: How, brought: Brought) -> dict[str, Rule]:
    """Reads the table of retention schedules. One that is not read is named, and gives no rule."""
    if how.schedules is None:
        return {}
    table = how.other_table(how.schedules, plan.COLUMNS, ("notation", "period"))
    aside = Brought(Codes(None, False, frozenset()))
    reader = plan.Plan(table, how, aside)
    rules: dict[str, Rule] = {}
    for row in table.rows:
        name = table.cell(row, "notation")
        rule = reader.rule(row, f"{how.schedules.name}, {row.place()}, {name}")
        if rule is not None and rules.setdefault(name, rule) != rule:
            brought.look(f"{how.schedules.name}, {row.place()}", f"the schedule {name} has another rule above, which counts")
    brought.looks += aside.looks
    return rules


def bring(path: Path, how: How, brought: Brought) -> None:
    """Reads the records of Content Manager."""
    table = how.table(path, COLUMNS, NEEDED)
    how.days.learn(table.texts(*DAYS))
    records = Records(table, how, brought)
    table.rows = records.order()
    table.each(brought.ledger, records.take)
    brought.ledger.faults.sort(key=lambda fault: int(fault.place.partition(" ")[2]))
    records.open_early()
