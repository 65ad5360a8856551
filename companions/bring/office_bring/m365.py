"""Microsoft 365: retention labels of a file plan, and the items of a SharePoint library that have them.

A label is a class with its rule. A period of M365 is a number of days from the creation of an item, or from its last
change, its labelling or an event: these three become the trigger `event`, with the day of each item.
"""
from __future__ import annotations

from pathlib import Path
from typing import NamedTuple

from office_bring.brought import KEEP, Brought, Event, File, Record, Rule
from office_bring.codes import Codes
from office_bring.how import How
from office_bring.ledger import Wrong
from office_bring.moments import shown
from office_bring.tables import Row, Table, plain
from office_common.errors import USAGE, Refused

LABELS = {"name": ("LabelName", "Name", "DisplayName", "Label name", "Retention label"),
          "comment": ("Comment", "Description for admins", "Description"),
          "action": ("RetentionAction", "Retention action"), "duration": ("RetentionDuration", "Retention duration"),
          "start": ("RetentionType", "Retention type", "Based on")}
STARTS = {"creationageindays": "origin", "modificationageindays": "modified", "taggedageindays": "labelled", "eventageindays": "event"}
DELETING = ("delete", "keepanddelete")
ITEMS = {"path": ("FileRef", "Server relative URL", "Path"), "name": ("FileLeafRef", "Name"),
         "created": ("Created",), "modified": ("Modified", "Last modified"), "label": ("_ComplianceTag", "Retention label"),
         "labelled": ("_ComplianceTagWrittenTime", "Retention label Applied", "Label applied on"),
         "event": ("Retention start", "Event date"), "kind": ("FSObjType", "Item Type")}
DAYS = ("created", "modified", "labelled", "event")
FOLDERS = ("1", "folder", "ordner")


class Label(NamedTuple):
    """A retention label: its rule if it is read, and the day of an item from which its period runs."""

    name: str
    rule: Rule | None
    start: str


def label_of(table: Table, row: Row, brought: Brought) -> Label:
    """Reads a label. One that only keeps until a day has no rule in an office, since nothing happens on that day."""
    name, action = table.cell(row, "name"), plain(table.cell(row, "action"))
    duration, start = table.cell(row, "duration"), plain(table.cell(row, "start"))
    if not name:
        raise Wrong("it has no name")
    if action == "keep" and plain(duration) == "unlimited":
        if start:
            table.lose(row, "start", "the beginning of a period without an end")
        return Label(name, KEEP, "")
    if action in DELETING and duration.isascii() and duration.isdecimal() and start in STARTS:
        trigger = "origin" if start == "creationageindays" else "event"
        return Label(name, Rule(trigger, "days", int(duration), "none", "destroy"), STARTS[start])
    text = " ".join(shown(table.cell(row, column)) for column in ("action", "duration", "start"))
    for column in ("action", "duration", "start"):
        table.lose(row, column, "a rule that is not read")
    brought.look(f"{row.place()}, {name}", f"its rule is not read: {text.strip() or 'there is none'}")
    return Label(name, None, STARTS.get(start, ""))


def bring_labels(path: Path, how: How, brought: Brought) -> None:
    """Reads the labels of a file plan as classes with rules."""
    table = how.table(path, LABELS, ("name", "action", "duration", "start"))

    def take(row: Row) -> None:
        label = label_of(table, row, brought)
        if brought.codes.of(label.name) in brought.classes:
            raise Wrong(f"the label \"{label.name}\" is above too, or another one with its code")
        brought.class_of(label.name, "", brought.rule(label.rule) if label.rule else how.schedule)
        table.lose(row, "comment", "comments of labels")
    table.each(brought.ledger, take)


def labels_in(how: How) -> dict[str, Label]:
    """Reads the labels again for the items: they say from which of its days the period of an item runs."""
    if how.labels is None:
        return {}
    table = how.other_table(how.labels, LABELS, ("name", "action", "duration", "start"))
    aside = Brought(Codes(None, False, frozenset()))
    labels = [label_of(table, row, aside) for row in table.rows if row.width == len(table.header)]
    return {plain(label.name): label for label in labels}


class Library:
    """The items of a library, with the folders that they are in."""

    def __init__(self, table: Table, how: How, brought: Brought) -> None:
        self.table, self.how, self.brought = table, how, brought
        self.root = (how.root or "").strip("/")
        self.labels = labels_in(how)
        self.opened: dict[str, str] = {}

    def take(self, row: Row) -> None:
        """Takes an item; a folder comes with the items in it."""
        if plain(self.table.cell(row, "kind")) in FOLDERS:
            for name in self.table.columns:
                self.table.cell(row, name)
                self.table.lose(row, name, "rows of folders, which come with what is in them")
            return
        folder, name = self.place(row)
        days = {each: self.how.days.day(self.table.cell(row, each)) for each in DAYS}
        if not days["created"]:
            raise Wrong("it has no day of creation")
        ref = self.brought.ref(f"{folder}/{name}")
        label = self.table.cell(row, "label")
        event = self.event(row, label, days)
        code = self.brought.class_of(label, "", self.how.schedule) if label else ""
        title = self.brought.title(name.rpartition(".")[0] or name, ref)
        path = f"{folder}/{name}".removeprefix(f"{self.root}/")
        home = self.home(folder)
        self.brought.add_record(Record(ref, title, days["created"], self.brought.ref(home), code, "", path, ""))
        if event:
            self.brought.events[ref] = Event(ref, event)
        self.open(home, days["created"])

    def place(self, row: Row) -> tuple[str, str]:
        """Returns the folder and the name of an item."""
        path, name = self.table.cell(row, "path").strip("/"), self.table.cell(row, "name")
        folder, _, last = path.rpartition("/")
        if name and last != name:
            folder, last = path, name
        if not last or ".." in path.split("/"):
            raise Wrong("it has no path")
        if folder != self.root and not folder.startswith(f"{self.root}/"):
            raise Wrong(f"it is not in {self.root}, which --root names")
        return folder, last

    def home(self, folder: str) -> str:
        """Returns the folder that is the file of an item: with --levels, deeper folders are no files."""
        inner = [part for part in folder.removeprefix(self.root).split("/") if part]
        return "/".join([self.root, *(inner if self.how.levels is None else inner[:self.how.levels - 1])])

    def event(self, row: Row, name: str, days: dict[str, str]) -> str:
        """Returns the day of the event from which the period of an item runs, and loses the days that say nothing."""
        label = self.labels.get(plain(name)) if name else None
        start = label.start if label else ""
        for each in ("modified", "labelled", "event"):
            if each != start:
                self.table.lose(row, each, f"the day {each}, from which no period runs")
        if name and self.how.labels is not None and label is None:
            raise Wrong(f"--labels has no label \"{name}\"")
        if start in ("modified", "labelled") and not days[start]:
            raise Wrong(f"its period runs from the day {start}, and it has none")
        return days[start] if start in ("modified", "labelled", "event") else ""

    def open(self, folder: str, day: str) -> None:
        """Opens a folder and those around it no later than on a day."""
        while len(folder) >= len(self.root):
            self.opened[folder] = min(day, self.opened.get(folder, day))
            if folder == self.root:
                return
            folder = folder.rpartition("/")[0]

    def add_files(self) -> None:
        """Makes a file of each folder with an item in it."""
        for folder in sorted(self.opened):
            ref = self.brought.ref(folder)
            is_root = folder == self.root
            parent = "" if is_root else self.brought.ref(folder.rpartition("/")[0])
            title = self.brought.title(folder.rpartition("/")[2], ref)
            self.brought.add_file(File(ref, title, self.how.class_code() if is_root else "", parent, self.opened[folder], ""))


def bring_items(path: Path, how: How, brought: Brought) -> None:
    """Reads the items of a library."""
    if not (how.root or "").strip("/"):
        raise Refused(USAGE, "say --root PATH: where the library begins, as the column of paths has it")
    table = how.table(path, ITEMS, ("path", "created"))
    how.days.learn(table.texts(*DAYS))
    library = Library(table, how, brought)
    table.each(brought.ledger, library.take)
    library.add_files()
