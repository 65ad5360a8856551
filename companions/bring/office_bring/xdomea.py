"""xdomea, the German exchange of files: a message 0501 or 0503 with files, processes and documents.

Names of elements are those of versions 2 and 3. A file without a part of a filing plan takes --class. A period becomes a
rule by --trigger and --offset, which the message does not have.
"""
from __future__ import annotations

from pathlib import Path

from office_bring import markup
from office_bring.brought import KEEP, Brought, File, Record, Rule
from office_bring.how import How
from office_bring.ledger import Wrong
from office_bring.markup import Node
from office_common.errors import USAGE, Refused

FILES = frozenset({"Akte", "Teilakte", "Vorgang", "Teilvorgang"})
DOCUMENTS = frozenset({"Dokument", "Anlage"})
CONTAINERS = frozenset({"Schriftgutobjekt", "Akteninhalt", "Vorgangsinhalt", "Inhalt"})
OBJECTS = FILES | DOCUMENTS | CONTAINERS
DAYS = ("DatumDesSchreibens", "Dokumentdatum", "Posteingangsdatum", "Postausgangsdatum")
ACTIONS = {"A": "transfer", "V": "destroy", "B": "review"}
PERMANENT = ("-1", "dauernd", "unbefristet")


def inner(node: Node, names: frozenset[str]) -> list[Node]:
    """Returns the files or documents directly in one, also those in the element of its contents."""
    nodes = []
    for child in node.children:
        if child.name in names:
            nodes.append(child)
        elif child.name in CONTAINERS:
            nodes += inner(child, names)
    return nodes


def code_at(node: Node, *path: str) -> str:
    """Returns the value of a code list, which some versions write as an element `code`."""
    at = node.first(*path)
    while at is not None and at.children and not at.own():
        at = at.first("code") or at.children[0]
    return at.own() if at is not None else ""


class Message:
    """A message that is read, one object after another."""

    def __init__(self, how: How, brought: Brought) -> None:
        self.how, self.brought = how, brought

    def take(self, unit: Node) -> None:
        """Takes an object of the message: a file with all in it."""
        if unit.name in DOCUMENTS:
            markup.fault(unit, "it is in no file", self.brought.ledger)
        else:
            self.file(unit, None, "")

    def ref(self, node: Node) -> str:
        """Returns the ref of a thing: its mark, else its identifier."""
        return self.brought.ref(node.text("AllgemeineMetadaten", "Kennzeichen") or node.text("Identifikation", "ID"))

    def schedule(self, node: Node, place: str) -> str:
        """Returns the code of the rule that an element states, or an empty one."""
        at = node.first("ArchivspezifischeMetadaten") or node
        years, kind = code_at(at, "Aufbewahrungsdauer"), code_at(at, "Aussonderungsart").upper()[:1]
        if not years and not kind:
            return ""
        if years in PERMANENT:
            return self.brought.rule(KEEP)
        rule = self.how.usual.rule(int(years), "years", None, ACTIONS.get(kind)) if years.isdecimal() and years.isascii() else None
        if isinstance(rule, Rule):
            return self.brought.rule(rule)
        self.brought.look(place, f"its rule is not whole: say {rule}" if rule else "its rule is not read")
        for name in ("Aufbewahrungsdauer", "Aussonderungsart"):
            for inner_node in (at.first(name) or Node(name, 0, {})).walk():
                inner_node.is_read = False
        return ""

    def class_of(self, node: Node) -> str:
        """Returns the code of the class that a file names, or an empty one."""
        unit = node.first("AllgemeineMetadaten", "Aktenplaneinheit")
        if unit is None:
            return ""
        word = unit.text("Kennzeichen")
        if not word:
            return ""
        stated = self.schedule(unit, f"{node.place()}, {word}")
        return self.brought.class_of(word, unit.text("Bezeichnung"), stated or self.how.schedule)

    def file(self, node: Node, around: File | None, schedule: str) -> str:
        """Takes a file with all in it, and returns the day on which it was opened."""
        try:
            made = self.made_file(node, around)
        except Wrong as wrong:
            markup.fault(node, str(wrong), self.brought.ledger)
            return ""
        schedule = self.schedule(node, f"{node.place()}, {made.ref}") or schedule
        self.brought.add_file(made)
        days = [self.file(each, made, schedule) for each in inner(node, FILES)]
        documents = [self.document(each, made, schedule) for each in inner(node, DOCUMENTS)]
        return self.settle_opened(node, made, [made.opened, *days, *([] if made.opened else documents)])

    def settle_opened(self, node: Node, made: File, days: list[str]) -> str:
        """Gives a file a day of opening that is no later than those of the files in it, or of its documents if it has
        none of its own."""
        opened = min((day for day in days if day), default="")
        if not opened:
            del self.brought.files[made.ref]
            markup.fault(node, "it has no day on which it was opened, and nothing in it has a day", self.brought.ledger)
        elif opened != made.opened:
            self.brought.notes["files opened on the least day of what is in them"] += 1
            self.brought.files[made.ref] = made._replace(opened=opened)
        return opened

    def made_file(self, node: Node, around: File | None) -> File:
        """Makes the row of a file."""
        ref = self.ref(node)
        code = self.class_of(node)
        beginning, end = (self.how.days.day(node.text("Laufzeit", name)) for name in ("Beginn", "Ende"))
        if not end and around is not None and around.closed:
            end = around.closed
            self.brought.notes["files closed with the file around them"] += 1
        if around is None and not code:
            code = self.how.class_code()
        title = self.brought.title(node.text("AllgemeineMetadaten", "Betreff"), ref)
        if ref in self.brought.files:
            raise Wrong(f"its ref \"{ref}\" is that of another file too")
        return File(ref, title, code, around.ref if around else "", beginning, end)

    def document(self, node: Node, file: File, schedule: str) -> str:
        """Takes a document with its enclosures, and returns its day."""
        try:
            ref, day = self.ref(node), self.day(node)
            title = self.brought.title(node.text("AllgemeineMetadaten", "Betreff"), ref)
            self.add(node, ref, title, day, file, schedule)
        except Wrong as wrong:
            markup.fault(node, str(wrong), self.brought.ledger)
            return ""
        return min([day, *(self.document(each, file, schedule) for each in inner(node, DOCUMENTS))], key=lambda each: each or "9")

    def day(self, node: Node) -> str:
        """Returns the day of a document: the first of those that it may have."""
        day = next((text for name in DAYS if (text := node.text(name))), "")
        if not day:
            raise Wrong("it has no day")
        return self.how.days.day(day)

    def add(self, node: Node, ref: str, title: str, day: str, file: File, schedule: str) -> None:
        """Adds a record of a document: of the last format of its last version, or of each."""
        formats = [part for version in node.every("Version") for part in version.every("Format")]
        names = [part.first("Primaerdokument", "Dateiname") for part in formats]
        there = [name for name in names if name is not None]
        taken = there if self.how.has_versions else there[-1:]
        paths = [name.own() for name in taken] if self.how.with_contents else []
        for path in paths:
            if path.startswith(("/", "\\")) or ".." in path.replace("\\", "/").split("/"):
                raise Wrong(f"its file \"{path}\" is not in the folder of the message")
        records = [Record(ref, title, day, file.ref, "", schedule, paths[-1] if paths else "", "")]
        for path in paths[:-1]:
            records.append(records[0]._replace(ref=self.brought.ref(f"{ref}/{path}"), path=path))
        again = next((record.ref for record in records if record.ref in self.brought.records), None)
        if again is not None:
            raise Wrong(f"its ref \"{again}\" is that of another record too")
        for record in records:
            self.brought.add_record(record)


def bring(path: Path, how: How, brought: Brought) -> None:
    """Reads a message."""
    message = Message(how, brought)
    root = markup.Reader(path, FILES | DOCUMENTS, OBJECTS, brought.ledger, message.take).read()
    if not brought.files and not brought.ledger.faults:
        raise Refused(USAGE, f"{path} has no file of xdomea: its outermost element is {root}")
