"""The forms of other systems: a model is written as each of them exports it."""
from __future__ import annotations

import csv
import datetime
import io
import os
import random
from collections.abc import Iterable, Sequence
from pathlib import Path
from xml.sax.saxutils import escape
from zoneinfo import ZoneInfo

from offices import File, Model, Record

ZONE = ZoneInfo("Europe/Berlin")
ACTION_OF = {"destroy": "V", "transfer": "A", "review": "B"}


def table(path: Path, header: Sequence[str], rows: Iterable[Sequence[object]], separator: str = ",", encoding: str = "utf-8-sig") -> None:
    text = io.StringIO(newline="")
    made = csv.writer(text, delimiter=separator, lineterminator="\r\n")
    made.writerow(header)
    made.writerows(rows)
    path.write_bytes(text.getvalue().encode(encoding))


def moment(rng: random.Random, day: datetime.date) -> datetime.datetime:
    """Returns a moment of a day in the zone, in UTC: near midnight it has another day there."""
    clock = rng.choice([datetime.time(0, 5), datetime.time(0, 55), datetime.time(12, 0), datetime.time(23, 40)])
    return datetime.datetime.combine(day, clock, ZONE).astimezone(datetime.UTC)


def share(top: Path, model: Model, rng: random.Random) -> None:
    """Writes a file share: the refs of files are paths, and those of records end with a name."""
    for file in model.files:
        (top.parent / file.ref).mkdir(parents=True, exist_ok=True)
    for record in model.records:
        path = top.parent / record.ref
        path.write_bytes(record.content)
        seconds = moment(rng, record.originated).timestamp()
        os.utime(path, (seconds, seconds))


# ---- a filing plan, and a message of xdomea


def plan(path: Path, model: Model, rng: random.Random) -> None:
    """Writes a filing plan with headings, and a column that an office has no place for."""
    heads = sorted({each.word.split(".")[0] for each in model.classes})
    rows: list[Sequence[object]] = [(head, f"Gruppe {head}", "", "", "ja") for head in heads]
    for each in model.classes:
        _, unit, count, _, action = each.rule
        period = "dauernd" if action == "keep" else f"{count} {rng.choice(['Jahre', 'J.', 'Jahr'])}"
        rows.append((each.word, each.title.removeprefix(f"{each.word} "), period, ACTION_OF.get(action, ""), "ja"))
    table(path, ("Kennzeichen", "Bezeichnung", "Aufbewahrungsfrist", "Aussonderungsart", "Sperrvermerk"), rows, ";")


class Xdomea:
    """Writes a message 0503 of a model."""

    def __init__(self, model: Model, rng: random.Random, version: str) -> None:
        self.model, self.rng, self.version = model, rng, version
        self.number = 0

    def uuid(self) -> str:
        self.number += 1
        return f"00000000-0000-4000-8000-{self.number:012d}"

    def element(self, name: str, *inner: str) -> str:
        return f"<xdomea:{name}>{''.join(inner)}</xdomea:{name}>" if inner else ""

    def text(self, name: str, text: str) -> str:
        return self.element(name, escape(text))

    def general(self, ref: str, title: str, unit: str = "") -> str:
        return self.element("AllgemeineMetadaten", self.text("Betreff", title), self.text("Kennzeichen", ref), unit,
                            "<xdomea:Medium listVersionID=\"1.0\"><code>001</code></xdomea:Medium>")

    def unit(self, file: File) -> str:
        if file.place is None:
            return ""
        each = self.model.classes[file.place]
        return self.element("Aktenplaneinheit", self.text("Kennzeichen", each.word), self.text("Bezeichnung", each.title.partition(" ")[2]))

    def file(self, file: File) -> str:
        inner = [self.file(each) for each in self.model.files if each.parent == file.ref]
        documents = [self.document(each) for each in self.model.records if each.file == file.ref]
        around = next((each for each in self.model.files if each.ref == file.parent), None)
        # what is in a file that was closed need not have an end of its own
        has_end = file.closed and not (around and around.closed == file.closed and self.rng.random() < 0.5)
        span = self.element("Laufzeit", self.text("Beginn", file.opened.isoformat()),
                            *([self.text("Ende", f"{file.closed}")] if has_end else []))
        name = "Vorgang" if file.parent else "Akte"
        contents = "".join([*inner, *documents])
        if name == "Akte" or self.version == "3.0.0":
            contents = self.element("Akteninhalt" if name == "Akte" else "Vorgangsinhalt", contents)
        return self.element(name, self.element("Identifikation", self.text("ID", self.uuid())),
                            self.general(file.ref, file.title, self.unit(file)), span, contents)

    def document(self, record: Record) -> str:
        names = [*(["old.pdf"] if self.rng.random() < 0.2 else []), f"{record.ref}.pdf"]
        versions = [self.element("Version", self.text("Nummer", f"{number}"), self.element("Format", self.element(
            "Primaerdokument", self.text("Dateiname", name), self.text("Ersteller", "A. B.")))) for number, name in enumerate(names, 1)]
        return self.element("Dokument", self.element("Identifikation", self.text("ID", self.uuid())),
                            self.general(record.ref, record.title),
                            self.text("DatumDesSchreibens", record.originated.isoformat()), *versions)

    def message(self) -> str:
        head = self.element("Kopf", self.text("ProzessID", self.uuid()), self.text("Erstellungszeitpunkt", "2024-01-02T10:11:12Z"),
                            self.element("Absender", self.element("Behoerdenkennung", self.text("Kennung", "Stadt"))))
        things = "\n".join(self.element("Schriftgutobjekt", self.file(each)) for each in self.model.files if each.parent is None)
        name = f"xmlns:xdomea=\"urn:xoev-de:xdomea:schema:{self.version}\""
        return (f"<?xml version=\"1.0\" encoding=\"UTF-8\"?>\n<xdomea:Aussonderung.Aussonderung.0503 {name}>\n{head}\n{things}\n"
                "</xdomea:Aussonderung.Aussonderung.0503>\n")


def xdomea(path: Path, model: Model, rng: random.Random) -> None:
    """Writes a message, with the documents beside it."""
    path.write_text(Xdomea(model, rng, rng.choice(["2.3.0", "3.0.0"])).message(), encoding="utf-8")
    for record in model.records:
        path.with_name(f"{record.ref}.pdf").write_bytes(record.content)


# ---- labels and items of Microsoft 365

LABELS = ("LabelName", "Comment", "Notes", "IsRecordLabel", "RetentionAction", "RetentionDuration", "RetentionType", "ReviewerEmail")
ITEMS = ("FileRef", "FileLeafRef", "FSObjType", "Created", "Modified", "Author", "_ComplianceTag", "_ComplianceTagWrittenTime")
SITE = "/sites/bau/Freigegebene Dokumente"


def labels(path: Path, model: Model, starts: Sequence[str]) -> None:
    """Writes the labels as a file plan: `starts` says from which day the period of each runs."""
    rows = []
    for each, start in zip(model.classes, starts, strict=True):
        keeps = each.rule[4] == "keep"
        rows.append((each.word, "A comment", "", "TRUE", "Keep" if keeps else "KeepAndDelete", "Unlimited" if keeps else each.rule[2],
                     "" if keeps else start, "a@example.org"))
    table(path, LABELS, rows)


def items(path: Path, model: Model, starts: Sequence[str], rng: random.Random) -> None:
    """Writes the items of a library: each has three moments in UTC, and the period runs from one of them."""
    def stamp(day: datetime.date) -> str:
        return moment(rng, day).strftime("%Y-%m-%dT%H:%M:%SZ")

    rows: list[Sequence[object]] = [(f"/{file.ref}", file.title, "1", stamp(file.opened), stamp(file.opened), "A. B.", "", "")
                                    for file in model.files if file.parent]
    for record in model.records:
        start = starts[record.place] if record.place is not None else ""
        other = record.originated + datetime.timedelta(days=rng.randint(1, 90))
        changed = record.event if start == "ModificationAgeInDays" and record.event else other
        labelled = record.event if start == "TaggedAgeInDays" and record.event else other
        label = model.classes[record.place].word if record.place is not None else ""
        rows.append((f"/{record.ref}", record.ref.rpartition("/")[2], "0", stamp(record.originated), stamp(changed), "A. B.", label,
                     stamp(labelled) if label else ""))
    rng.shuffle(rows)
    table(path, ITEMS, rows)
    for record in model.records:
        document = path.parent / record.ref.removeprefix(f"{SITE.strip('/')}/")
        document.parent.mkdir(parents=True, exist_ok=True)
        document.write_bytes(record.content)


# ---- records of Content Manager

RECORDS = ("Record Number", "Title (Free Text Part)", "Record Type", "Container", "Classification", "Retention Schedule", "Date Created",
           "Date Registered", "Date Closed", "Author", "Document Path")


def clock(rng: random.Random, day: datetime.date | None) -> str:
    """Returns a day as an Australian shows it, with a time of the place."""
    return f"{day:%d/%m/%Y} at {rng.randint(1, 12)}:{rng.randint(10, 59)} {rng.choice(['AM', 'PM'])}" if day else ""


def schedules(path: Path, model: Model) -> None:
    """Writes the retention schedules that records have of their own."""
    rules = sorted({each.rule for each in model.records if each.rule})
    table(path, ("Number", "Title", "Retention period", "Trigger", "Disposal action"),
          [(f"GDA-6.{at}", "A schedule", f"{rule[2]} {rule[1]}", rule[0], rule[4]) for at, rule in enumerate(rules)])


def trim(path: Path, model: Model, rng: random.Random) -> None:
    """Writes records and their containers in any order. A schedule is that of a document, or of its container."""
    rules = {rule: f"GDA-6.{at}" for at, rule in enumerate(sorted({each.rule for each in model.records if each.rule}))}
    of_files = {file.ref: {each.rule for each in model.records if each.file == file.ref} for file in model.files}
    held = {ref: next(iter(own)) if len(own) == 1 else None for ref, own in of_files.items()}
    outer = {file.parent for file in model.files}
    held = {ref: rule if rule and ref not in outer and rng.random() < 0.7 else None for ref, rule in held.items()}
    rows: list[Sequence[object]] = []
    for file in model.files:
        word = model.classes[file.place].word if file.place is not None else ""
        rows.append((file.ref, file.title, "Folder", file.parent or "", word, rules.get(held[file.ref], ""), clock(rng, file.opened),
                     clock(rng, file.opened), clock(rng, file.closed), "", ""))
    for each in model.records:
        word = model.classes[each.place].word if each.place is not None else ""
        own = "" if held[each.file] else rules.get(each.rule, "")
        rows.append((each.ref, each.title, "Document", each.file, word, own, clock(rng, each.originated), clock(rng, each.filed), "", "A. B.",
                     f"{each.ref}.txt"))
    rng.shuffle(rows)
    table(path, RECORDS, rows, "\t", "utf-16")
    for each in model.records:
        path.with_name(f"{each.ref}.txt").write_bytes(each.content)


# ---- a package of Alfresco

SPACES = {"view": "http://www.alfresco.org/view/repository/1.0", "cm": "http://www.alfresco.org/model/content/1.0",
          "rma": "http://www.alfresco.org/model/recordsmanagement/1.0"}
DAY_OF = {"closed": "rma:cutOffAt", "origin": "cm:created", "added": "rma:dateFiled"}


def element(name: str, *inner: str) -> str:
    return f"<{name}>{''.join(inner)}</{name}>"


class Alfresco:
    """Writes a file plan: the first classes are in a category, and one without a schedule has that of the one around it."""

    def __init__(self, model: Model, rng: random.Random) -> None:
        self.model, self.rng = model, rng

    def node(self, kind: str, properties: dict[str, str], associations: str = "", aspects: str = "") -> str:
        made = "".join(element(name, escape(text)) for name, text in properties.items() if text)
        return (f"<{kind} view:childName=\"cm:x\">" + element("view:aspects", "<cm:auditable/>", aspects) + element("view:properties", made)
                + element("view:associations", associations) + f"</{kind}>")

    def stamp(self, day: datetime.date) -> str:
        return f"{moment(self.rng, day):%Y-%m-%dT%H:%M:%S.000Z}"

    def schedule(self, rule: tuple[str, str, int, str, str]) -> str:
        trigger, unit, count, _, action = rule
        steps = [{"rma:dispositionActionName": "cutoff", "rma:dispositionEvent": "case_closed"}] if trigger == "closed" else []
        steps.append({"rma:dispositionActionName": action, "rma:dispositionPeriod": f"{unit[:-1]}|{count}",
                      "rma:dispositionPeriodProperty": DAY_OF[trigger]})
        inner = "".join(self.node("rma:dispositionActionDefinition", step) for step in steps)
        return element("rma:dispositionSchedule", self.node(
            "rma:dispositionSchedule", {"rma:dispositionAuthority": "The law", "rma:recordLevelDisposition": "false"},
            element("rma:dispositionActionDefinitions", inner)))

    def record(self, each: Record) -> str:
        return self.node("cm:content", {
            "cm:name": f"{each.ref}.txt", "cm:title": each.title, "rma:identifier": each.ref, "cm:created": self.stamp(each.originated),
            "rma:dateFiled": self.stamp(each.filed or each.originated), "cm:content": f"contentUrl=in/{each.ref}.bin|mimetype=text/plain|size=1"},
            aspects="<rma:record/>")

    def folder(self, file: File) -> str:
        inner = "".join(self.record(each) for each in self.model.records if each.file == file.ref)
        return self.node("rma:recordFolder", {
            "cm:name": file.title, "rma:identifier": file.ref, "cm:created": self.stamp(file.opened),
            "rma:isClosed": "true" if file.closed else "false", "rma:cutOffAt": self.stamp(file.closed) if file.closed else ""},
            element("cm:contains", inner))

    def category(self, place: int, inner: str, has_schedule: bool) -> str:
        each = self.model.classes[place]
        folders = "".join(self.folder(file) for file in self.model.files if file.place == place)
        name = {"cm:name": each.title.removeprefix(f"{each.word} "), "rma:identifier": each.word}
        return self.node("rma:recordCategory", name, (self.schedule(each.rule) if has_schedule else "") + element("cm:contains", inner, folders))

    def package(self) -> str:
        inner = self.category(1, "", self.model.classes[1].rule != self.model.classes[0].rule)
        whole = self.category(0, inner, True) + "\n" + "".join(self.category(at, "", True) for at in range(2, len(self.model.classes)))
        spaces = " ".join(f"xmlns:{name}=\"{space}\"" for name, space in SPACES.items())
        return f"<?xml version=\"1.0\" encoding=\"UTF-8\"?>\n<view:view {spaces}>\n{whole}\n</view:view>\n"


def alfresco(path: Path, model: Model, rng: random.Random) -> None:
    """Writes the XML of a package, with its contents."""
    path.write_text(Alfresco(model, rng).package(), encoding="utf-8")
    (path.parent / "in").mkdir()
    for each in model.records:
        (path.parent / f"in/{each.ref}.bin").write_bytes(each.content)


# ---- plans in SKOS, and schedules of NARA


def skos(path: Path, model: Model, rng: random.Random) -> None:
    """Writes a plan in two languages, with a broader concept and a note about retention, which is no rule."""
    spaces = ("xmlns:rdf=\"http://www.w3.org/1999/02/22-rdf-syntax-ns#\" xmlns:skos=\"http://www.w3.org/2004/02/skos/core#\"")
    made = []
    for at, each in enumerate(model.classes):
        name = each.title.removeprefix(f"{each.word} ")
        kind = ("skos:Concept", "") if rng.random() < 0.5 else (
            "rdf:Description", "<rdf:type rdf:resource=\"http://www.w3.org/2004/02/skos/core#Concept\"/>")
        made.append(f"<{kind[0]} rdf:about=\"http://example.org/plan#c{at}\">{kind[1]}" + element("skos:notation", escape(each.word))
                    + f"<skos:prefLabel xml:lang=\"de\">{escape(name)}</skos:prefLabel><skos:prefLabel xml:lang=\"en\">Other</skos:prefLabel>"
                    "<skos:broader rdf:resource=\"http://example.org/plan#top\"/><skos:scopeNote>10 Jahre</skos:scopeNote>" + f"</{kind[0]}>")
    made.insert(rng.randint(0, len(made)), "<skos:Concept rdf:about=\"http://example.org/plan#top\"><skos:prefLabel xml:lang=\"de\">Alles"
                "</skos:prefLabel></skos:Concept>")
    path.write_text(f"<?xml version=\"1.0\"?>\n<rdf:RDF {spaces}>\n" + "\n".join(made) + "\n</rdf:RDF>\n", encoding="utf-8")


def grs(path: Path, model: Model, rng: random.Random) -> None:
    """Writes schedules in the forms of sentences that are read."""
    rows = []
    for each in model.classes:
        trigger, unit, count, _, action = each.rule
        text = f"Destroy {count} {unit} after final payment" if trigger == "event" else f"Destroy when {count} {unit} old"
        text = f"{rng.choice(['Temporary. ', ''])}{text}{rng.choice([', but longer retention is authorized if required for business use', ''])}."
        if action == "transfer":
            text = f"Permanent. Transfer legal custody to the National Archives when {count} {unit} old."
        _, number, item = each.word.split()
        rows.append((number, item, each.title.removeprefix(f"{each.word} "), text, "DAA-GRS-2013-0003-0001"))
    table(path, ("GRS Number", "Item Number", "Records Title", "Disposition Instruction", "Disposition Authority"), rows)
