"""The systems that office-bring reads: models that each can have, and the sources in which it writes them."""
from __future__ import annotations

import datetime
import random
from collections.abc import Callable
from pathlib import Path
from typing import NamedTuple

import offices
import written
from offices import Model

KEEP = ("added", "days", 0, "none", "keep")
RULES = ("--trigger", "closed", "--offset", "from-month-1")


class Source(NamedTuple):
    """A source in a folder: its kind, its file, and the options by which it is brought in."""

    kind: str
    path: Path
    options: tuple[object, ...]


class System(NamedTuple):
    """A system: how a model is made that it can have, how it is written, and the classes that only the office has."""

    model: Callable[[random.Random], Model]
    write: Callable[[Path, Model, random.Random], list[Source]]
    own: tuple[str, ...] = ()


def share_model(rng: random.Random) -> Model:
    """Makes folders with documents; all of them are of one class, whose period begins with the origin."""
    model = Model(classes=[offices.Class("SHARED", "Shared", ("origin", "years", rng.randint(1, 9), "from-month-1", "destroy"))])
    folders = ["top", "top/a b", "top/a b/ä", "top/c,d"]
    for number in range(rng.randint(6, 12)):
        stem, folder = f"{offices.title(rng)} {number}".replace("/", "-"), rng.choice(folders)
        model.records.append(offices.Record(f"{folder}/{stem}.txt", stem, offices.FIRST + offices.some_days(rng, 9000), folder,
                                            f"content {number}".encode()))
    for folder in folders:
        days = [each.originated for each in model.records if each.file == folder or each.file.startswith(f"{folder}/")]
        if days:
            parent, _, name = folder.rpartition("/")
            model.files.append(offices.File(folder, name, None if parent else 0, parent or None, min(days), None))
    return model


def write_share(folder: Path, model: Model, rng: random.Random) -> list[Source]:
    written.share(folder / "top", model, rng)
    return [Source("share", folder / "top", ("--class", "SHARED"))]


def xdomea_model(rng: random.Random) -> Model:
    """Makes files with processes and documents, in classes of a filing plan."""
    model = Model()
    for at, rule in enumerate(offices.rules(rng, "closed", "from-month-1", ("destroy", "transfer", "review"))):
        word = f"{rng.randint(10, 11)}.{at}{rng.choice(['', '/2', '.1'])}"
        model.classes.append(offices.Class(word, f"{word} {offices.title(rng)}", rule))
    offices.files(rng, model, rng.randint(4, 7))
    offices.records(rng, model, rng.randint(8, 14))
    return model


def write_xdomea(folder: Path, model: Model, rng: random.Random) -> list[Source]:
    written.plan(folder / "plan.csv", model, rng)
    written.xdomea(folder / "message.xml", model, rng)
    return [Source("plan", folder / "plan.csv", RULES), Source("xdomea", folder / "message.xml", ("--contents", folder))]


STARTS = ("CreationAgeInDays", "ModificationAgeInDays", "TaggedAgeInDays", "EventAgeInDays")


def starts_of(model: Model) -> list[str]:
    """Returns from which day the period of each label runs: the place of a label decides it."""
    return [STARTS[at] if at < len(STARTS) else "" for at in range(len(model.classes))]


def sharepoint_model(rng: random.Random) -> Model:
    """Makes a library with labelled items; its last label keeps, and those of the folders have none."""
    model, root = Model(), written.SITE.strip("/")
    for at in range(5):
        rule = ("origin" if at == 0 else "event", "days", rng.randint(1, 4000), "none", "destroy")
        model.classes.append(offices.Class(f"Label {at} ä/{rng.randint(1, 9)}", f"Label {at}", rule if at < 4 else KEEP))
    model.classes.append(offices.Class("SITE", "Site", KEEP))
    folders = [root, f"{root}/a", f"{root}/a/b c", f"{root}/d"]
    for number in range(rng.randint(8, 12)):
        folder, place = rng.choice(folders), rng.choice([0, 1, 2, 3, 4, None])
        stem, day = f"{offices.title(rng)} {number}".replace("/", "-"), offices.FIRST + offices.some_days(rng, 9000)
        event = day + offices.some_days(rng, 300) if place in (1, 2) else None
        model.records.append(offices.Record(f"{folder}/{stem}.docx", stem, day, folder, f"content {number}".encode(), None, place, None, event))
    for folder in folders:
        days = [each.originated for each in model.records if each.file == folder or each.file.startswith(f"{folder}/")]
        if days:
            parent, _, name = folder.rpartition("/")
            model.files.append(offices.File(folder, name, 5 if folder == root else None, None if folder == root else parent, min(days), None))
    return model


def write_sharepoint(folder: Path, model: Model, rng: random.Random) -> list[Source]:
    written.labels(folder / "labels.csv", Model(model.classes[:5]), starts_of(Model(model.classes[:5])))
    written.items(folder / "items.csv", model, starts_of(model), rng)
    (folder / "codes.csv").write_text("word,code,new\nSITE,SITE,\n", encoding="utf-8")
    return [Source("m365-labels", folder / "labels.csv", ()),
            Source("sharepoint", folder / "items.csv", ("--root", written.SITE, "--class", "SITE", "--labels", folder / "labels.csv",
                                                        "--contents", folder))]


def trim_model(rng: random.Random) -> Model:
    """Makes containers with documents, of which some have a class or a rule of their own, and a day of registration."""
    model = xdomea_model(rng)
    own: list[offices.Rule | None] = [None, ("origin", "months", rng.randint(1, 90), "from-month-1", "destroy"),
                                      ("closed", "years", rng.randint(1, 9), "from-month-1", "review")]
    rule_of = {file.ref: rng.choice(own) for file in model.files}
    opened = {file.ref: file.opened for file in model.files}
    for at, each in enumerate(model.records):
        file = next(file for file in model.files if file.ref == each.file)
        last = file.closed or file.opened + datetime.timedelta(days=900)
        filed = max(each.originated, opened[each.file]) + offices.some_days(rng, 30)
        place = rng.randrange(len(model.classes)) if rng.random() < 0.2 else None
        model.records[at] = each._replace(filed=min(filed, last), place=place, rule=rule_of[each.file])
    return model


def write_trim(folder: Path, model: Model, rng: random.Random) -> list[Source]:
    written.plan(folder / "plan.csv", model, rng)
    written.schedules(folder / "schedules.csv", model)
    written.trim(folder / "records.tsv", model, rng)
    more = ("--schedules", folder / "schedules.csv") if any(each.rule for each in model.records) else ()
    # ambiguous days may be all that a small table has
    return [Source("plan", folder / "plan.csv", RULES),
            Source("trim", folder / "records.tsv", ("--contents", folder, "--days", "dmy", "--offset", "from-month-1", *more))]


def alfresco_model(rng: random.Random) -> Model:
    """Makes folders in categories, without folders in them, and with a rule that the first two categories share."""
    model = Model()
    rules: list[offices.Rule] = [(trigger, rng.choice(["days", "weeks", "months", "years"]), rng.randint(1, 40), "none",
                                  rng.choice(["destroy", "transfer"])) for trigger in ("closed", "origin", "added")]
    for at, rule in enumerate([rules[0], rules[0], rules[1], rules[2]]):
        word = f"2009-000000000{at}"
        model.classes.append(offices.Class(word, f"{word} {offices.title(rng)}", rule))
    offices.files(rng, model, rng.randint(5, 8), 0)
    offices.records(rng, model, rng.randint(8, 12))
    for at, each in enumerate(model.records):
        opened = next(file.opened for file in model.files if file.ref == each.file)
        model.records[at] = each._replace(filed=max(each.originated, opened))
    # a category without a folder is no class
    model.files = [file._replace(place=at % len(model.classes)) for at, file in enumerate(model.files)]
    return model


def write_alfresco(folder: Path, model: Model, rng: random.Random) -> list[Source]:
    written.alfresco(folder / "plan.xml", model, rng)
    return [Source("alfresco", folder / "plan.xml", ("--contents", folder))]


def grs_model(rng: random.Random) -> Model:
    """Makes classes alone, with rules of three forms."""
    def rule() -> offices.Rule:
        trigger, action = rng.choice([("origin", "destroy"), ("event", "destroy"), ("origin", "transfer")])
        return trigger, rng.choice(["days", "months", "years"]), rng.randint(2, 99), "none", action

    notations = [f"GRS {rng.randint(1, 6)}.{at} 0{rng.randint(10, 99)}" for at in range(4)]
    return Model([offices.Class(word, f"{word} {offices.title(rng)}", rule()) for word in notations])


def write_grs(folder: Path, model: Model, rng: random.Random) -> list[Source]:
    written.grs(folder / "grs.csv", model, rng)
    return [Source("grs", folder / "grs.csv", ())]


def write_skos(folder: Path, model: Model, rng: random.Random) -> list[Source]:
    written.skos(folder / "plan.rdf", model, rng)
    return [Source("skos", folder / "plan.rdf", ("--language", "de"))]


SHARE = System(share_model, write_share, ("SHARED",))
XDOMEA = System(xdomea_model, write_xdomea)
SHAREPOINT = System(sharepoint_model, write_sharepoint, ("SITE",))
TRIM = System(trim_model, write_trim)
ALFRESCO = System(alfresco_model, write_alfresco)
GRS = System(grs_model, write_grs)
SKOS = System(grs_model, write_skos)
ALL = (SHARE, XDOMEA, SHAREPOINT, TRIM, ALFRESCO, GRS, SKOS)
