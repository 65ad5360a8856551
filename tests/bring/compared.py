"""Offices that are made directly, and those that are brought in: the same records with the same due days."""
from __future__ import annotations

import csv
import datetime
import json
import os
import random
from collections.abc import Mapping
from pathlib import Path
from typing import Any
from zoneinfo import ZoneInfo

import offices
import systems
import written
from kit.commands import OFFICE, TOP, Done, run
from kit.judging import judge, same
from kit.office import Office
from offices import Model
from systems import Source, System

BRING = TOP / "companions/bring/office-bring"
CONVERT = TOP / "companions/sheets/office-convert"
SEEDS = int(os.environ.get("SEEDS", "1"))
MANY = 6 * SEEDS
"""random sources that are only read: they need no program"""
ACTION = ("trigger", "unit", "count", "offset", "action")


def rows_in(path: Path) -> list[dict[str, str]]:
    """Reads a sheet; one that was not written has no rows."""
    if not path.exists():
        return []
    with path.open(encoding="utf-8", newline="") as file:
        return list(csv.DictReader(file))


def brought(folder: Path, source: Source, *more: object) -> Done:
    """Brings a source into the folder `out` beside it, with the table of codes of the office."""
    codes = () if source.kind == "share" else ("--codes", folder / "codes.csv", "--take-codes")
    return run(BRING, source.kind, source.path, "-o", folder / f"out-{source.kind}", "--zone", "Europe/Berlin", *codes,
               *source.options, *more)


# ---- sheets, without the program


def check_rows(name: str, model: Model, folder: Path, sources: list[Source], own: tuple[str, ...]) -> None:
    """Compares the sheets with the model, row by row."""
    codes = {row["code"]: row["word"] for row in rows_in(folder / "codes.csv")} or {"SHARED": "SHARED"}
    places = {each.word: at for at, each in enumerate(model.classes)}
    files = [row for source in sources for row in rows_in(folder / f"out-{source.kind}/files.csv")]
    same(f"{name}: files", sorted((row["ref"], row["title"], places[codes[row["class"]]] if row["class"] else None, row["parent"] or None,
                                   row["opened"], row["closed"]) for row in files),
         sorted((each.ref, each.title, each.place, each.parent, f"{each.opened}", f"{each.closed or ''}") for each in model.files))
    records = [row for source in sources for row in rows_in(folder / f"out-{source.kind}/records.csv")]
    same(f"{name}: records", sorted((row["ref"], row["title"], row["originated"], row["aggregation"], row["filed"]) for row in records),
         sorted((each.ref, each.title, f"{each.originated}", each.file, f"{each.filed or ''}") for each in model.records))
    events = [row for source in sources for row in rows_in(folder / f"out-{source.kind}/events.csv")]
    rules = {row["code"]: row for source in sources for row in rows_in(folder / f"out-{source.kind}/rules.csv")}
    own_rules = {row["ref"]: tuple(rules[row["schedule"]][each] for each in ACTION) if row["schedule"] else None for row in records}
    same(f"{name}: own rules and classes", sorted((row["ref"], own_rules[row["ref"]], codes.get(row["class"])) for row in records),
         sorted((each.ref, tuple(map(str, each.rule)) if each.rule else None, model.classes[each.place].word if each.place is not None else None)
                for each in model.records))
    same(f"{name}: events", sorted((row["ref"], row["occurred"]) for row in events),
         sorted((each.ref, f"{each.event}") for each in model.records if each.event))
    classes = {codes[row["code"]]: row for source in sources for row in rows_in(folder / f"out-{source.kind}/classes.csv") if row["schedule"]}
    read = {word: tuple(rules[row["schedule"]][name] for name in ACTION) for word, row in classes.items()}
    same(f"{name}: rules of classes", read, {each.word: tuple(map(str, each.rule)) for each in model.classes if each.word not in own})


def many(system: System, folder: Path) -> None:
    """Compares the sheets of many random sources."""
    for seed in range(MANY):
        place, rng = folder / f"{seed}", random.Random(seed)
        place.mkdir(parents=True)
        model = system.model(rng)
        sources = system.write(place, model, rng)
        for source in sources:
            done = brought(place, source)
            if not judge(f"seed {seed}: {source.kind} comes in", done.status == 0, done.error, is_quiet=True):
                return
        check_rows(f"seed {seed}", model, place, sources, system.own)


# ---- offices, by the program


def view(served: Office, rules: Mapping[str, object], word_of: Mapping[str, str]) -> dict[str, object]:
    """Returns all records by their refs, with rules and words in place of codes."""
    records: dict[str, object] = {}
    while (answer := served.ask("GET", f"/records/{len(records) + 1}")).status == 200:
        record: dict[str, Any] = json.loads(answer.body)
        kept = {name: record[name] for name in ("title", "originated", "added", "event", "digest", "due", "status")}
        records[record["ref"]] = {**kept, "rule": rules[record["schedule"]], "class": word_of[record["class"]]}
    return records


def due_in(served: Office, word_of: Mapping[str, str]) -> list[tuple[object, ...]]:
    """Returns the list of what is due in the last year, with words in place of codes."""
    rows = json.loads(served.ask("GET", "/due/2999-12-31").body)
    return sorted((row["ref"], row["due"], row["action"], word_of[row["class"]]) for row in rows)


def posted(served: Office, acts: list[dict[str, Any]]) -> None:
    answers = [answer for at in range(0, len(acts), 50) for answer in json.loads(served.post(acts[at:at + 50]).body)]
    same("each act of the model is done", [(acts[at], answer) for at, answer in enumerate(answers) if "refused" in answer], [])


def direct(folder: Path, model: Model) -> tuple[dict[str, object], list[tuple[object, ...]]]:
    """Makes the office of a model by acts, and returns its records and its due list."""
    acts, rules, word_of = offices.acts_of(model)
    with Office(folder / "direct.db") as served:
        posted(served, acts)
        if any(each.event for each in model.records):
            posted(served, offices.event_acts(model, f"{datetime.datetime.now(ZoneInfo('UTC')).date()}", numbers_of(served)))
        return view(served, rules, word_of), due_in(served, word_of)


def sent(served: Office, *arguments: object) -> None:
    done = run(CONVERT, *arguments, "--office", served.address)
    judge(f"office-convert sends {arguments[0]} {arguments[1]}", done.status == 0, done.error, is_quiet=True)


def send(folder: Path, sources: list[Source], served: Office) -> None:
    """Sends what was brought in as the page says: the plan, the history, the events."""
    outs = [folder / f"out-{source.kind}" for source in sources]
    # a plan that was brought in by itself has all classes, and later sources only name them
    named = [out / name for out in outs for name in (("rules.csv", "classes.csv") if out == outs[0] else ("rules.csv",))]
    plans = [path for path in named if path.exists()]
    if plans:
        sent(served, "--act", "plan", *plans, "--set", f"day={offices.PLAN_DAY}")
    for source, out in zip(sources, outs):
        if (out / "records.csv").exists():
            contents = source.path if source.kind == "share" else source.path.parent
            sent(served, "--history", out / "files.csv", out / "records.csv", "--files", "path", "--folder", contents)
        if (out / "events.csv").exists():
            numbers = json.dumps({"moment": "now", "records": [[number, ref] for ref, number in numbers_of(served).items()]})
            send_events(folder, served, out / "events.csv", numbers)


def send_events(folder: Path, served: Office, sheet: Path, records: str) -> None:
    """Sends events by a catalogue that has the numbers of the records alone."""
    there = folder / "numbers"
    there.mkdir()
    (there / "records.json").write_text(records)
    for name in ("schedules", "classes", "aggregations", "holds"):
        (there / f"{name}.json").write_text(json.dumps({"moment": "now", name: []}))
    sent(served, "--act", "event", sheet, "--set", "by=T", "--catalogue", there)


def numbers_of(served: Office) -> dict[str, int]:
    """Returns the number of each record."""
    numbers: dict[str, int] = {}
    while (answer := served.ask("GET", f"/records/{len(numbers) + 1}")).status == 200:
        numbers[json.loads(answer.body)["ref"]] = len(numbers) + 1
    return numbers


def by_program(system: System, folder: Path, seed: int) -> None:
    """Brings one random source into an office, and compares it with the one that is made directly."""
    rng = random.Random(1000 + seed)
    model = system.model(rng)
    sources = system.write(folder, model, rng)
    for source in sources:
        done = brought(folder, source)
        judge(f"{source.kind} comes in", done.status == 0, done.error, is_quiet=True)
    records, due = direct(folder, model)
    rules = {row["code"]: (*(row[name] for name in ACTION[:2]), int(row["count"]), *(row[name] for name in ACTION[3:]))
             for source in sources for row in rows_in(folder / f"out-{source.kind}/rules.csv")}
    word_of = {row["code"]: row["word"] for row in rows_in(folder / "codes.csv")} | {word: word for word in system.own}
    own = [each for each in model.classes if each.word in system.own]
    for each in own:
        rules[f"OWN-{each.word}"] = each.rule
        schedule = {"act": "add-schedule", "day": offices.PLAN_DAY, "code": f"OWN-{each.word}", **dict(zip(ACTION, each.rule))}
        added = {"act": "add-class", "day": offices.PLAN_DAY, "code": each.word, "title": each.title, "schedule": f"OWN-{each.word}"}
        (folder / "plan.json").write_text(json.dumps([schedule, added]))
        same("the plan of the office", run(OFFICE, "apply", folder / "brought.db", folder / "plan.json").status, 0)
    with Office(folder / "brought.db") as served:
        send(folder, sources, served)
        same(f"seed {seed}: records", view(served, rules, word_of), records)
        judge(f"seed {seed}: what is due", due_in(served, word_of) == due and (due or not records), len(due), always=True)


def both(system: System, folder: Path) -> None:
    """Compares the sheets of many sources, and the offices of some."""
    many(system, folder / "many")
    for seed in range(SEEDS):
        (folder / f"office-{seed}").mkdir()
        by_program(system, folder / f"office-{seed}", seed)


def share(folder: Path) -> None:
    """A file share has the same records as an office that is made of its documents."""
    both(systems.SHARE, folder)


def xdomea(folder: Path) -> None:
    """A filing plan and a message of xdomea, by one table of codes."""
    both(systems.XDOMEA, folder)


def sharepoint(folder: Path) -> None:
    """Labels, and a library whose items have them."""
    both(systems.SHAREPOINT, folder)


def trim(folder: Path) -> None:
    """Records of Content Manager, with retention schedules of their own."""
    both(systems.TRIM, folder)


def alfresco(folder: Path) -> None:
    """A package of Alfresco, with its rules and contents."""
    both(systems.ALFRESCO, folder)


def classes_of(out: Path) -> list[tuple[str, str]]:
    """Returns the titles of classes, and their schedules."""
    return sorted((row["title"], row["schedule"]) for row in rows_in(out / "classes.csv"))


def plans(folder: Path) -> None:
    """Plans of other forms: their classes come in, and no rule is read from a note."""
    many(systems.GRS, folder / "grs")
    for seed in range(MANY):
        place, rng = folder / f"skos-{seed}", random.Random(seed)
        place.mkdir()
        model = systems.grs_model(rng)
        source, = systems.write_skos(place, model, rng)
        done = brought(place, source)
        wanted = sorted((each.title, "") for each in model.classes)
        same(f"SKOS {seed}", (done.status, classes_of(place / "out-skos")), (0, wanted))
        judge("each class without a rule is named", done.error.count("SKOS has no rule") == len(wanted), done.error, is_quiet=True)
    done = brought(place, Source("skos", source.path, ()))
    judge("two languages ask", done.status == 2 and "labels are in de and en: say --language" in done.error, done, is_quiet=True)
    texts = ["Destroy when 3 years old or no longer needed, whichever is later.", "Destroy 3 years after audit or final action.", "Permanent.",
             "Destroy when no longer needed.", "Destroy when 3 years old. Then destroy the index.",
             "Cut off at the end of the year. Destroy when 3 years old."]
    table = folder / "unread.csv"
    written.table(table, ("GRS Number", "Item Number", "Records Title", "Disposition Instruction"),
                  [("1.1", f"{at:03}", "x", text) for at, text in enumerate(texts)])
    done = brought(folder, Source("grs", table, ()))
    same("no other sentence is a rule", (done.status, [schedule for _, schedule in classes_of(folder / "out-grs")]), (0, [""] * len(texts)))
