"""Another office: the sheets of an office go through office-convert, and the due lists of both are compared."""
from __future__ import annotations

import csv
import io
import pathlib
import sqlite3

from kit.commands import office, run
from kit.companions import companion
from kit.judging import judge, same
from place import back, export, files_in, judge_refused, names_in, small_bag, unjudging

LATE = "2999-12-31"


def due(file: pathlib.Path, prefix: str = "") -> dict[str, tuple[str, ...]]:
    """Asks the program what is due one day: class, schedule, action and day of each record by its ref."""
    text = office("export", file, LATE).out
    return {row["ref"].removeprefix(prefix): (row["class"], row["schedule"], row["action"], row["due"])
            for row in csv.DictReader(io.StringIO(text))}


def sheet(folder: pathlib.Path, name: str) -> list[dict[str, str]]:
    with (folder / f"{name}.csv").open(newline="", encoding="utf-8") as file:
        return list(csv.DictReader(file))


def taken_over(folder: pathlib.Path, bag: pathlib.Path) -> pathlib.Path:
    """Does the commands of the page in a new office."""
    new, sheets, convert = folder / "new.db", folder / "sheets", companion("office-convert")
    steps = (("--act", "plan", "rules.csv", "classes.csv", "--set", "day=2017-01-01", "-o", "plan.json"),
             ("--history", "files.csv", "records.csv", "--files", "content", "--folder", bag / "data", "--try", new,
              "-o", "past.json"))
    for step in steps:
        done = run(convert, *step, folder=sheets)
        judge(f"office-convert reads the sheets of {step[0]}", done.status == 0, done)
        done = office("apply", new, sheets / str(step[-1]))
        judge(f"the office takes the acts of {step[0]}", done.status == 0, done)
    (folder / "catalogue").mkdir()
    done = run(companion("office-catalogue"), new, folder / "catalogue")
    judge("a catalogue of the new office", done.status == 0, done)
    done = run(convert, "--act", "event", "events.csv", "--catalogue", folder / "catalogue", "--set", "day=2026-01-01", "-o",
               "events.json", folder=sheets)
    judge("office-convert reads the events", done.status == 0, done)
    done = office("apply", new, sheets / "events.json")
    judge("the office takes the events", done.status == 0, done)
    return new


def others(folder: pathlib.Path) -> None:
    bag = small_bag(folder)
    done = back("--as-sheets", "--prefix", "OLD-", "--class", "COU-MIN", bag, folder / "sheets", OFFICE=unjudging(folder))
    lost = sheet(folder / "sheets", "lost")
    judge("an office becomes sheets", done.status == 1 and f"lost {len(lost)}" in done.out
          and f"{len(lost)} rows of" in done.error, done)
    new, old = taken_over(folder, bag), sqlite3.connect(folder / "office.db")
    mine, theirs = due(folder / "office.db"), due(new, "OLD-")
    sent = {ref for ref, in old.execute("SELECT ref FROM records WHERE status IN ('sent', 'received')")}
    judge("there are due records", len(mine) > 5, mine)
    same("what is due when", {ref: row for ref, row in theirs.items() if ref not in sent}, mine)
    same("what was sent is here there, and named", {row["ref"] for row in lost if row["what"] == "status"}, sent)
    with sqlite3.connect(new) as base:
        digests = dict(base.execute("SELECT substr(ref, 5), digest FROM records WHERE ref NOT LIKE '%CERTIFICATE%'"))
        papers = [data for data, in base.execute("SELECT bytes FROM contents JOIN records ON num = record "
                                                 "WHERE ref LIKE '%CERTIFICATE%' ORDER BY ref")]
    same("contents", digests, dict(old.execute("SELECT ref, digest FROM records WHERE status <> 'ended'")))
    same("certificates are records", papers, list(files_in(bag / "data/certificates").values()))
    named(old, lost)
    same("lifted holds stay behind", sheet(folder / "sheets", "holds"), [])
    old.close()
    one_day(folder, bag)


def named(old: sqlite3.Connection, lost: list[dict[str, str]]) -> None:
    """What has no place in another office is a row each."""
    for what, query in (("ended record", "SELECT count(*) FROM records WHERE status = 'ended'"),
                        ("lifted hold", "SELECT count(*) FROM holds WHERE lifted IS NOT NULL"),
                        ("confirmation", "SELECT count(*) FROM records WHERE conf_day IS NOT NULL AND status <> 'ended'"),
                        ("review", "SELECT count(*) FROM records WHERE reviewed IS NOT NULL AND status <> 'ended'"),
                        ("receipt", "SELECT count(*) FROM records WHERE receipt_day IS NOT NULL AND status <> 'ended'"),
                        ("day of an event", "SELECT count(*) FROM events JOIN records ON num = record WHERE status <> 'ended'"),
                        ("day of filing", "SELECT 0"),
                        ("number", "SELECT (SELECT count(*) FROM aggregations) + count(*) FROM records WHERE status <> 'ended'")):
        same(f"rows of {what}", sum(row["what"] == what for row in lost), old.execute(query).fetchone()[0])


def one_day(folder: pathlib.Path, bag: pathlib.Path) -> None:
    """All acts have one day, holds in force come along, and what that loses is named."""
    program, file = unjudging(folder), folder / "held.db"
    file.write_bytes((folder / "office.db").read_bytes())
    with sqlite3.connect(file) as base:
        base.execute("UPDATE holds SET lifted = NULL")
        base.executemany("INSERT OR IGNORE INTO targets VALUES ((SELECT min(code) FROM holds), ?, ?)",
                         [("class", "COU-MIN"), ("aggregation", "2"), ("record", "6"), ("record", "1")])
    base.close()
    assert export(file, folder / "held").status == 0
    place = folder / "late"
    done = back("--as-sheets", "--prefix", "É/", "--class", "C", "--day", "2031-01-02", folder / "held", place, OFFICE=program)
    judge("sheets of one day", done.status == 1, done)
    days = {row[name] for part, names in (("files", ("opened", "closed")), ("records", ("filed",))) for row in sheet(place, part)
            for name in names}
    same("all acts have it", days, {"2031-01-02", ""})
    judge("and the days that are lost are named", {"day of filing", "day of closing", "day of a hold"}
          <= {row["what"] for row in sheet(place, "lost")}, sheet(place, "lost"))
    same("the hold comes along", [list(row.values())[1] for name in ("on_classes", "on_aggregations", "on_records")
                                  for row in sheet(place, name) if row.get("class") == "COU-MIN" or "É/" in str(row.values())][:1],
         ["COU-MIN"])
    records = {row["ref"] for row in sheet(place, "records")}
    judge("holds are on what comes along", {row["record"] for row in sheet(place, "on_records")} <= records
          and sheet(place, "on_aggregations"), sheet(place, "on_records"))
    before = names_in(place)
    judge_refused("SHEETS is there", back("--as-sheets", "--prefix", "x", "--class", "C", bag, place, OFFICE=program), "is there already")
    same("and stays as it was", names_in(place), before)
    for words in (("--as-sheets", bag, folder / "s"), ("--as-sheets", "--prefix", "x", bag, folder / "s"),
                  ("--prefix", "x", "--class", "C", bag, folder / "s"), ("--day", "2031-01-02", bag, folder / "s"),
                  ("--as-sheets", "--prefix", "x", "--class", "C", "--day", "2031-02-30", bag, folder / "s")):
        done = back(*words, OFFICE=program)
        judge(f"{words[:-2]}", done.status == 2 and "usage:" in done.error and not (folder / "s").exists(), done)
