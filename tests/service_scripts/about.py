"""What office-about reports of a person, from a catalogue and a journal of known names (tests/service_scripts)."""
from __future__ import annotations

import os
import pathlib
import sys

from service_scripts.place import FIRST, LAST, NOBODY, OFFICE, TOP, apply, made, run, script
from kit.judging import judge

sys.path[:0] = [str(TOP / "companions/gate"), str(TOP / "companions")]
from office_gate.chain import START, linked  # noqa: E402

TITLES = {"m1": "Letter of Anna Müller", "m2": "Invoice MUELLER 2024", "x1": "Letter of B. Mullen",
          "m/3-mueller": "Plan"}


def office(folder: pathlib.Path) -> pathlib.Path:
    """Makes an office that names a person in titles, a hold, a run and a ref, and its catalogue."""
    file, place = made(folder, "about"), folder / "about-catalogue"
    acts = [{"act": "add-record", "day": FIRST, "ref": ref, "title": title, "originated": FIRST, "aggregation": 1,
             "content": ""} for ref, title in TITLES.items()]
    acts += [{"act": "add-aggregation", "day": FIRST, "ref": "P", "title": "Müller ./. city", "class": "FIN"},
             {"act": "place-hold", "day": FIRST, "code": "H-1", "reason": "Lawsuit of Mueller", "by": "legal"},
             {"act": "hold-on", "day": FIRST, "hold": "H-1", "target": "record:42"},
             {"act": "open-run", "day": LAST, "by": "U. Müller"}]
    apply(file, acts, NOBODY)
    run(OFFICE, "resume", file, user=NOBODY)
    place.mkdir()
    os.chown(place, NOBODY, NOBODY)
    script("office-backup", file, file.with_name("copy.db"), user=NOBODY)
    status, _, error = script("office-catalogue", file.with_name("copy.db"), place, user=NOBODY)
    judge("a catalogue is made of an office with persons in it", status == 0, error.strip())
    return place


def journal(folder: pathlib.Path) -> pathlib.Path:
    """Writes a journal of two files, with acts, reasons and readings of the person and of others, and a torn line."""
    entries = [
        {"at": "2024-01-02T08:00:00+00:00", "what": "asked", "name": "anna", "request": "POST /acts",
         "acts": [{"act": "add-record", "title": "Letter of Anna Müller"}, {"act": "confirm", "record": 7}]},
        {"at": "2024-01-03T08:00:00+00:00", "what": "refused", "name": "bert", "request": "POST /acts",
         "reason": "asked by Frau Mu\u0308ller", "acts": [{"act": "lift-hold", "hold": "H-1"}]},
        {"at": "2024-01-04T08:00:00+00:00", "what": "read", "name": "bert", "request": "GET /records/41/content"},
        {"at": "2024-01-05T08:00:00+00:00", "what": "read", "name": "bert", "request": "GET /records/41"},
        {"at": "2024-01-06T08:00:00+00:00", "what": "read", "name": "mueller", "request": "GET /records/4"},
        {"at": "2024-01-07T08:00:00+00:00", "what": "read", "name": "mueller", "request": "GET /records/410"}]
    head, data = START, []
    for entry in entries:
        line, head = linked(entry, head)
        data.append(line)
    file = folder / "about.journal"
    file.with_name("about.journal-20240104").write_bytes(b"".join(data[:2]))
    file.write_bytes(b"".join(data[2:]) + b'{"torn":')
    return file


def rows(out: str) -> list[list[str]]:
    return [line.split("\t") for line in out.splitlines()]


def about(folder: pathlib.Path) -> None:
    place, file = office(folder), journal(folder)
    status, out, error = script("office-about", place, "--journal", file, "Mueller")
    reported = rows(out)
    things = [row[:3] for row in reported if row[0] in ("aggregation", "record", "hold", "run")]
    judge("each thing that names the person is reported, by either spelling, and no other", status == 0 and things == [
        ["aggregation", "2", "P"], ["record", "41", "m1"], ["record", "42", "m2"], ["record", "44", "m/3-mueller"],
        ["hold", "H-1", "Lawsuit of Mueller"], ["run", "1", "U. Müller"]], f"{things} {error}")
    record = next(row for row in reported if row[1] == "42")
    judge("a record has its class, days and hold", record[4:] == [
        "here", "class FIN", f"originated {FIRST}", "due 2025-01-02", "hold H-1"], f"{record}")
    judge("acts and reasons of the journal are reported, of older files too",
          [row[1:] for row in reported if row[0] == "journal"] == [
              ["about.journal-20240104:1", "2024-01-02T08:00:00+00:00", "anna", "asked", "add-record.title"],
              ["about.journal-20240104:2", "2024-01-03T08:00:00+00:00", "bert", "refused", "reason"]], f"{reported}")
    judge("a name that is the person's is counted", [row[1:4] for row in reported if row[0] == "name"] == [
        ["mueller", "read", "2 times"]])
    judge("who read the records of the person is reported, and no reader of others",
          [row[1:] for row in reported if row[0] == "read"] == [
              ["record 41", "bert", "2 times", "first 2024-01-04T08:00:00+00:00", "last 2024-01-05T08:00:00+00:00"]])
    judge("the report says what was searched, a torn line too", reported[-2] == [
        "searched", "journal: 7 lines of 2 files"] and reported[-1][0] == "not searched", f"{reported[-2:]}")
    refused(folder, place)


def refused(folder: pathlib.Path, place: pathlib.Path) -> None:
    status, out, _ = script("office-about", place, "Nobody Atall")
    judge("of a person that no thing names the status is 1", status == 1 and len(rows(out)) == 3, out)
    status, out, error = script("office-about", place, "mu")
    judge("a term of two letters is refused", (status, out) == (2, "") and "at least 3" in error, error.strip())
    status, out, error = script("office-about", folder / "none", "Mueller")
    judge("without a catalogue the file is named", status == 3 and "classes.json.gz" in error, error.strip())
    status, out, error = script("office-about", place, "--journal", folder / "none", "Mueller")
    judge("without the journal the file is named, and nothing is reported", (status, out) == (3, "")
          and "none" in error, error.strip())
