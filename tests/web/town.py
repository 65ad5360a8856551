"""A town's office for the trials of what is to do and of forecasts: one of each thing that somebody has to look after."""
from __future__ import annotations

import hashlib
import json
import pathlib
import shutil
import subprocess

import catalogue
from late import after
from place import Office, Proxy
from story import WHO

DIGEST = hashlib.sha256(b"abc").hexdigest()
# trigger, count of years, action
SCHEDULES = {
    "D-1": ("added", 1, "destroy"),
    "SEND-1": ("added", 1, "transfer"),
    "REV-1": ("review", 1, "review"),
    "CLOSED-2": ("closed", 2, "destroy"),
    "EVENT-5": ("event", 5, "destroy"),
    "D-2": ("added", 2, "destroy"),
    "KEEP": ("added", 0, "keep"),
}
CLASSES = {"LET": "D-1", "MAP": "SEND-1", "CON": "REV-1", "CASE": "CLOSED-2", "LEASE": "EVENT-5"}
HELD = "LAW-2024-01"


def plan(day: str) -> list[dict]:
    """The schedules, the classes, and an aggregation of each; a file in that of the cases."""
    first = {"day": day}
    acts = [
        {"act": "add-schedule", **first, "code": code, "trigger": trigger, "unit": "years", "count": count}
        | {"offset": "none", "action": action}
        for code, (trigger, count, action) in SCHEDULES.items()
    ]
    acts += [
        {"act": "add-class", **first, "code": code, "title": f"Class {code}", "schedule": schedule}
        for code, schedule in CLASSES.items()
    ]
    acts += [
        {"act": "add-aggregation", **first, "ref": code, "title": f"Files of {code}", "class": code} for code in CLASSES
    ]
    return [*acts, {"act": "add-aggregation", **first, "ref": "CASE/1", "title": "The case of the mill", "parent": 4}]


def record(day: str, ref: str, aggregation: int) -> dict:
    content = {"originated": day, "aggregation": aggregation, "content": "YWJj"}
    return {"act": "add-record", "day": day, "ref": ref, "title": f"Title of {ref}", **content}


def records(day: str) -> list[dict]:
    """Twelve letters, four maps, a contract, two in the case, two leases, by number from 1 on."""
    refs = [*((f"LET/{at}", 1) for at in range(1, 13)), *((f"MAP/{at}", 2) for at in range(1, 5)), ("CON/1", 3)]
    refs += [("CASE/1/1", 6), ("CASE/1/2", 6), ("LEASE/1", 5), ("LEASE/2", 5)]
    return [record(day, ref, aggregation) for ref, aggregation in refs]


def confirm(day: str, numbers: list[int], action: str) -> list[dict]:
    return [{"act": "confirm", "day": day, "record": it, "action": action, "by": WHO} for it in numbers]


def send(office: Office, acts: list[dict]) -> None:
    status, _, body = office.ask("POST", "/acts", json.dumps(acts))
    assert status == 200, body


def run(office: Office, day: str) -> None:
    send(office, [{"act": "open-run", "day": day, "by": WHO}])
    assert office.ask("POST", "/run/resume")[0] == 200


def fill(office: Office) -> None:
    """Three years ago; two maps were sent a year ago, and one of these was received; a hold is on two letters."""
    begun, later = after(-1100), after(-500)
    send(office, plan(begun) + records(begun))
    send(office, confirm(later, [13, 14], "transfer"))
    run(office, later)
    send(office, [{"act": "receipt", "day": later, "record": 14, "digest": DIGEST, "by": WHO}])
    hold = [{"act": "place-hold", "day": later, "code": HELD, "reason": "A lawsuit", "by": "Legal office"}]
    hold += [{"act": "hold-on", "day": later, "hold": HELD, "target": f"record:{it}"} for it in (1, 2)]
    send(office, hold)
    send(office, confirm(after(-400), [1, 3, 4], "destroy") + confirm(after(-300), [2], "destroy"))
    send(office, confirm(after(-300), [15], "transfer"))


def renew(proxy: Proxy, office: Office) -> None:
    """The catalogue of an office that nobody asks just now: a copy of FILE and its log, which sqlite3 puts into one file."""
    copy = proxy.folder / "copied.db"
    for end in ("", "-wal", "-shm"):
        pathlib.Path(f"{copy}{end}").unlink(missing_ok=True)
    shutil.copy(office.file, copy)
    log = pathlib.Path(f"{office.file}-wal")
    if log.exists():
        shutil.copy(log, f"{copy}-wal")
    subprocess.run(["sqlite3", copy, "PRAGMA wal_checkpoint(TRUNCATE); PRAGMA journal_mode = DELETE"], check=True, stdout=subprocess.DEVNULL)
    catalogue.make(proxy, copy)
