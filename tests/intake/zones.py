"""Moments and days: that of a mail at its sender's, or at a place; never that of the machine, and UTC never in silence."""
from __future__ import annotations

import datetime
import json
import os
import pathlib
import zoneinfo
from collections.abc import Callable

from intaking.mails import mail_of
from intaking.options import parsed

# what a mail states, its own day, whether that is one of UTC without a word of the place, and the day in Berlin
STATED = [
    ("Tue, 31 Dec 2024 23:30:00 +0000", "2024-12-31", True, "2025-01-01"),
    ("Tue, 31 Dec 2024 23:30:00 -0000", "2024-12-31", True, "2025-01-01"),
    ("Tue, 31 Dec 2024 23:30:00 GMT", "2024-12-31", True, "2025-01-01"),
    ("Tue, 31 Dec 2024 23:30:00 Z", "2024-12-31", True, "2025-01-01"),
    ("Tue, 31 Dec 2024 23:30:00 +0100", "2024-12-31", False, "2024-12-31"),
    ("Tue, 31 Dec 2024 15:30:00 -0800", "2024-12-31", False, "2025-01-01"),
    ("Wed, 1 Jan 2025 00:30:00 +1400", "2025-01-01", False, "2024-12-31"),
    ("Tue, 31 Dec 2024 23:30:00 EST", "2024-12-31", False, "2025-01-01"),
    # the time of a place that is not known is that of its own
    ("Tue, 31 Dec 2024 23:30:00", "2024-12-31", False, "2024-12-31"),
    ("Tue, 31 Dec 2024 23:30:00 MESZ", "2024-12-31", False, "2024-12-31"),
]


def stated(same: Callable[..., object]) -> None:
    """The days of what mails state, in two header lines, with a zone and without."""
    berlin = zoneinfo.ZoneInfo("Europe/Berlin")
    for text, day, is_utc, there in STATED:
        data = f"Received: from a by b; {text}\nDate: {text}\n\nA letter.\n".encode()
        own, seen = mail_of(data), mail_of(data, berlin)
        same(f"{text} without a zone", (str(own.sent), str(own.received), own.is_sent_in_utc, own.is_received_in_utc), (day, day, is_utc, is_utc))
        same(f"{text} in Berlin", (str(seen.sent), str(seen.received), seen.is_sent_in_utc, seen.is_received_in_utc), (there, there, False, False))


def filed(folder: pathlib.Path, take: Callable[..., tuple[int, dict[str, str], str]], same: Callable[..., object]) -> None:
    """A machine with the clock of UTC files what came at the end of a year in Berlin."""
    place = folder / "year"
    place.mkdir()
    (place / "a.eml").write_bytes(b"Subject: a\nDate: Tue, 31 Dec 2024 23:30:00 GMT\n\nA letter.\n")
    (place / "b.eml").write_bytes(b"Subject: b\nDate: Tue, 31 Dec 2024 23:30:00 -0100\n\nA letter.\n")
    (place / "scan_20241231.txt").write_bytes(b"a day in a name is no moment")
    (place / "note.txt").write_bytes(b"changed")
    moment = datetime.datetime(2024, 12, 31, 23, 30, tzinfo=datetime.timezone.utc).timestamp()
    os.utime(place / "note.txt", (moment, moment))
    results = {}
    for name, more in (("own", ()), ("berlin", ("--zone", "Europe/Berlin"))):
        status, _, errors = take(place, "--changed", "--pattern", r"_(?P<day>\d{8})", *more)
        acts = json.loads((folder / "year.json").read_text())
        results[name] = (status, [each for each in errors.splitlines() if each.startswith("days of UTC: ")],
                       {each["ref"][3:]: each["originated"] for each in acts if each["act"] == "add-record"})
    same("without a zone the days of UTC are named", results["own"], (0, [
        "days of UTC: new mails that name no other zone: 1, as a.eml: --zone Europe/Berlin takes the days of a place"],
        {"a.eml": "2024-12-31", "b.eml": "2024-12-31", "scan_20241231.txt": "2024-12-31", "note.txt": "2024-12-31"}))
    same("with one each moment has its day there, and a day stays itself", results["berlin"], (0, [], {
        "a.eml": "2025-01-01", "b.eml": "2025-01-01", "scan_20241231.txt": "2024-12-31", "note.txt": "2025-01-01"}))


def days_of_filing(same: Callable[..., object]) -> None:
    """Today is the day at the place that is asked for: in these two it is never the same day."""
    given = ["scans", "--root", "BP", "--office", "http://127.0.0.1:1"]

    def at(hours: int) -> datetime.date:
        return (datetime.datetime.now(datetime.timezone.utc) + datetime.timedelta(hours=hours)).date()

    for zone, hours in (("Pacific/Kiritimati", 14), ("Etc/GMT+12", -12)):
        around = (at(hours), parsed([*given, "--zone", zone]).day, at(hours))
        same(f"a day of filing in {zone} is one there", around[1] in around[::2], True)
    same("a day of filing that is given is taken", str(parsed([*given, "--day", "2024-03-01"]).day), "2024-03-01")
