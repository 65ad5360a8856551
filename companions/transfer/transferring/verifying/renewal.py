"""Renewals: lists of all that a folder of seals had at a moment, each with a time stamp of its own.

    renewed/0001/SHA512SUMS      a line for each file of the seals, and of the renewals before
    renewed/0001/SHA512SUMS.tsr  a time stamp of the list

A renewal covers a stamp if it lists the stamp and what belongs to it. The stamp proves its moment as long as a renewal
proves its own that covered it in time: while the stamp was still good.
"""
from __future__ import annotations

import datetime
import functools
import hashlib
import re
from dataclasses import dataclass
from pathlib import Path

from transferring.verifying import token
from transferring.verifying.report import FORGED, Report
from transferring.verifying.token import FOREVER, Bad, Token
from transferring.verifying.tools import UTC, data_of
from transferring.verifying.trust import Trust

FOLDER, LIST = "renewed", "SHA512SUMS"
LINE = re.compile(r"([0-9a-f]{128})  ((?:[0-9]{6}|renewed/[0-9]{4})/[A-Za-z0-9_-][A-Za-z0-9._-]*)")


@dataclass(frozen=True)
class Renewal:
    """A renewal: the files that are as it lists them, its moment if its stamp is good, and until when it proves it."""

    name: str
    files: frozenset[str]
    moment: datetime.datetime | None
    until: datetime.datetime

    def covers(self, files: set[str], end: datetime.datetime) -> bool:
        """Returns whether it has these files, and came before the proof of their stamp ended."""
        return self.moment is not None and self.moment <= end and self.files >= files


def best(files: set[str], end: datetime.datetime, renewals: list[Renewal]) -> Renewal | None:
    """Returns the renewal that proves the moment of a stamp longest; None if none covers it in time."""
    covering = [renewal for renewal in renewals if renewal.covers(files, end)]
    return max(covering, key=lambda renewal: renewal.until) if covering else None


def judged(seals: Path, trust: Trust | None, report: Report) -> list[Renewal]:
    """Judges the renewals of a folder of seals, the newest first, each by those that follow it."""
    folder = seals / FOLDER
    names = sorted(entry.name for entry in folder.iterdir() if not entry.name.startswith(".")) if folder.is_dir() else []
    renewals: list[Renewal] = []
    wrong: dict[str, str] = {}
    for number, name in enumerate(names, 1):
        if name != f"{number:04}":
            report.wrong.append(f"{FOLDER}/{name}: renewal {number} is missing")
            break
        report.renewals = number
    for number in range(report.renewals, 0, -1):
        name = f"{FOLDER}/{number:04}"
        files = listed(seals, name, wrong, report)
        renewals.append(timed(seals, name, files, trust, renewals, report))
    for file, why in sorted(wrong.items()):
        report.refuse(file.rpartition("/")[0], f"{file.rpartition('/')[2]} {why}", FORGED if "changed" in why else "")
    return renewals


def listed(seals: Path, name: str, wrong: dict[str, str], report: Report) -> frozenset[str]:
    """Returns the files that are as a renewal lists them, and adds each that is not to those that are wrong."""
    text = (data_of(seals / name / LIST) or b"").decode(errors="replace")
    files = set()
    for line in text.split("\n")[:-1]:
        match = LINE.fullmatch(line)
        if match is None:
            report.refuse(name, f"{LIST} has a line of no known form", FORGED)
            return frozenset()
        actual = sha512(seals / match[2])
        if actual == match[1]:
            files.add(match[2])
        else:
            wrong[match[2]] = f"was changed after {name} listed it" if actual else f"is missing, and {name} lists it"
    return frozenset(files)


@functools.cache
def sha512(file: Path) -> str:
    """Returns the digest of a file; empty if there is none."""
    data = data_of(file)
    return "" if data is None else hashlib.sha512(data).hexdigest()


def timed(seals: Path, name: str, files: frozenset[str], trust: Trust | None, later: list[Renewal],
          report: Report) -> Renewal:
    """Returns a renewal with the moment of its stamp, which the renewals that follow it may prove for longer."""
    own = {f"{name}/{LIST}", f"{name}/{LIST}.tsr"}
    missing = sorted(file for file in own if data_of(seals / file) is None)
    report.wrong += [f"{name}: {file.rpartition('/')[2]} is missing" for file in missing]
    if trust is None or missing:
        return Renewal(name, files, None, FOREVER)
    try:
        verdict = token.judge(Token(seals / name / f"{LIST}.tsr", seals / name / LIST, "list"), trust)
    except Bad as bad:
        report.refuse(name, str(bad), bad.word)
        return Renewal(name, files, None, FOREVER)
    cover = best(own, verdict.end, later)
    until = max(verdict.end, cover.until if cover else verdict.end)
    report.notes.append(f"{name}: {len(files)} files, stamped {verdict.moment:{UTC}}")
    if until != FOREVER:
        report.notes.append(f"{name}: {verdict.cause}; unproved since {until:%Y-%m-%d}, as no renewal covers it in time")
    return Renewal(name, files, verdict.moment, until)
