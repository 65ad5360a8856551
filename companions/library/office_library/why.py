"""The law behind each row of a register, and behind each entry of a certificate."""
import csv
import io
from typing import NamedTuple

from office_common.errors import USAGE, Refused

from office_library.cells import is_day
from office_library.mandates import Mandates

ADDED = ("law", "why", "as of")
"""the columns that a register gets"""
CERTIFICATE = "CERTIFICATE "
ENTRY = ("record", "outcome", "ref", "class", "schedule", "due")
"""what is shown of an entry of a certificate: the words behind `ENTRY`, in their order"""


class Law(NamedTuple):
    """The section behind a rule, what a clerk reads of it, and the day as of which that is so."""

    section: str
    why: str
    day: str


def law_of(mandates: Mandates, code: str, schedule: str, day: str) -> Law:
    """Returns the law of a class as of a day, if its rule is the one in effect; else no law, and why there is none."""
    entry = mandates.entry(code, day)
    if entry is None:
        return Law("", "no law is on file" + (f" as of {day}" if code in mandates.classes else ""), "")
    if entry.schedule != schedule:
        return Law("", f"another rule than the law's, which is {entry.schedule}", "")
    return Law(entry.section, entry.why, entry.day)


def written(rows: list[list[str]]) -> str:
    text = io.StringIO()
    csv.writer(text, lineterminator="\n").writerows(rows)
    return text.getvalue()


def of_register(mandates: Mandates, text: str, day: str) -> str:
    """Adds the columns of a law to a register."""
    try:
        header, *rows = list(csv.reader(io.StringIO(text, newline=""), strict=True)) or [[]]
    except csv.Error as error:
        raise Refused(USAGE, f"the register is no CSV: {error}") from error
    for name in ("class", "schedule"):
        if header.count(name) != 1:
            raise Refused(USAGE, f"the register needs one column {name}")
    for name in ADDED:
        if name in header:
            raise Refused(USAGE, f"the register has a column {name} already")
    at, rule_at = header.index("class"), header.index("schedule")
    if any(len(row) != len(header) for row in rows):
        raise Refused(USAGE, "a row of the register has not as many cells as its header")
    return written([[*header, *ADDED], *([*row, *law_of(mandates, row[at], row[rule_at], day)] for row in rows)])


def of_certificate(mandates: Mandates, text: str) -> str:
    """Returns the entries of a certificate with the laws as of its day, as CSV."""
    lines = [line.split("\t") for line in text.split("\n")]
    day = next((line[0].removeprefix("DAY ") for line in lines if line[0].startswith("DAY ")), "")
    entries = [line[1:1 + len(ENTRY)] for line in lines if line[0] == "ENTRY"]
    if not is_day(day) or any(len(entry) != len(ENTRY) for entry in entries):
        raise Refused(USAGE, "the certificate is not whole")
    at, rule_at = ENTRY.index("class"), ENTRY.index("schedule")
    rows = [[*entry, *law_of(mandates, entry[at], entry[rule_at], day)] for entry in entries]
    return written([[*ENTRY, *ADDED], *rows])


def of_text(mandates: Mandates, data: bytes, day: str | None, today: str) -> str:
    """Returns a register or a certificate with its laws: a register as of a day, or of today."""
    try:
        text = data.decode("utf-8-sig")
    except UnicodeDecodeError as error:
        raise Refused(USAGE, "the register is not UTF-8") from error
    if not text.startswith(CERTIFICATE):
        return of_register(mandates, text, day or today)
    if day is not None:
        raise Refused(USAGE, "a certificate shows the laws as of its own day: leave --day out")
    return of_certificate(mandates, text)
