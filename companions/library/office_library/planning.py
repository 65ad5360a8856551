"""A plan of chosen rows: the acts that make it in an office, and the rows as a sheet, to be filed as a record."""
import base64
import csv
import hashlib
import io
import json
from collections.abc import Iterable
from dataclasses import asdict
from pathlib import Path

from office_common import files
from office_common.errors import USAGE, Refused
from office_common.facts import LONGEST_CONTENT

from office_library.cells import COLUMNS, NOBODY, shown_title
from office_library.sheet import Row

PLAN, SHEET = "plan.json", "mandates.csv"
Act = dict[str, object]


def sheet_of(rows: Iterable[Row], day: str) -> bytes:
    """Writes rows as a library of their own, which `add` reads back."""
    rows = list(rows)
    checked = sorted({row.entry.checked or NOBODY for row in rows})
    text = io.StringIO()
    text.write(f"# title: The laws behind the rules of an office, chosen on {day}\n")
    text.write(f"# checked by: {checked[0] if len(checked) == 1 else 'each row says who'}\n")
    out = csv.DictWriter(text, COLUMNS, lineterminator="\n")
    out.writeheader()
    for row in rows:
        entry = row.entry
        out.writerow({"class": row.code, "title": entry.title, "schedule": entry.schedule, **asdict(row.rule),
                      "law": entry.law, "section": entry.section, "why": entry.why, "notation": entry.notation,
                      "as of": entry.day, "checked by": entry.checked or NOBODY, "source": entry.source})
    return text.getvalue().encode()


def acts_of(rows: list[Row], day: str) -> list[Act]:
    """Returns the acts that add each schedule once, and each class."""
    rules = {row.entry.schedule: row.rule for row in rows}
    acts: list[Act] = [{"act": "add-schedule", "day": day, "code": code, **asdict(rule)} for code, rule in rules.items()]
    return acts + [{"act": "add-class", "day": day, "code": row.code, "schedule": row.entry.schedule,
                    "title": shown_title(row.entry.title, row.entry.notation)} for row in rows]


def filing_of(sheet: bytes, day: str, aggregation: int) -> Act:
    """Returns the act that files the sheet as a record."""
    if len(sheet) > LONGEST_CONTENT:
        raise Refused(USAGE, f"{SHEET} has {len(sheet):,} bytes, and a content at most {LONGEST_CONTENT:,}: choose fewer "
                             "classes by --only")
    ref = f"mandates-{day}-{hashlib.sha256(sheet).hexdigest()[:12]}"
    return {"act": "add-record", "day": day, "ref": ref, "title": f"The laws behind the rules of disposal, of {day}",
            "originated": day, "aggregation": aggregation, "class": None, "schedule": None,
            "content": base64.b64encode(sheet).decode()}


def write(rows: list[Row], day: str, aggregation: int | None, folder: Path) -> None:
    """Writes the two files into a folder, which is made if it is not there."""
    sheet = sheet_of(rows, day)
    acts = acts_of(rows, day) + ([] if aggregation is None else [filing_of(sheet, day, aggregation)])
    lines = ",\n".join(json.dumps(act, ensure_ascii=False) for act in acts)
    folder.mkdir(exist_ok=True)
    files.write(folder / SHEET, sheet)
    files.write(folder / PLAN, f"[\n{lines}\n]\n".encode())
