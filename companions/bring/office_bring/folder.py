"""The folder of sheets: it has its name once it is whole, and never loses a sheet that somebody may have edited."""
from __future__ import annotations

import csv
import io
from collections.abc import Iterable, Sequence
from pathlib import Path

from office_bring.brought import Brought
from office_common import files
from office_common.errors import USAGE, Refused

RULES = ("code", "trigger", "unit", "count", "offset", "action")
CLASSES = ("code", "title", "schedule")
FILES = ("ref", "title", "class", "parent", "opened", "closed")
RECORDS = ("ref", "title", "originated", "aggregation", "class", "schedule", "path", "filed")
EVENTS = ("ref", "occurred")


def sheet(header: Sequence[str], rows: Iterable[Sequence[object]]) -> bytes:
    """Writes a sheet as office-convert reads it."""
    text = io.StringIO(newline="")
    table = csv.writer(text, lineterminator="\n")
    table.writerow(header)
    table.writerows(rows)
    return text.getvalue().encode()


def sheets_of(brought: Brought, with_contents: bool) -> dict[str, bytes]:
    """Returns all sheets that have a row, by their names."""
    rows: list[tuple[str, Sequence[str], list[Sequence[object]]]] = [
        ("rules.csv", RULES, [(code, *rule) for code, rule in sorted(brought.rules.items())]),
        ("classes.csv", CLASSES, list(brought.classes.values())),
        ("files.csv", FILES, list(brought.files.values())),
        ("records.csv", RECORDS, list(brought.records.values())),
        ("events.csv", EVENTS, list(brought.events.values())),
        ("lost.csv", ("count", "part"), [(count, name) for name, count in sorted(brought.ledger.lost.items())]),
        ("changed.csv", ("reason", "ref", "source", "sheet"), list(brought.changes)),
        ("wrong.csv", ("place", "reason", "parts"), [(fault.place, fault.reason, fault.parts) for fault in brought.ledger.faults]),
    ]
    if not with_contents:
        at = RECORDS.index("path")
        rows[3] = ("records.csv", (*RECORDS[:at], *RECORDS[at + 1:]),
                   [(*record[:at], *record[at + 1:]) for record in brought.records.values()])
    return {name: sheet(header, cells) for name, header, cells in rows if cells}


def has(folder: Path, sheets: dict[str, bytes]) -> bool:
    """Returns whether a folder has exactly these sheets."""
    names = {file.name for file in folder.iterdir()}
    return names == set(sheets) and all((folder / name).read_bytes() == data for name, data in sheets.items())


def write(folder: Path, sheets: dict[str, bytes]) -> bool:
    """Puts the sheets in place, all or none. Returns False if they are there already."""
    if folder.exists():
        if not folder.is_dir() or not has(folder, sheets):
            raise Refused(USAGE, f"{folder} is there, with something else: name a new folder")
        return False
    with files.new_folder(folder.parent, f".{folder.name}.") as new:
        place = new / folder.name
        place.mkdir()
        for name, data in sheets.items():
            files.write(place / name, data)
        files.sync(place)
        place.rename(folder)
        files.sync(folder.parent)
    return True
