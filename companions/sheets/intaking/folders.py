"""Which aggregation the files of a folder go into: one for each folder, or as a table says."""
from __future__ import annotations

import csv
import pathlib
from dataclasses import dataclass

from spreadsheet.members import Pending

COLUMNS = ("folder", "ref", "title", "class", "parent")


class Unusable(Exception):
    """What was asked for cannot be done; the text says why."""


class Unsettled(Unusable):
    """A file may still change, so a later call can file it."""


@dataclass(frozen=True)
class Aggregation:
    """An aggregation that a folder goes into; without a title it is there already, and is not added."""

    ref: str
    title: str
    code: str | None
    parent: str | None

    def act(self, day: str, numbers: dict[str, int]) -> dict[str, object]:
        parent = None if self.parent is None else numbers.get(self.parent, Pending(self.parent))
        return {"act": "add-aggregation", "day": day, "ref": self.ref, "title": self.title, "parent": parent,
                "class": self.code}


def by_folders(root: pathlib.Path, folders: list[pathlib.PurePosixPath], ref: str, code: str | None) -> dict[str, Aggregation]:
    """An aggregation for each folder and for those that it is in; the first one has a ref of its own and the class."""
    found = {".": Aggregation(ref, root.resolve().name or ref, code, None)}
    for folder in sorted(folders):
        for at in [*reversed(folder.parents), folder]:
            above = found[str(at.parent)]
            found.setdefault(str(at), Aggregation(f"{above.ref}/{at.name}", at.name, None, above.ref))
    return found


def by_table(table: pathlib.Path) -> dict[str, Aggregation]:
    """The aggregations of a table: a row for a folder, with ref, and title, class and parent where it is to be added."""
    try:
        with table.open(encoding="utf-8-sig", newline="") as file:
            head = file.readline()
            file.seek(0)
            rows = list(csv.DictReader(file, delimiter=max(",;\t", key=head.removeprefix("\ufeff").count)))
    except (OSError, UnicodeDecodeError, csv.Error) as why:
        raise Unusable(f"{table} cannot be read: {why}") from why
    found: dict[str, Aggregation] = {}
    for number, row in enumerate(rows, 2):
        cells = {name: (row.get(name) or "").strip() for name in COLUMNS}
        if not cells["folder"] or not cells["ref"]:
            raise Unusable(f"{table}, row {number}: a folder and a ref are needed; the columns are {', '.join(COLUMNS)}")
        folder = str(pathlib.PurePosixPath(cells["folder"].replace("\\", "/")))
        if folder in found:
            raise Unusable(f"{table}, row {number}: the folder {folder} is in a row above too")
        found[folder] = Aggregation(cells["ref"], cells["title"], cells["class"] or None, cells["parent"] or None)
    return found


def home_of(folder: pathlib.PurePosixPath, homes: dict[str, Aggregation]) -> Aggregation | None:
    """Returns the aggregation of a folder: its own, else that of the nearest folder above which has one."""
    return next((homes[str(at)] for at in [folder, *folder.parents] if str(at) in homes), None)
