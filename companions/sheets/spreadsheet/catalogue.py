"""The copy of the catalogue that office-catalogue makes: numbers by refs, and which codes are there."""
from __future__ import annotations

import pathlib
from dataclasses import dataclass, field
from typing import Any

from office_common.catalogue import FAILURES, Part, data_of, file_in, part_of
from spreadsheet.sheet import Unreadable


@dataclass(frozen=True)
class Catalogue:
    """What the office had at a moment. Numbers are those that the office gave; none is made here."""

    moment: str
    aggregations: dict[int, str]
    closed: set[int]
    records: dict[int, str]
    codes: dict[str, set[str]]
    lifted: set[str]
    by_ref: dict[str, dict[str, int]] = field(default_factory=dict)

    def number(self, what: str, ref: str) -> int | None:
        """Returns the number of the aggregation or record that has this ref."""
        return self.by_ref[what].get(ref)

    def ref(self, what: str, number: int) -> str | None:
        return (self.aggregations if what == "aggregation" else self.records).get(number)


def part(folder: pathlib.Path, name: str) -> Part:
    """Reads a file of the catalogue in a folder."""
    places = (file_in(folder / "now", name), file_in(folder, name))
    file = next((place for place in places if place is not None), None)
    if file is None:
        why = f"there is no {name}.json.gz of a catalogue in {folder}: office-catalogue makes it"
        raise Unreadable("catalogue", why)
    try:
        return part_of(data_of(file), name)
    except FAILURES as why:
        raise Unreadable("catalogue", f"{file} is no part of a catalogue: {why}") from why


def catalogue_in(folder: pathlib.Path) -> Catalogue:
    """Reads the catalogue in a folder, all of one moment."""
    parts = {name: part(folder, name) for name in ("schedules", "classes", "aggregations", "holds", "records")}
    moments = {part.moment for part in parts.values()}
    if len(moments) > 1:
        raise Unreadable("catalogue", f"the parts of the catalogue in {folder} are of several moments: read it again")
    return catalogue_of({name: part.rows for name, part in parts.items()}, moments.pop())


def catalogue_of(rows: dict[str, list[Any]], moment: str = "") -> Catalogue:
    """Makes a catalogue of these rows of its files."""
    aggregations = {row["number"]: row["ref"] for row in rows["aggregations"]}
    records = {row[0]: row[1] for row in rows["records"]}
    by_ref = {"aggregation": {ref: number for number, ref in aggregations.items()},
              "record": {ref: number for number, ref in records.items()}}
    codes = {"schedule": "schedules", "class": "classes", "hold": "holds"}
    return Catalogue(moment, aggregations, {row["number"] for row in rows["aggregations"] if row["closed"]}, records,
                     {name: {row["code"] for row in rows[many]} for name, many in codes.items()},
                     {row["code"] for row in rows["holds"] if row["lifted"]}, by_ref)
