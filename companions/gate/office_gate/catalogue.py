"""The aggregations that the catalogue's copy names: the office itself has no path for them."""
import datetime
import gzip
import json
import re
from dataclasses import dataclass, field
from pathlib import Path

from office_common import catalogue
from office_common.catalogue import FAILURES, Part

Places = dict[tuple[int, str], int]
"""the aggregations of records, by number and ref"""
RECORD = re.compile(r",?(\[([1-9][0-9]*),.*\])")
"""a line of the catalogue that is a record: number, ref, title, aggregation and status"""


@dataclass
class Aggregations:
    """Of each aggregation the one that it is in, and its own class; and up to which line of the journal that is so."""

    moment: float = 0.0
    line: int = 0
    parents: dict[int, int | None] = field(default_factory=dict)
    classes: dict[int, str | None] = field(default_factory=dict)
    open_runs: dict[int, str] = field(default_factory=dict)

    def add(self, number: int, parent: int | None, code: str | None) -> None:
        self.parents[number], self.classes[number] = parent, code

    def chain(self, number: int | None) -> list[int]:
        """Lists an aggregation and all that it lies in, the nearest first."""
        numbers: list[int] = []
        while number is not None and number in self.parents and number not in numbers:
            numbers.append(number)
            number = self.parents[number]
        return numbers

    def is_known(self, number: int | None) -> bool:
        """Returns whether all that an aggregation lies in is known."""
        chain = self.chain(number)
        return bool(chain) and self.parents[chain[-1]] is None

    def class_of(self, number: int | None) -> str | None:
        """Returns the class in effect, or None if nobody knows it."""
        for containing in self.chain(number):
            if self.classes[containing] is not None:
                return self.classes[containing]
        return None


def moment_of(part: Part) -> float:
    """Returns the moment of a file of the catalogue, as seconds."""
    return datetime.datetime.fromisoformat(part.moment.replace("Z", "+00:00")).timestamp()


def read(folder: Path) -> Aggregations:
    """Reads which aggregations a catalogue has, and the runs that are open."""
    part = catalogue.read(folder, "aggregations")
    aggregations = Aggregations(moment_of(part))
    for row in part.rows:
        aggregations.add(row["number"], row["parent"], row["class"])
    aggregations.open_runs = {run["number"]: run["by"] for run in catalogue.read(folder, "runs").rows
                              if not run["closed"]}
    return aggregations


class Catalogue:
    """The catalogue in a folder, whose link `now` leads to the newest; read anew once that link leads elsewhere."""

    def __init__(self, folder: Path | None) -> None:
        self.folder = folder
        self.source = ""
        self.known = Aggregations()

    def now(self) -> Path | None:
        """Returns the folder of the catalogue that was read last, or None if there is none."""
        return Path(self.source) if self.source else None

    def read(self) -> tuple[Aggregations, bool]:
        """Returns what is known, and whether it is new."""
        if self.folder is None:
            return self.known, False
        try:
            at = (self.folder / "now").resolve(strict=True)
            if str(at) == self.source:
                return self.known, False
            self.known = read(at)
        except FAILURES:
            return self.known, False
        self.source = str(at)
        return self.known, True

    def places(self, wanted: dict[int, str]) -> Places:
        """Returns the aggregations of records that have the refs that the office reports. It runs beside the loop."""
        places: Places = {}
        if self.folder is None:
            return places
        try:
            with gzip.open(self.folder / "now/records.json.gz", "rt", encoding="utf-8") as lines:
                for line in lines:
                    row = RECORD.match(line)
                    if not row or int(row[2]) not in wanted:
                        continue
                    number, ref, _, aggregation, _ = json.loads(row[1])
                    if wanted[number] == ref:
                        places[number, ref] = aggregation
        except FAILURES:
            # the office is asked
            return {}
        return places
