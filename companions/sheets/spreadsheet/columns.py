"""Which column of a sheet is which column of an import or of an act, by the names in its header."""
from __future__ import annotations

import re
from collections.abc import Collection, Mapping
from dataclasses import dataclass

from spreadsheet.sheet import NEAR_TOP, Row, Unreadable, letters

NAMES = ["ref", "title", "originated", "aggregation", "class", "schedule", "content"]
NEEDED = ["ref", "title", "originated", "aggregation"]
# Other names that sheets have for them, as `plain` makes them: in English, then in German. The labels of the
# page in both languages are among them. page/sheet/columns.js has the same, and tests/import/cases tries each.
SYNONYMS: dict[str, list[str]] = {
    "ref": ["reference", "reference no", "reference number", "ref no", "file no", "file number", "record no",
            "aktenzeichen", "az", "geschäftszeichen", "signatur", "kennzeichen"],
    "title": ["name", "subject", "titel", "betreff", "bezeichnung"],
    "originated": ["date", "day", "document date", "date of document", "originated on",
                   "datum", "entstanden", "entstanden am", "entstehungsdatum"],
    "aggregation": ["aggregation no", "aggregation number", "number of the aggregation", "folder no", "folder number",
                    "akte", "akte nr", "akten nr", "aktennummer", "nummer der akte"],
    "class": ["class code", "code of the class", "classification",
              "klasse", "kennung der klasse", "klassifikation", "aktenplan"],
    "schedule": ["schedule code", "code of the schedule", "schedule of its own", "disposal schedule",
                 "retention schedule", "regel", "kennung der regel", "eigene regel", "aufbewahrungsregel", "frist",
                 "aufbewahrungsfrist"],
    "content": ["inhalt"],
}


@dataclass(frozen=True)
class Form:
    """The columns that rows of one kind have: those that each sheet needs, and those of which it needs one."""

    names: list[str]
    needed: list[str]
    either: list[str]
    synonyms: Mapping[str, list[str]]

    def column_named(self, name: str) -> str | None:
        """Returns the column that a name of a header is for; its own name comes before another column's synonym."""
        word = plain(name)
        own = next((it for it in self.names if word == plain(it)), None)
        return own or next((it for it in self.names if word in self.synonyms.get(it, [])), None)

    def known(self, header: list[str]) -> int:
        """How many names of a header are known."""
        return sum(self.column_named(it) is not None for it in header)

    def missing(self, there: Collection[str]) -> list[str]:
        """Returns the columns that are needed and not there; of those of which one is needed, all if none is there."""
        either = [] if any(it in there for it in self.either) else self.either
        return [*either, *(it for it in self.needed if it not in there)]


RECORD = Form(NAMES, NEEDED, [], SYNONYMS)


@dataclass(frozen=True)
class Columns:
    """Where each column of a form is in the sheet, counted from 0, or the value that all rows have."""

    places: dict[str, int]
    values: dict[str, str]
    header: list[str]
    form: Form = RECORD

    def nameless(self, width: int) -> list[int]:
        """Returns the places of a row with so many cells for which the header has no name."""
        used = set(self.places.values())
        return [at for at in range(width) if at not in used and (at >= len(self.header) or not self.header[at].strip())]

    def unused(self) -> list[str]:
        used = set(self.places.values())
        return [f"{letters(at)} \"{it.strip()}\"" for at, it in enumerate(self.header) if at not in used and it.strip()]

    def empty(self) -> list[str]:
        return [it for it in self.form.names if it not in self.places and it not in self.values]

    def summary(self) -> str:
        names = {name: self.header[at].strip() for name, at in self.places.items()}
        found = [f"{name} {letters(at)}" + ("" if names[name] == name else f" \"{names[name]}\"")
                 for name, at in self.places.items()]
        found += [f"{name} is {value} in each row" for name, value in self.values.items()]
        parts = [", ".join(found)]
        empty = [it for it in self.empty() if it != "day"]
        parts += [f"not in the sheet, left empty: {', '.join(empty)}"] if empty else []
        parts += [f"not used: {', '.join(self.unused())}"] if self.unused() else []
        return "; ".join(parts)


def plain(name: str) -> str:
    """Returns a name without capitals, marks and doubled spaces."""
    return re.sub(r"[\s_.:\-]+", " ", name.casefold()).strip()


def place_of(name: str, header: list[str]) -> int:
    """The place of a column that the caller names by its header or, where none has that name, by its letters."""
    found = [at for at, it in enumerate(header) if plain(it) == plain(name)]
    found = found or [at for at in range(len(header)) if letters(at) == name]
    if len(found) != 1:
        many = "two columns are" if found else "no column is"
        raise Unreadable("name", f"{many} named \"{name}\"; the header has {names_of(header)}")
    return found[0]


def names_of(header: list[str]) -> str:
    return ", ".join(f"{letters(at)} \"{it.strip()}\"" for at, it in enumerate(header))


Words = Mapping[str, str]


def columns_of(rows: list[Row], number: int, mapped: Words, values: Words, form: Form = RECORD) -> Columns:
    """The columns by the header in row `number`: those that the caller maps, then those whose names are known."""
    header = rows[number - 1].cells if number <= len(rows) else []
    places = {name: place_of(mapped[name], header) for name in form.names if name in mapped}
    for at, cell in enumerate(header):
        name = form.column_named(cell)
        if name is None or name in mapped or name in values or at in places.values():
            continue
        if name in places:
            both = f"{letters(places[name])} and {letters(at)}"
            raise Unreadable("both", f"{both} may both be the column {name}: say --column {name}={letters(at)}")
        places[name] = at
    if form.missing([*places, *values]):
        raise Unreadable(*why_missing(rows, number, header, form, [*places, *values]))
    return Columns({it: places[it] for it in form.names if it in places}, dict(values), header, form)


def why_missing(rows: list[Row], number: int, header: list[str], form: Form, found: list[str]) -> tuple[str, str]:
    missing = form.missing(found)
    better = next((row for row in rows[:NEAR_TOP] if form.known(row.cells) > max(form.known(header), 1)), None)
    if better:
        why = f"row {number} is no header, but row {better.number} looks like one: say --header {better.number}"
        return "header", why
    same = ", or --set aggregation=1 for the same in each row" if "aggregation" in missing else ""
    there = names_of(header) or "nothing"
    either = [" or ".join(form.either)] if missing[:1] == form.either[:1] and form.either else []
    words = [*either, *missing[len(form.either) if either else 0:]]
    why = f"no column for {', '.join(words)} in row {number}, which has {there}"
    return "missing", f"{why}: say --column {missing[0]}=HEADER{same}"
