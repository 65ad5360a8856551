"""What each cell is for an act: the value of its member, or why it is wrong. The forms are those of docs/ACTS.md."""
from __future__ import annotations

import datetime
import re
from dataclasses import dataclass

from spreadsheet.catalogue import Catalogue
from spreadsheet.cells import LARGEST_NUMBER, Wrong, code_of, text_of
from spreadsheet.kinds import LONGEST, WORDS, word_named

FIRST_USUAL_YEAR = 1800


@dataclass(frozen=True)
class Pending:
    """The number of an aggregation that the same sheet adds: the office gives it with the answer."""

    ref: str


def word_of(member: str, cell: str) -> str:
    """Returns the word of a member, as trigger or unit."""
    word = word_named(member, cell)
    if word is None:
        raise Wrong("word", f"is none of {', '.join(WORDS[member])}" if cell else "the cell is empty")
    return word


def count_of(cell: str, unit: str | None) -> int:
    """Returns the length of a period, up to the most of its unit."""
    if not re.fullmatch("[0-9]{1,9}", cell):
        raise Wrong("count", "is not a whole number in digits" if cell else "the cell is empty")
    if unit and int(cell) > LONGEST[unit]:
        raise Wrong("limit", f"is more than {LONGEST[unit]:,} {unit}")
    return int(cell)


def needed_code(cell: str) -> str:
    if not cell:
        raise Wrong("empty", "the cell is empty")
    return code_of(cell)


def digest_of(cell: str) -> str:
    """Returns a digest; capital digits, as Windows writes them, become small ones."""
    if not re.fullmatch("[0-9A-Fa-f]{64}", cell):
        raise Wrong("digest", f"is no SHA-256: its length is {len(cell)}, and that of a SHA-256 is 64 characters, of 0 to 9 and a to f"
                    if cell else "the cell is empty")
    return cell.lower()


def without_guard(ref: str) -> str:
    """Returns a ref without the apostrophe that the page's CSV puts before what a spreadsheet program would compute."""
    return ref[1:] if re.match("'[=+\\-@\t\r\n\uff1d\uff0b\uff0d\uff20]", ref) else ref


class Things:
    """Numbers of records and aggregations by what cells say: a number, or a ref that the catalogue has."""

    def __init__(self, catalogue: Catalogue | None) -> None:
        self.catalogue = catalogue
        # the codes and refs that the sheets themselves add
        self.added: dict[str, set[str]] = {"schedule": set(), "class": set(), "hold": set(), "aggregation": set()}

    def number(self, what: str, cell: str, ref: str = "") -> int | Pending:
        """Returns the number of a thing; where a row has its ref too, the catalogue must have that ref for it."""
        if not cell and not ref:
            raise Wrong("nothing", f"there is neither a number nor a ref of the {what}")
        if not cell:
            return self.by_ref(what, ref)
        if not re.fullmatch("[0-9]+", cell):
            return self.by_ref(what, cell)
        named = self.catalogue.number(what, cell) if self.catalogue else None
        if named is not None and str(named) != cell:
            raise Wrong("both", f"is a number, and it is the ref of {what} {named} too: write one in the column {what}, "
                        f"or the other in the column ref")
        if cell.startswith("0") or int(cell) > LARGEST_NUMBER:
            raise Wrong("range", f"is not a number from 1 to {LARGEST_NUMBER:,} without zeros in front")
        there = self.catalogue.ref(what, int(cell)) if self.catalogue else None
        if ref and there is not None and there not in (ref, without_guard(ref)):
            raise Wrong("otherRef", f"has the ref {there} in the catalogue, and not {ref}")
        return int(cell)

    def by_ref(self, what: str, ref: str) -> int | Pending:
        text_of(ref)
        for text in (ref, without_guard(ref)):
            number = self.catalogue.number(what, text) if self.catalogue else None
            if number is not None:
                return number
        if what == "aggregation" and ref in self.added[what]:
            return Pending(ref)
        if self.catalogue is None:
            raise Wrong("noCatalogue", "is a ref: say --catalogue DIR, so that its number is looked up")
        raise Wrong("noRef", f"is the ref of no {what} in the catalogue of {self.catalogue.moment}")

    def target(self, cells: dict[str, str], can_be_class: bool) -> str:
        """What a hold is put on, or what gets another class, by the one cell that says it."""
        there = {name: cell for name, cell in cells.items() if cell}
        if not there:
            raise Wrong("nothing", "there is no target: no number, ref or code")
        if len(there) > 1 and set(there) != {"record", "ref"}:
            other = next((name for name in there if name not in ("record", "ref")), "ref")
            raise Wrong("several", f"has several targets: {', '.join(there)}; write one, or say --without {other}")
        if "target" in there:
            kind, colon, name = there["target"].partition(":")
            if not colon or kind not in ("class", "aggregation", "record"):
                raise Wrong("target", "is no target: write record:5, aggregation:7 or class:FIN")
            there = {kind: name}
        if "class" in there:
            if not can_be_class:
                raise Wrong("target", "is a class, and only a record or an aggregation gets another class")
            return f"class:{needed_code(there['class'])}"
        what = "aggregation" if "aggregation" in there else "record"
        return f"{what}:{self.number(what, there.get(what, ''), there.get('ref', ''))}"

    # ---- what somebody should look at

    def look(self, what: str, number: object, kind: str) -> tuple[str, str] | None:
        """Returns whether a number is that of a thing which the catalogue has, and open."""
        if self.catalogue is None or not isinstance(number, int):
            return None
        if self.catalogue.ref(what, number) is None:
            return "notThere", f"is no {what} in the catalogue of {self.catalogue.moment}"
        if what == "aggregation" and number in self.catalogue.closed and kind != "reclassify":
            return "closed", "is closed, by the catalogue"
        return None

    def look_code(self, what: str, code: str, is_new: bool) -> tuple[str, str] | None:
        """Returns whether a code is there, or is not there where it is to be new."""
        if self.catalogue is None or not code:
            return None
        is_there = code in self.catalogue.codes[what]
        if is_new:
            return ("exists", f"is the code of a {what} already, by the catalogue") if is_there else None
        if what == "hold" and code in self.catalogue.lifted:
            return "lifted", "is a hold that was lifted, by the catalogue"
        if is_there or code in self.added[what]:
            return None
        return "notThere", f"is no {what} in the catalogue of {self.catalogue.moment}"


def look_day(day: datetime.date, today: datetime.date, act: datetime.date | None) -> tuple[str, str] | None:
    """What somebody should look at in a day of the past: one that has not come, that is long ago, or after the act's."""
    if day > today:
        return "future", f"is after today, {today}"
    if act is not None and day > act:
        return "later", f"is after the day of the act, {act}"
    if day.year < FIRST_USUAL_YEAR:
        return "old", f"is before {FIRST_USUAL_YEAR}"
    return None
