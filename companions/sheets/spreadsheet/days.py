"""Days as sheets write them, and in which order a column has day, month and year."""
from __future__ import annotations

import datetime
import re
from collections.abc import Iterable
from dataclasses import dataclass

from spreadsheet.sheet import Unreadable

ORDERS = {"dmy": "day, month, year", "mdy": "month, day, year", "ymd": "year, month, day"}
# a time behind a day is passed over
CLOCK = r"[ T]\d{1,2}:\d{2}(?::\d{2}(?:\.\d+)?)?(?: ?[AaPp][Mm])?"
TIME = rf"(?:{CLOCK})?"
# unless it is the time of a zone that the cell names: the day depends on the place then
ZONED = re.compile(rf"\d{{1,4}}[./-] ?\d{{1,2}}[./-] ?\d{{1,4}}\.?{CLOCK} ?(?:[Zz]|[+-]\d{{2}}:?\d{{2}})", re.ASCII)
MOMENT = re.compile(r"(\d{4}-\d{2}-\d{2})[ T](\d{2}:\d{2})(?::\d{2}(?:\.\d+)?)? ?(?:[Zz]|([+-]\d{2}):?(\d{2}))", re.ASCII)
YEAR_FIRST = re.compile(rf"(\d{{4}})([./-]) ?(\d{{1,2}})\2 ?(\d{{1,2}})\.?{TIME}", re.ASCII)
YEAR_LAST = re.compile(rf"(\d{{1,2}})([./-]) ?(\d{{1,2}})\2 ?(\d{{4}}){TIME}", re.ASCII)
SHORT_YEAR = re.compile(rf"(\d{{1,2}})([./-]) ?(\d{{1,2}})\2 ?(\d{{1,2}}){TIME}", re.ASCII)
SERIAL = re.compile(r"([1-9]\d{4})(?:[.,]\d+)?", re.ASCII)
FIRST_SERIAL = datetime.date(1899, 12, 30)
LAST_YEAR = 2999


@dataclass(frozen=True)
class Order:
    """The order of a column, and the cell that shows it, where one does."""

    name: str
    shown: str | None


def day(year: int, month: int, day_of_month: int) -> datetime.date | None:
    try:
        made = datetime.date(year, month, day_of_month)
    except ValueError:
        return None
    return made if made.year <= LAST_YEAR else None


def at_place(text: str, zone: datetime.tzinfo | None) -> str:
    """The day of a moment in a zone; a text that is no moment, or a moment without a zone to see it from, as it is."""
    it = MOMENT.fullmatch(text) if zone else None
    if it is None:
        return text
    try:
        moment = datetime.datetime.strptime(f"{it[1]} {it[2]} {it[3] or '+00'}{it[4] or '00'}", "%Y-%m-%d %H:%M %z")
        return moment.astimezone(zone).date().isoformat()
    except (ValueError, OverflowError):
        return text


def readings(text: str, first_year: int | None) -> dict[str, datetime.date]:
    """The days that a text may mean, by the order in which it is read. Two digits mean one of the hundred years from
    `first_year` on, and nothing where there is none."""
    found: dict[str, datetime.date | None] = {}
    if it := YEAR_FIRST.fullmatch(text):
        found["ymd"] = day(int(it[1]), int(it[3]), int(it[4]))
    elif it := YEAR_LAST.fullmatch(text):
        found["dmy"] = day(int(it[4]), int(it[3]), int(it[1]))
        found["mdy"] = day(int(it[4]), int(it[1]), int(it[3]))
    elif first_year is not None and (it := SHORT_YEAR.fullmatch(text)):
        first, second, third = (int(it[n]) for n in (1, 3, 4))
        if len(it[4]) == 2:
            found["dmy"] = day(long_year(third, first_year), second, first)
            found["mdy"] = day(long_year(third, first_year), first, second)
        if len(it[1]) == 2:
            found["ymd"] = day(long_year(first, first_year), second, third)
    return {order: it for order, it in found.items() if it is not None}


def long_year(short: int, first_year: int) -> int:
    return first_year + (short - first_year) % 100


def order_of(cells: Iterable[tuple[str, str]], asked: str | None, first_year: int | None) -> Order:
    """Returns the one order by which all cells are days that are days by any. Cells come with their places.

    Where no order does it, or several do and one cell means another day by each, somebody must say which. So must
    somebody say at which place the day of a moment is.
    """
    cells = list(cells)
    for where, text in cells:
        if ZONED.fullmatch(text):
            raise Unreadable("zone", f"{where}: \"{text}\" names a time zone, and its day is another one elsewhere: say "
                             "--zone Europe/Berlin for the days there, and write it as 2020-12-31T23:30:00Z")
    if asked:
        return Order(asked, None)
    fits, shown = list(ORDERS), None
    seen: list[tuple[str, str, dict[str, datetime.date]]] = []
    for where, text in cells:
        read = readings(text, first_year)
        if not read or YEAR_FIRST.fullmatch(text):
            continue
        left = [it for it in fits if it in read]
        if not left:
            above = shown or seen[0][1]
            raise Unreadable("mixed", f"{where}: \"{text}\" has another order than the days above it, as {above}: "
                             "say --days dmy, mdy or ymd, and correct the other cells")
        if len(left) < len(fits):
            shown = f"{text} in {where}"
        fits = left
        seen.append((where, text, read))
    doubtful = next((it for it in seen if len({it[2][order] for order in fits}) > 1), None)
    if doubtful:
        raise Unreadable("doubtful", why_doubtful(*doubtful, fits))
    return Order(fits[0] if seen else "ymd", shown if len(fits) == 1 else None)


def why_doubtful(where: str, text: str, read: dict[str, datetime.date], fits: list[str]) -> str:
    meant = " or ".join(str(read[it]) for it in fits)
    words = " or ".join(f"--days {it} for {read[it]}" for it in fits)
    return f"{where}: \"{text}\" may be {meant}, and no day of the column decides it: say {words}"


def day_read(text: str, order: str, first_year: int | None) -> datetime.date | None:
    """Returns the day that a text means in a column of that order. Four digits of a year in front need none."""
    read = readings(text, first_year)
    return read.get("ymd") if YEAR_FIRST.fullmatch(text) else read.get(order)


def why_no_day(text: str, order: str, first_year: int | None) -> tuple[str, str]:
    """What is wrong with a text that is not a day in a column of that order: its kind, and a text."""
    if not text:
        return "dayless", "there is not a day"
    if readings(text, first_year):
        return "order", f"is not a day in the order {ORDERS[order]}"
    if YEAR_FIRST.fullmatch(text) or YEAR_LAST.fullmatch(text) or (first_year and SHORT_YEAR.fullmatch(text)):
        return "calendar", f"is not a day of the calendar from 0001-01-01 to {LAST_YEAR}-12-31"
    if SHORT_YEAR.fullmatch(text):
        why = "has two digits of the year: give the column a form with four, or say --years 1930 for 1930 to 2029"
        return "short", why
    if it := SERIAL.fullmatch(text):
        meant = FIRST_SERIAL + datetime.timedelta(days=int(it[1]))
        return "serial", f"is the number by which a sheet stores {meant}: give the column the form of a day"
    return "day", "is not a day: write it as 2020-12-31"
