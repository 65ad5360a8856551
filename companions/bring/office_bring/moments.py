"""Days as other systems write them: a moment with a time zone has the day of the office's own place."""
from __future__ import annotations

import datetime
import re
from collections.abc import Iterable

from office_bring.ledger import Wrong
from office_common.errors import USAGE, Refused

CLOCK = r"\d{1,2}:\d{2}(?::\d{2}(?:\.\d+)?)?(?:\s?[AaPp]\.?[Mm]\.?)?"
ISO = re.compile(rf"(\d{{4}}-\d{{2}}-\d{{2}})(?:[T ]({CLOCK})?\s?(Z|[+-]\d{{2}}:?\d{{2}})?)?", re.ASCII)
DATE_WITH_ZONE = re.compile(r"(\d{4}-\d{2}-\d{2})(?:Z|[+-]\d{2}:\d{2})", re.ASCII)
"""xs:date with a time zone: it is a day and no moment, so the zone moves nothing"""
YEAR_LAST = re.compile(rf"(\d{{1,2}})[./-](\d{{1,2}})[./-](\d{{4}})(?:,?\s(?:at\s)?{CLOCK})?", re.ASCII)
ORDERS = ("dmy", "mdy")


def day_of(year: int, month: int, day: int) -> datetime.date | None:
    """Returns a day of the calendar, or None if there is no such day."""
    try:
        return datetime.date(year, month, day)
    except ValueError:
        return None


def in_order(text: str, order: str) -> datetime.date | None:
    """Returns the day of a text whose year is last, in an order of day and month."""
    match = YEAR_LAST.fullmatch(text)
    if match is None:
        return None
    first, second, year = (int(part) for part in match.groups())
    return day_of(year, second, first) if order == "dmy" else day_of(year, first, second)


class Days:
    """Reads days by a zone and an order, which are asked for only when a text needs them."""

    def __init__(self, zone: datetime.tzinfo | None, order: str | None) -> None:
        self.zone, self.order = zone, order

    def learn(self, texts: Iterable[str]) -> None:
        """Finds the order by which all texts with the year last are days, if no order is given."""
        written = {text for text in texts if YEAR_LAST.fullmatch(text)}
        if self.order is not None or not written:
            return
        orders = [order for order in ORDERS if all(in_order(text, order) for text in written)]
        unlike = [text for text in sorted(written) if in_order(text, "dmy") != in_order(text, "mdy")]
        if len(orders) == 1 or not unlike:
            self.order = (orders or ["dmy"])[0]
            return
        days = " or ".join(f"--days {order} for {in_order(unlike[0], order)}" for order in ORDERS)
        raise Refused(USAGE, f"\"{unlike[0]}\" may be two days, and no other day decides it: say {days}")

    def day(self, text: str) -> str:
        """Returns a day as 2020-12-31, of a day or a moment; an empty text gives an empty one."""
        text = text.strip()
        if not text:
            return ""
        if date := DATE_WITH_ZONE.fullmatch(text):
            return iso(text, date[1])
        if match := ISO.fullmatch(text):
            return self.at_place(text, match[1], match[2], match[3]) if match[3] else iso(text, match[1])
        read = in_order(text, self.order) if self.order else None
        if read is None:
            raise Wrong(f"\"{shown(text)}\" is not a day")
        return read.isoformat()

    def at_place(self, text: str, day: str, clock: str | None, zone: str) -> str:
        """Returns the day of a moment in the office's zone."""
        if self.zone is None:
            raise Refused(USAGE, f"\"{shown(text)}\" names a time zone, and has another day elsewhere: say --zone Europe/Berlin")
        offset = "+00:00" if zone == "Z" else f"{zone[:3]}:{zone[-2:]}"
        try:
            moment = datetime.datetime.fromisoformat(f"{day}T{clock or '00:00'}{offset}")
            return moment.astimezone(self.zone).date().isoformat()
        except (ValueError, OverflowError):
            raise Wrong(f"\"{shown(text)}\" is not a day") from None

    def day_of_stamp(self, seconds: float) -> str:
        """Returns the day of a moment of the file system."""
        if self.zone is None:
            raise Refused(USAGE, "files have moments, and a moment has another day elsewhere: say --zone Europe/Berlin")
        try:
            return datetime.datetime.fromtimestamp(seconds, self.zone).date().isoformat()
        except (ValueError, OverflowError, OSError):
            raise Wrong("its last change is no day of the calendar") from None


def iso(text: str, day: str) -> str:
    """Returns a day that is written as one, or refuses what is none of the calendar."""
    if day_of(*(int(part) for part in day.split("-"))) is None:
        raise Wrong(f"\"{shown(text)}\" is not a day")
    return day


def shown(text: str) -> str:
    """Returns the beginning of a text, as a message shows it."""
    short = text if len(text) <= 40 else f"{text[:37]}..."
    return "".join(letter if letter.isprintable() else "?" for letter in short)
