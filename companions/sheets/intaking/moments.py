"""Moments as headers state them: the day of each, where it was written or at a place that is asked for."""
from __future__ import annotations

import datetime
import email.utils
import re
from typing import NamedTuple

# a moment has fewer bytes: more of them is not read
LONGEST = 200
# by RFC 5322 a moment in UTC that says nothing of the place
PLACELESS = re.compile(r"-0000(?!\d)")


class Stated(NamedTuple):
    """A day, and whether it is that of UTC though nobody asked for that: elsewhere it may be another."""

    day: datetime.date
    in_utc: bool


def stated_in(text: str, zone: datetime.tzinfo | None) -> Stated | None:
    """Returns the day of a moment in a zone, or without one that of its own zone; none if it cannot be read.

    A moment without a zone, or with the name of one that is not known, is the time of its own place.
    """
    cut = text[:LONGEST]
    try:
        moment = email.utils.parsedate_to_datetime(cut)
        if moment.tzinfo is None and PLACELESS.search(cut):
            moment = moment.replace(tzinfo=datetime.timezone.utc)
        if moment.tzinfo is None:
            return Stated(moment.date(), False)
        if zone is not None:
            return Stated(moment.astimezone(zone).date(), False)
        return Stated(moment.date(), not moment.utcoffset())
    except Exception:  # a moment that is none raises whatever its digits lead to
        return None


def day_at(seconds: float, zone: datetime.tzinfo | None) -> datetime.date:
    """Returns the day of a moment of the machine's clock, in a zone or in that of the machine."""
    return datetime.datetime.fromtimestamp(seconds, zone).date()


def today(zone: datetime.tzinfo | None) -> datetime.date:
    return datetime.datetime.now(zone).date()
