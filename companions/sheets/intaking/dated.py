"""What a file says of its day: a picture by its EXIF, others by their names."""
from __future__ import annotations

import datetime
import re
import struct

# what a header or an EXIF may be read from
HEAD = 262_144
DATE_TAGS = (0x9003, 0x9004, 0x0132)
EXIF_POINTER = 0x8769


def picture_day(data: bytes) -> datetime.date | None:
    """Returns the day on which a picture was taken, by the EXIF of a JPEG; none where there is none."""
    if not data.startswith(b"\xff\xd8"):
        return None
    at = 2
    while at + 4 <= len(data) and data[at] == 0xFF:
        length = int.from_bytes(data[at + 2:at + 4], "big")
        part = data[at + 4:at + 2 + length]
        if data[at + 1] == 0xE1 and part.startswith(b"Exif\0\0"):
            return exif_day(part[6:])
        if length < 2:
            return None
        at += 2 + length
    return None


def exif_day(tiff: bytes) -> datetime.date | None:
    """Returns the first of its days: when it was taken, when it was digitized, when it was changed."""
    order = {b"II": "<", b"MM": ">"}.get(tiff[:2])
    if order is None or len(tiff) < 8:
        return None
    try:
        first = entries(tiff, struct.unpack(order + "I", tiff[4:8])[0], order)
        inner = entries(tiff, first[EXIF_POINTER], order) if EXIF_POINTER in first else {}
    except (struct.error, IndexError):
        return None
    for tag in DATE_TAGS:
        at = inner.get(tag, first.get(tag))
        found = re.match(rb"(\d{4}):(\d\d):(\d\d) ", tiff[at:at + 20]) if at else None
        if found and (day := day_of(*(int(it) for it in found.groups()))):
            return day
    return None


def entries(tiff: bytes, at: int, order: str) -> dict[int, int]:
    """Returns the entries of a directory: a number, or where the value is, under each tag."""
    count = struct.unpack(order + "H", tiff[at:at + 2])[0]
    found = {}
    for n in range(count):
        tag, _, _, value = struct.unpack(order + "HHII", tiff[at + 2 + 12 * n:at + 14 + 12 * n])
        found[tag] = value
    return found


def day_of(year: int, month: int, day: int) -> datetime.date | None:
    try:
        return datetime.date(year, month, day)
    except ValueError:
        return None


def named_day(fields: dict[str, str]) -> datetime.date | None:
    """The day that a pattern finds in a name: the group `day` as 2020-12-31 or 20201231, or year, month and day."""
    text = fields.get("day", "")
    found = re.fullmatch(r"(\d{4})[-_. ]?(\d\d)[-_. ]?(\d\d)", text)
    if found:
        return day_of(*(int(it) for it in found.groups()))
    if "year" in fields and "month" in fields and re.fullmatch(r"\d{1,2}", text):
        return day_of(int(fields["year"]), int(fields["month"]), int(text))
    return None
