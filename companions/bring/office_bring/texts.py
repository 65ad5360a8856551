"""Refs and titles within the lengths that an office takes: what is changed is noted with its whole text."""
from __future__ import annotations

import hashlib
import re

from office_common.facts import LIMITS

LONGEST = LIMITS["text"]
UNSHOWN = re.compile("[\x00-\x1f\x7f-\x9f]+")
DIGITS = 16
"""hexadecimal digits of a SHA-256 at the end of a ref that is cut, so that two long refs stay two"""


def in_bytes(text: str, most: int) -> str:
    """Returns the beginning of a text that has at most so many bytes of UTF-8."""
    return text.encode()[:most].decode(errors="ignore")


def in_one_line(text: str) -> str:
    """Returns a text with a space in place of line breaks and other control characters."""
    return UNSHOWN.sub(" ", text).strip()


def title(text: str) -> str:
    """Returns a title in one line, cut to the length of a text."""
    return in_bytes(in_one_line(text), LONGEST).strip()


def ref(text: str) -> str:
    """Returns a ref in one line. One that is too long, or has other characters, ends with a part of its digest."""
    plain = in_one_line(text)
    if plain == text and len(plain.encode()) <= LONGEST:
        return plain
    end = f"~{hashlib.sha256(text.encode()).hexdigest()[:DIGITS]}"
    return in_bytes(plain, LONGEST - len(end)).rstrip() + end
