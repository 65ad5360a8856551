"""Names of files that people can read and every system takes, made of refs and titles that may have any character."""
from __future__ import annotations

import re
import unicodedata

from transferring.kinds import Kind

# so many bytes of a ref, and of a title or the name of a file
LONGEST_REF, LONGEST_TITLE = 60, 90


def safe(text: str, longest: int) -> str:
    """Makes a part of a name: letters, digits, `.`, `_` and `-` of the text, in its composed form, cut at a letter."""
    kept = "".join(it if unicodedata.category(it)[0] in "LN" or it in "._-" else
                   it if unicodedata.category(it)[0] == "M" else "-" for it in unicodedata.normalize("NFC", text))
    short = re.sub(r"\.{2,}", ".", re.sub("-{2,}", "-", kept)).strip(".-_").encode()[:longest]
    # Windows takes no dot at the end, and a name that begins with one is hidden elsewhere
    return short.decode(errors="ignore").strip(".-_")


def without(text: str, ending: str) -> str:
    """Returns the text without an ending that the name gets anyway."""
    return text[:-len(ending)] if text.lower().endswith(ending) else text


def stem(number: int, ref: str, title: str) -> str:
    """Returns the name of a record without an ending. Its number comes first and keeps any two names apart."""
    parts = [f"{number:06}", safe(ref, LONGEST_REF), safe(title, LONGEST_TITLE)]
    # a record that is filed from a file has its name as ref and as title
    parts = parts[:2] if parts[2] == parts[1] else parts
    return "_".join(it for it in parts if it)


def record_name(number: int, ref: str, title: str, kind: Kind) -> str:
    """Returns the name of a record's content."""
    return stem(number, without(ref, kind.ending), without(title, kind.ending)) + kind.ending


def file_name(at: int, place: str, kind: Kind) -> str:
    """Returns the name of a large file: its place among the files of its record, and the end of its own name."""
    shown = "" if place.startswith("vault:") else re.split(r"[/\\]", place)[-1]
    own = safe(without(shown, kind.ending), LONGEST_TITLE)
    return "_".join(it for it in (f"{at:04}", own) if it) + kind.ending
