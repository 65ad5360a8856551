"""The oracle of the forged requests: who is stated by the bytes of a head, and what that name may do."""
from __future__ import annotations

import datetime
import re
import unicodedata

from command_trial.forging import Forged
from command_trial.served import DAY, SECRET, TOKEN, Answer, denied, stopped

FIELD = re.compile(rb"([!#$%&'*+.^_`|~0-9A-Za-z-]+):([\t\x20-\x7e\x80-\xff]*)")
HEAD = Answer(400, {"error": "head"})
MOST_TEXT = 200
RIGHTS = {"keeper": "add-schedule", "filer": "add-schedule", "reader": "read", "twin": "none"}
"""the names of the settings; every other name has the role of `*`, which may add a schedule, and reads nothing"""
SIGNS = {"twin": "Twin Text"}
SETTINGS = """role keeper may add-schedule run-step resume
role keeper reads records certificates lists
role reader reads records certificates lists
role none reads health
role guest may add-schedule
name keeper is keeper
name filer is keeper
name reader is reader
name twin is none
name twin signs Twin Text
name * is guest
"""


Fields = list[tuple[bytes, bytes]]
"""field lines, each with its name in small letters and its value"""


def parted(data: bytes) -> tuple[Fields, bytes] | None:
    """Reads the field lines of a head, by RFC 9112, and the bytes after it; None if there is no head."""
    fields: Fields = []
    _, _, rest = data.partition(b"\n")
    while rest:
        line, _, rest = rest.partition(b"\n")
        line = line.removesuffix(b"\r")
        if not line:
            return fields, rest
        field = FIELD.fullmatch(line)
        if field is None:
            return None
        fields.append((field[1].lower(), field[2].strip(b" \t")))
    return None


def one(fields: Fields, name: bytes) -> str | None:
    """Returns the value of the one line of that name, if there is one line and it is UTF-8."""
    values = [value for it, value in fields if it == name]
    try:
        return values[0].decode() if len(values) == 1 else None
    except UnicodeDecodeError:
        return None


def look_of(text: str) -> str:
    """Returns how a text looks, whatever its case and the forms of its letters."""
    return unicodedata.normalize("NFKC", unicodedata.normalize("NFKC", text).casefold())


def is_text(text: str | None) -> bool:
    """Reports whether the office takes a text: of 1 to 200 bytes, with no control character."""
    return text is not None and 0 < len(text.encode()) <= MOST_TEXT and \
        not any(unicodedata.category(it) == "Cc" for it in text)


def is_day(text: str | None) -> bool:
    """Reports whether a text is a day of the office."""
    try:
        day = datetime.date.fromisoformat(text or "")
    except ValueError:
        return False
    return day.isoformat() == text and day.year < 3000


def rights_of(name: str) -> str | None:
    """Returns what a name may do; None for one that looks like another name, or like what that name signs."""
    if name in RIGHTS:
        return RIGHTS[name]
    taken = {look_of(it) for it in (*RIGHTS, *SIGNS.values())}
    return None if look_of(name) in taken else "guest"


def person_in(fields: Fields) -> tuple[str | None, str] | None:
    """Returns the rights of the name that is stated, and the day; None if nobody is stated."""
    token, name, day = (one(fields, it) for it in (b"office-token", b"office-name", b"office-day"))
    if token != SECRET or not is_text(name) or not is_text(look_of(name or "")) or not is_day(day):
        return None
    return rights_of(name or ""), day or ""


def cut_answer(forged: Forged, fields: Fields, rest: bytes) -> Answer | None:
    """Returns the answer to a head that a line feed in a value ended too early; None if the head is whole."""
    if one(fields, b"host") is None:
        return Answer(400, {"error": "host"})
    if forged.path != b"/acts":
        return None
    length = one(fields, b"content-length")
    if length is None:
        return Answer(411, {"error": "length"})
    return None if rest[:int(length)] == forged.body else Answer(400, {"error": "json"})


def answer_to(forged: Forged) -> Answer:
    """Returns the whole answer to a request, at an office without records, without a run and without certificates."""
    head = parted(forged.data())
    if head is None:
        return HEAD
    person = person_in(head[0])
    if person is None:
        return Answer(403, TOKEN)
    if (wrong := cut_answer(forged, *head)) is not None:
        return wrong
    rights, day = person
    if forged.path == b"/acts":
        return answer_to_act(rights, day)
    if rights is None:
        return Answer(403, denied("name"))
    if forged.path == b"/run/resume":
        return Answer(409, {"refused": 18}) if rights == "add-schedule" else Answer(403, denied("right"))
    if rights not in ("add-schedule", "read"):
        return Answer(403, denied("right"))
    empty = {b"/records/1": Answer(404, {"error": "record"}), b"/certificates/1": Answer(404, {"error": "certificate"})}
    return empty.get(forged.path, Answer(200, []))


def answer_to_act(rights: str | None, day: str) -> Answer:
    if rights is None:
        return stopped([], "name")
    if rights not in ("add-schedule", "guest"):
        return stopped([], "right")
    return stopped([], "future") if DAY > day else Answer(200, [{"done": True}])
