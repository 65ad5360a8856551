"""Takes the lines of a journal into what the gate knows."""
import datetime
import re
from collections.abc import Iterator
from pathlib import Path

from office_gate.body import Json
from office_gate.chain import Head, Line, digest, entry_of, files_of, first_number, lines_of
from office_gate.facts import Facts

NUMBER = re.compile(rb'\{"before":"[0-9a-f]{64}","line":(\d{1,15}),')


def seconds(at: object) -> float:
    return datetime.datetime.fromisoformat(str(at)).timestamp()


def number_of(line: Line) -> int:
    match = NUMBER.match(line.data)
    return int(match[1]) if match else 0


def is_of(files: list[Path], head: Head) -> bool:
    """Returns whether the journal has this very line."""
    for path, after in zip(files, [*files[1:], None]):
        if after is None or first_number(after) > head.line:
            return any(number_of(it) == head.line and digest(it.data) == head.sha256 for it in lines_of(path))
    return False


def lines_after(files: list[Path], last: int) -> Iterator[Json]:
    """Gives the entries of the lines after that one."""
    for path, after in zip(files, [*files[1:], None]):
        if after is not None and first_number(after) <= last:
            continue
        for line in lines_of(path):
            if number_of(line) > last and (entry := entry_of(line)):
                yield entry


def known_line(files: list[Path], facts: Facts) -> int:
    """Returns up to which line the facts have all; what was made from another journal is forgotten."""
    at = facts.folded()
    if at is not None and is_of(files, at):
        return at.line
    facts.forget()
    return 0


def unanswered(journal: Path, facts: Facts) -> list[int]:
    """Lists the lines of what was asked and never answered, as an end of the gate leaves it."""
    files = files_of(journal)
    waiting: dict[int, Json] = {}
    for entry in lines_after(files, known_line(files, facts)):
        if entry.get("what") == "asked":
            waiting[int(entry["line"])] = entry
        elif entry.get("what") == "answered":
            waiting.pop(int(entry["of"]), None)
    return sorted(waiting)


def catch_up(journal: Path, facts: Facts, end: Head) -> None:
    """Takes all lines that the facts lack, in one transaction."""
    files = files_of(journal)
    last = known_line(files, facts)
    requests: dict[int, Json] = {}
    facts.begin()
    for entry in lines_after(files, last):
        if entry.get("what") == "asked":
            requests[int(entry["line"])] = entry
        elif entry.get("what") == "answered" and (request := requests.pop(int(entry["of"]), None)):
            facts.fold(request, entry, int(entry["of"]), seconds(entry["at"]))
        elif entry.get("what") == "stored":
            facts.files.take(entry, seconds(entry["at"]))
    facts.commit(end)
