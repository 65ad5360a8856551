"""The check of a journal: each line follows the one before, the first one is there, and heads that were kept fit."""
import datetime
import re
from collections.abc import Iterable
from dataclasses import dataclass, field
from pathlib import Path

from office_gate.body import Json, text_of
from office_gate.chain import NONE, START, Head, Line, digest, entry_of, lines_of, torn
from office_gate.errors import Refused

HEAD = re.compile(r"\b(\d{1,15}):([0-9a-f]{64})\b")
MOST_BACK = 60.0
"""by more seconds than these no time stamp may be before that of the line before"""


@dataclass
class Checked:
    """What a check of a journal saw."""

    first: int = 0
    head: Head = START
    lines: int = 0
    rest: bytes | None = None
    # the heads that were compared with their lines, and those whose lines are not here any more
    met: list[Head] = field(default_factory=list)
    missed: list[Head] = field(default_factory=list)
    # time stamps that go back, each with its lines
    falls: list[str] = field(default_factory=list)
    moment: float | None = None


def heads_in(text: str) -> set[Head]:
    """Reads heads that were written down: each LINE:SHA256 of a text."""
    return {Head(int(line), sha256) for line, sha256 in HEAD.findall(text) if int(line)}


def check(files: list[Path], known: Iterable[Head] = (), starts: Iterable[Head] = ()) -> Checked:
    """Follows the chain through all lines. Refused names the line at which it breaks, and how.

    `known` are heads that were written down elsewhere: by these a chain that somebody wrote anew, or cut at its end, is
    seen too. `starts` are heads of lines that were dropped: the first line may follow one of them.
    """
    checked, waiting, after = Checked(), numbered(known), set(starts)
    for path in files:
        for line in lines_of(path):
            entry = entry_of(line)
            if entry is None:
                checked.rest = line.data if checked.rest is None else checked.rest + b"\n" + line.data
                continue
            if checked.lines == 0:
                begin(line, entry, after)
                checked.first = int(entry["line"])
            else:
                follow(line, entry, checked)
            if checked.lines or checked.rest is not None:
                between(line, entry, checked)
            compare_times(line, entry, checked)
            checked.head = Head(int(entry["line"]), digest(line.data))
            checked.rest, checked.lines = None, checked.lines + 1
            compare_head(line, checked, waiting)
    checked.missed = [Head(line, head) for line, digests in sorted(waiting.items()) for head in sorted(digests)]
    if late := [head for head in checked.missed if head.line > checked.head.line]:
        raise Refused(1, f"line {late[0].line} was written down and is not there: the journal ends with line "
                         f"{checked.head.line}, so its end was cut")
    return checked


def numbered(heads: Iterable[Head]) -> dict[int, set[str]]:
    """Sorts heads by their lines. One line may have been written down in two ways, of which one is wrong."""
    by_line: dict[int, set[str]] = {}
    for head in heads:
        by_line.setdefault(head.line, set()).add(head.sha256)
    return by_line


def begin(line: Line, entry: Json, starts: set[Head]) -> None:
    """Refuses a first line that is not line 1, unless it follows a line that was dropped."""
    number = int(entry["line"])
    if number == 1:
        if entry["before"] != NONE:
            raise Refused(1, f"{line.where()}: this is line 1, but names a line before it")
        return
    if Head(number - 1, str(entry["before"])) in starts:
        return
    if any(it.line == number - 1 for it in starts):
        raise Refused(1, f"{line.where()}: line {number} follows another line {number - 1} than the one whose head is given")
    raise Refused(1, f"{line.where()}: the journal begins at line {number}: lines 1 to {number - 1} are not here"
                     f"{file_before(entry)}")


def file_before(entry: Json) -> str:
    """Says which file was before this one, if its first line names that."""
    after = entry.get("after")
    return f"; they ended with the file {after.get('file')} of {after.get('bytes')} bytes" if isinstance(after, dict) else ""


def follow(line: Line, entry: Json, checked: Checked) -> None:
    """Compares a line with the one before it."""
    number, before = int(entry["line"]), checked.head
    if number > before.line + 1:
        raise Refused(1, f"{line.where()}: after line {before.line} comes line {number}: lines were cut out")
    if number <= before.line:
        raise Refused(1, f"{line.where()}: after line {before.line} comes line {number}: a line was added or moved")
    if entry["before"] != before.sha256:
        raise Refused(1, f"{line.where()}: line {before.line} was changed: its SHA-256 is not the one that line "
                         f"{number} names")


def between(line: Line, entry: Json, checked: Checked) -> None:
    """Compares what lies before a line with what the line says of it."""
    wanted = None if checked.rest is None else text_of(torn(checked.rest))
    named = text_of(entry["torn"]) if "torn" in entry else None
    if named != wanted:
        raise Refused(1, f"{line.where()}: between line {checked.head.line} and line {entry['line']} are other bytes "
                         "than this line names: they were added, changed or cut")


def compare_times(line: Line, entry: Json, checked: Checked) -> None:
    """Notes a time stamp that is before that of the line before, and a line that has none."""
    moment = moment_of(entry)
    if moment is None:
        checked.falls.append(f"{line.where()}: line {entry['line']} has no time stamp")
        return
    if checked.moment is not None and moment < checked.moment - MOST_BACK:
        back = datetime.timedelta(seconds=round(checked.moment - moment))
        checked.falls.append(f"{line.where()}: line {entry['line']} is of {entry['at']}, {back} before line "
                             f"{checked.head.line}")
    checked.moment = moment


def moment_of(entry: Json) -> float | None:
    """Returns when a line was written, by the clock of the machine, in seconds; None if it does not say so."""
    try:
        return datetime.datetime.fromisoformat(str(entry.get("at"))).timestamp()
    except (ValueError, OverflowError):
        return None


def compare_head(line: Line, checked: Checked, waiting: dict[int, set[str]]) -> None:
    """Compares a line with the heads that were written down of it."""
    wanted = waiting.pop(checked.head.line, None)
    if wanted is None:
        return
    if wanted != {checked.head.sha256}:
        raise Refused(1, f"{line.where()}: line {checked.head.line} is another than the one whose SHA-256 was written "
                         "down: somebody wrote the journal anew from there on, or from before")
    checked.met.append(checked.head)
