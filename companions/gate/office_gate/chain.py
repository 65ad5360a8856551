"""The lines of a journal, each with the SHA-256 of the one before: how they are written and read."""
import hashlib
import os
from collections.abc import Iterator
from dataclasses import dataclass
from pathlib import Path

from office_gate.body import Json, line_of, value_of
from office_gate.errors import Refused

NONE = "0" * 64
"""what the first line of all has in the place of the one before"""
BLOCK = 1 << 16
NO_LINE = 10**15
"""the first number of a file in which no line is yet: it comes after all others"""


def digest(data: bytes) -> str:
    return hashlib.sha256(data).hexdigest()


@dataclass(frozen=True)
class Head:
    """The last line of a journal: its number, and its SHA-256."""

    line: int
    sha256: str

    def __str__(self) -> str:
        return f"{self.line}:{self.sha256}"


START = Head(0, NONE)


def linked(entry: dict[str, object], head: Head) -> tuple[bytes, Head]:
    """Writes an entry as the line after that one. Returns it with its LF, and the new head."""
    data = line_of({"before": head.sha256, "line": head.line + 1, **entry}).encode()
    return data + b"\n", Head(head.line + 1, digest(data))


def torn(data: bytes) -> dict[str, object]:
    """What the next line says of bytes that are no whole line."""
    return {"bytes": len(data), "sha256": digest(data)}


# ---- reading

@dataclass(frozen=True)
class Line:
    """A line of a file, as it was found there."""

    path: Path
    place: int
    data: bytes
    is_whole: bool

    def where(self) -> str:
        return f"{self.path}:{self.place}"

    def entry(self) -> Json:
        """Reads the line; Refused says where there is none."""
        try:
            found = value_of(self.data.decode())
        except Exception as error:
            raise Refused(1, f"{self.where()}: this is no line of a journal") from error
        if not isinstance(found, dict) or not str(found.get("line", "")).isdigit() or "before" not in found:
            raise Refused(1, f"{self.where()}: this is no line of a journal")
        return found

    def head(self) -> Head:
        return Head(int(self.entry()["line"]), digest(self.data))


def lines_of(path: Path) -> Iterator[Line]:
    with path.open("rb") as file:
        for place, data in enumerate(file, 1):
            yield Line(path, place, data.removesuffix(b"\n"), data.endswith(b"\n"))


def first_number(path: Path) -> int:
    """Returns the number of the first line of a file that is one."""
    for line in lines_of(path):
        entry = entry_of(line)
        if entry is not None:
            return int(entry["line"])
    return NO_LINE


def files_of(place: Path) -> list[Path]:
    """Lists the files of a journal in their order: that one, and those that were rotated, as NAME-20261128."""
    files = [it for it in place.parent.glob(f"{place.name}*") if it == place or it.name.startswith(f"{place.name}-")]
    whole = [it for it in files if it.is_file() and it.stat().st_size]
    return sorted(whole, key=lambda it: (first_number(it), it.name))


def tails(path: Path) -> Iterator[list[bytes]]:
    """Gives what lies between the LFs of a file: from ever further before its end, at last all of it."""
    size = path.stat().st_size
    with path.open("rb") as file:
        data = b""
        while True:
            data = os.pread(file.fileno(), min(BLOCK, size - len(data)), max(0, size - len(data) - BLOCK)) + data
            pieces = data.split(b"\n")
            yield pieces if len(data) >= size else pieces[1:]
            if len(data) >= size:
                return


def last_line(path: Path, goes_on: bool) -> tuple[Head | None, list[bytes]]:
    """Returns the last line of a file, and what stops left after it. In one that goes on a line may lack its LF."""
    rest: list[bytes] = []
    for pieces in tails(path):
        for at in range(len(pieces) - 1, -1, -1):
            is_last = at == len(pieces) - 1
            if entry := entry_of(Line(path, 0, pieces[at], goes_on or not is_last)):
                rest = pieces[at + 1:]
                return Head(int(entry["line"]), digest(pieces[at])), rest if rest and rest[-1] else rest[:-1]
        rest = pieces
    return None, rest if rest and rest[-1] else rest[:-1]


def end_of(files: list[Path], goes_on: Path) -> tuple[Head, bytes | None]:
    """Returns the last line of a journal, and the bytes after it that are no line."""
    after: list[bytes] = []
    for path in reversed(files):
        head, rest = last_line(path, path == goes_on)
        after = rest + after
        if head:
            break
    else:
        head = START
    return head, b"\n".join(after) if after else None


def entry_of(line: Line) -> Json | None:
    """Reads a line, or returns None if a stop in the middle of a writing left it."""
    try:
        return line.entry() if line.is_whole else None
    except Refused:
        return None


def last_entry(files: list[Path]) -> Json | None:
    """Returns the last line of a journal, or None if there is none."""
    for path in reversed(files):
        for pieces in tails(path):
            for data in reversed(pieces):
                if entry := entry_of(Line(path, 0, data, True)):
                    return entry
    return None


def entries(files: list[Path]) -> Iterator[Json]:
    """Gives the entries of all lines, in their order; what a stop left is passed over."""
    for path in files:
        for line in lines_of(path):
            entry = entry_of(line)
            if entry is not None:
                yield entry
