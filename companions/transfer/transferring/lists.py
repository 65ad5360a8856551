"""Reads the list of digests that an archive sends back: as `sha256sum` and BagIt write it, or as CSV with a header."""
from __future__ import annotations

import csv
import io
import re
from dataclasses import dataclass
from pathlib import Path

from office_common.errors import USAGE, Refused

SUM = re.compile(r"\\?([0-9A-Fa-f]{64})[ \t]+[*]?(\S.*)")
DIGEST = re.compile("[0-9a-f]{64}")
ENDS = "\r\n|\n|\r"
# the names of columns, in the order in which they are looked for
DIGESTS = ("sha256", "sha-256", "digest", "checksum", "hash", "messagedigest")
PATHS, NUMBERS, REFS = ("path", "file", "filename", "name"), ("record", "number"), ("ref", "reference")


@dataclass(frozen=True)
class Line:
    """A line of the list: where it is, a digest, and what it is the digest of."""

    at: int
    digest: str
    path: str = ""
    number: int | None = None
    ref: str = ""

    def name(self) -> str:
        """What the line says it is of."""
        return self.path or self.ref or f"record {self.number}"


@dataclass(frozen=True)
class Read:
    """The lines of a list, and what was wrong with others."""

    lines: tuple[Line, ...]
    wrong: tuple[str, ...]


def read(file: Path) -> Read:
    """Reads a list of either form."""
    try:
        text = file.read_bytes().decode("utf-8-sig")
    except (OSError, UnicodeDecodeError) as why:
        raise Refused(USAGE, f"{file} cannot be read: {why}") from why
    rows = [it for it in re.split(ENDS, text) if it.strip()]
    if not rows:
        raise Refused(USAGE, f"{file} is empty")
    listing = sums(text) if SUM.fullmatch(rows[0]) else table(text, rows[0])
    if not listing.lines:
        raise Refused(USAGE, f"{file} has no line with a SHA-256, of 64 hexadecimal digits")
    return listing


def sums(text: str) -> Read:
    """Lines as `DIGEST  PATH`. What BagIt writes as %0A, %0D and %25, and sha256sum with a backslash, is undone."""
    lines, wrong = [], []
    for at, row in enumerate(re.split(ENDS, text), 1):
        match = SUM.fullmatch(row)
        if match:
            lines.append(Line(at, match[1].lower(), path_of(match[2])))
        elif row.strip():
            wrong.append(f"line {at} has no SHA-256 and path: {row[:80]!r}")
    return Read(tuple(lines), tuple(wrong))


def path_of(text: str) -> str:
    """Returns a path as the bag has it, from any system."""
    for code, letter in (("%0A", "\n"), ("%0D", "\r"), ("%25", "%")):
        text = text.replace(code, letter).replace(code.lower(), letter)
    return re.sub("/+", "/", text.strip().replace("\\", "/")).removeprefix("./")


def table(text: str, header: str) -> Read:
    """Rows of CSV with a column of digests, and one of paths, numbers or refs of records."""
    separator = max(",;\t", key=header.count)
    rows = csv.DictReader(io.StringIO(text, newline=""), delimiter=separator)
    columns = {(it or "").strip().lower(): it for it in rows.fieldnames or []}
    digest, path, number, ref = (next((columns[it] for it in names if it in columns), None)
                                 for names in (DIGESTS, PATHS, NUMBERS, REFS))
    if digest is None or (path or number or ref) is None:
        raise Refused(USAGE, "the list is not as sha256sum writes it, and no CSV with a column sha256 and one of path, "
                             f"record or ref: {header[:80]!r}")
    lines, wrong = [], []
    for row in rows:
        cells = [(row.get(it) or "").strip() if it is not None else "" for it in (digest, path, number, ref)]
        line = line_of(rows.line_num, cells)
        if isinstance(line, Line):
            lines.append(line)
        else:
            wrong.append(line)
    return Read(tuple(lines), tuple(wrong))


def line_of(at: int, cells: list[str]) -> Line | str:
    """Returns a row as a line, or what is wrong with it."""
    digest, path, number, ref = cells
    if not DIGEST.fullmatch(digest.lower()):
        return f"line {at} has no SHA-256: {digest[:80]!r}"
    if number and not re.fullmatch("0*[1-9][0-9]{0,9}", number):
        return f"line {at} has no number of a record: {number[:80]!r}"
    if not (path or number or ref):
        return f"line {at} names neither a path nor a record"
    return Line(at, digest.lower(), path_of(path), int(number) if number else None, ref)
