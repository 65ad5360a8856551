"""The rows of a sheet: from the bytes of a CSV file, as spreadsheet programs write it, to cells by row and column."""
from __future__ import annotations

import codecs
import csv
import io
import re
from collections.abc import Callable, Iterator
from dataclasses import dataclass

SEPARATORS = {"comma": ",", "semicolon": ";", "tab": "\t", "bar": "|"}
# what a file begins with, and how its text is encoded then
MARKS = ((codecs.BOM_UTF8, "utf-8-sig", "UTF-8 with a mark"), (codecs.BOM_UTF16_LE, "utf-16", "UTF-16"),
         (codecs.BOM_UTF16_BE, "utf-16", "UTF-16"))
# a header that is further down is looked for in so many rows
NEAR_TOP = 20
WORKBOOKS = (b"PK\x03\x04", b"\xd0\xcf\x11\xe0")
# a letter beyond ASCII as UTF-8 writes it; in Windows-1252 it would be a pair as "Ã¼"
UTF8_LETTER = re.compile(rb"\xc3[\x80-\xbf]")


class Unreadable(Exception):
    """The sheet cannot be read without more words; the text says which. The kind is one word for each such text."""

    def __init__(self, kind: str, text: str) -> None:
        super().__init__(text)
        self.kind = kind


@dataclass(frozen=True)
class Row:
    """A row as the sheet counts it: the first one is 1."""

    number: int
    cells: list[str]

    def is_empty(self) -> bool:
        return not any(it.strip() for it in self.cells)


def place(column: int, row: int) -> str:
    """Returns a cell as a sheet names it: the column's letters, and the row's number. Columns count from 0 here."""
    return f"{letters(column)}{row}"


def letters(column: int) -> str:
    named = ""
    column += 1
    while column:
        column, last = divmod(column - 1, 26)
        named = chr(ord("A") + last) + named
    return named


def in_quotes(cell: str) -> str:
    """Returns a cell in a message: its beginning, with marks for characters that nobody sees."""
    short = cell if len(cell) <= 40 else cell[:37] + "..."
    return '"' + "".join(it if it.isprintable() else f"<U+{ord(it):04X}>" for it in short) + '"'


def decoded(data: bytes, encoding: str | None) -> tuple[str, str]:
    """Returns the text of a file, and the name of its encoding."""
    if data.startswith(WORKBOOKS):
        raise Unreadable("workbook", "this is a workbook: save it as \"CSV UTF-8\" in the spreadsheet program")
    if encoding:
        return in_encoding(data, encoding, encoding), encoding
    for mark, codec, name in MARKS:
        if data.startswith(mark):
            return in_encoding(data, codec, name), name
    if b"\0" in data:
        why = "the text has zero bytes: say --encoding utf-16-le, if it is Unicode text without a mark"
        raise Unreadable("zero", why)
    try:
        return data.decode(), "UTF-8"
    except UnicodeDecodeError as why:
        if UTF8_LETTER.search(data):
            line = data.count(b"\n", 0, why.start) + 1
            both = f"some of the file is UTF-8, but line {line} is not"
            raise Unreadable("half", f"{both}: save it again, or say --encoding windows-1252") from why
    return in_encoding(data, "windows-1252", "Windows-1252"), "Windows-1252"


def in_encoding(data: bytes, codec: str, name: str) -> str:
    try:
        return data.decode(codec).removeprefix("\ufeff")
    except UnicodeDecodeError as why:
        line = data.count(b"\n", 0, why.start) + 1
        byte = f"byte {data[why.start]:02X} in line {line} is not {name}"
        raise Unreadable("encoding", f"{byte}: say --encoding") from why


def is_encoding(name: str) -> bool:
    """Returns whether Python knows a text encoding by that name."""
    try:
        return isinstance(b"".decode(name), str)
    except LookupError:
        return False


Known = Callable[[list[str]], int]


def separated(text: str, known: Known, header: int, asked: str | None) -> tuple[str, list[Row]]:
    """Returns the separator's name, and all rows.

    By it the header has the most known names, or else a row near the top has them, or else the header the most cells.
    """
    said = re.match(r"sep=(.)(?:\r\n|\r|\n)", text)
    if said:
        # the line with which a program says the separator to Excel, which shows no row for it
        text = text[said.end():]
        asked = asked or next((name for name, it in SEPARATORS.items() if it == said[1]), None)
    if not text.strip():
        raise Unreadable("empty", "the file is empty")
    name = asked or max(SEPARATORS, key=lambda it: likeness(text, SEPARATORS[it], known, header))
    return name, list(rows(text, SEPARATORS[name]))


def likeness(text: str, separator: str, known: Known, header: int) -> tuple[int, int, int]:
    """How many names of the header are known, how many of any row near the top, and how many cells the header has."""
    names = best = cells = 0
    try:
        for row in rows(text, separator):
            if row.number > max(header, NEAR_TOP):
                break
            best = max(best, known(row.cells))
            if row.number == header:
                names, cells = known(row.cells), len(row.cells)
    except Unreadable:
        pass
    return names, best, cells


def rows(text: str, separator: str) -> Iterator[Row]:
    """The rows. Line breaks in quotes begin none, and a line with nothing in it is an empty row, as in the sheet."""
    csv.field_size_limit(2**31 - 1)
    number = 0
    try:
        for cells in csv.reader(io.StringIO(text, newline=""), delimiter=separator, strict=True):
            number += 1
            yield Row(number, cells)
    except csv.Error as why:
        raise Unreadable("quotes", f"row {number + 1}: the quotes do not match ({why})") from why
