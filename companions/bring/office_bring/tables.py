"""Tables of CSV as other systems export them: each cell that is not empty is a part of the source."""
from __future__ import annotations

import codecs
import csv
import io
import re
from collections.abc import Callable, Mapping
from dataclasses import dataclass
from pathlib import Path

from office_bring.ledger import Ledger, Wrong
from office_bring.moments import shown
from office_common.errors import USAGE, Refused

MOST_BYTES = 64 * 1024 * 1024
"""of a table: 200,000 rows of 300 bytes"""
MOST_CELL = 64 * 1024
"""letters in a cell"""
MARKS = ((codecs.BOM_UTF8, "utf-8"), (codecs.BOM_UTF16_LE, "utf-16-le"), (codecs.BOM_UTF16_BE, "utf-16-be"))
SEPARATORS = ",;\t|"


def plain(name: str) -> str:
    """Returns the name of a column without capitals, marks and doubled spaces."""
    return re.sub(r"[\s_.:\-]+", " ", name.casefold()).strip()


def is_encoding(name: str) -> bool:
    """Returns whether Python knows an encoding of text by this name."""
    try:
        return isinstance(b"".decode(name), str)
    except LookupError:
        return False


def data_of(path: Path, most: int) -> bytes:
    """Reads a file of at most so many bytes."""
    with path.open("rb") as file:
        data = file.read(most + 1)
    if len(data) > most:
        raise Refused(USAGE, f"{path} has more than {most:,} bytes: bring it in parts")
    return data


def text_of(path: Path, data: bytes, encoding: str | None) -> str:
    """Returns the text of a table. No encoding is guessed."""
    mark, marked = next(((mark, name) for mark, name in MARKS if data.startswith(mark)), (b"", "utf-8"))
    name = marked if mark else encoding or marked
    try:
        text = data.removeprefix(mark).decode(name)
    except UnicodeDecodeError as error:
        line = data.count(b"\n", 0, error.start) + 1
        raise Refused(USAGE, f"{path}, line {line}: byte {data[error.start]:02X} is not {name}: say --encoding") from None
    if "\0" in text:
        raise Refused(USAGE, f"{path} has zero characters, and is no text in {name}: say --encoding")
    return text


class Row:
    """A row below the header: its number as a sheet counts it, and what became of each of its cells."""

    def __init__(self, number: int, header: list[str], cells: list[str]) -> None:
        self.number = number
        self.cells = {name: cell.strip() for name, cell in zip(header, cells) if cell.strip()}
        self.parts = sum(bool(cell.strip()) for cell in cells)
        self.width = len(cells)
        self.fates: dict[str, str | None] = {}

    def place(self) -> str:
        return f"row {self.number}"

    def settle(self, ledger: Ledger) -> None:
        """Counts the cells: those that were read, those that were lost under a name, and the columns that nobody read."""
        for name in self.cells:
            fate = self.fates.get(name, f"column {name}")
            if fate is None:
                ledger.take()
            else:
                ledger.lose(fate)


@dataclass
class Table:
    """The rows of a table, and where the columns of a kind are."""

    header: list[str]
    rows: list[Row]
    columns: Mapping[str, str]

    def cell(self, row: Row, name: str) -> str:
        """Returns a cell that goes into a sheet, or an empty text."""
        header = self.columns.get(name)
        if header is None or header not in row.cells:
            return ""
        row.fates[header] = None
        return row.cells[header]

    def lose(self, row: Row, name: str, reason: str) -> None:
        """Counts a cell that was read, and has no place in an office after all."""
        if (header := self.columns.get(name)) in row.cells and header is not None:
            row.fates[header] = reason

    def each(self, ledger: Ledger, take: Callable[[Row], None]) -> None:
        """Hands each row over, and counts its cells. One that is wrong is named, and the next one follows."""
        for row in self.rows:
            try:
                if row.width != len(self.header):
                    raise Wrong(f"it has {row.width} cells, and the header has {len(self.header)}")
                take(row)
            except Wrong as wrong:
                ledger.fault(row.place(), str(wrong), row.parts)
            else:
                row.settle(ledger)

    def texts(self, *names: str) -> list[str]:
        """Returns all cells of these columns."""
        headers = [self.columns[name] for name in names if name in self.columns]
        return [row.cells[header] for row in self.rows for header in headers if header in row.cells]


def columns_of(path: Path, header: list[str], wanted: Mapping[str, tuple[str, ...]], needed: tuple[str, ...],
               mapped: Mapping[str, str]) -> dict[str, str]:
    """Finds the column of each name: the one that the caller names, or the first that the system calls so."""
    by_name = {plain(name): name for name in header}
    for name in mapped:
        if name not in wanted:
            raise Refused(USAGE, f"--column {name}: there are {', '.join(wanted)}")
        if plain(mapped[name]) not in by_name:
            raise Refused(USAGE, f"--column {name}: no column is named \"{mapped[name]}\"; there are {', '.join(header)}")
    columns = {}
    for name, names in wanted.items():
        written = next((by_name[plain(each)] for each in ([mapped[name]] if name in mapped else names) if plain(each) in by_name),
                       None)
        if written is not None:
            columns[name] = written
    missing = [name for name in needed if name not in columns]
    if missing:
        raise Refused(USAGE, f"{path} has no column for {missing[0]}: say --column {missing[0]}=HEADER; there are "
                      f"{', '.join(shown(name) for name in header)}")
    both = next((written for written in columns.values() if list(columns.values()).count(written) > 1), None)
    if both is not None:
        meant = [name for name, written in columns.items() if written == both]
        raise Refused(USAGE, f"{path}: \"{shown(both)}\" may be the column {' or '.join(meant)}: say --column {meant[0]}=HEADER")
    return columns


def rows_of(path: Path, text: str) -> list[list[str]]:
    """Reads the rows of a table, by the separator that its header has most."""
    first = text.split("\n", 1)[0]
    separator = max(SEPARATORS, key=first.count)
    csv.field_size_limit(MOST_CELL)
    reader = csv.reader(io.StringIO(text, newline=""), delimiter=separator, strict=True)
    rows = []
    try:
        for cells in reader:
            rows.append(cells)
    except csv.Error as error:
        raise Refused(USAGE, f"{path}, line {reader.line_num}: {error}") from None
    return rows


def table_in(path: Path, wanted: Mapping[str, tuple[str, ...]], needed: tuple[str, ...], mapped: Mapping[str, str],
             encoding: str | None, is_cut_meant: bool) -> Table:
    """Reads a table. One without an end of its last line may be cut, and is refused."""
    text = text_of(path, data_of(path, MOST_BYTES), encoding)
    if not text.strip():
        raise Refused(USAGE, f"{path} is empty")
    if not text.endswith(("\n", "\r")) and not is_cut_meant:
        raise Refused(USAGE, f"{path} ends within a line, and may be cut: export it again, or say --cut if it is whole")
    # the line by which some programs tell a spreadsheet the separator, and that by which PowerShell names a type
    text = re.sub(r"\A(?:sep=.|#TYPE [^\r\n]*)\r?\n", "", text)
    header, *rows = rows_of(path, text) or [[]]
    header = [name.strip() for name in header]
    twice = next((name for name in header if name and [plain(each) for each in header].count(plain(name)) > 1), None)
    if twice is not None:
        raise Refused(USAGE, f"{path}: two columns are named \"{shown(twice)}\"")
    header = [name or f"column {at} without a name" for at, name in enumerate(header, 1)]
    columns = columns_of(path, header, wanted, needed, mapped)
    return Table(header, [Row(number, header, cells) for number, cells in enumerate(rows, 2) if any(map(str.strip, cells))],
                 columns)
