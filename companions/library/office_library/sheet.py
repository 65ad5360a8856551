"""A library as a sheet: lines that begin with #, which say what it is and who has checked it, a header, and the rows.

A spreadsheet may have saved it: with semicolons or tabs, a byte order mark, and empty cells behind each row.
"""
import csv
import io
from collections.abc import Iterable
from dataclasses import dataclass, field
from pathlib import Path

from office_common.errors import USAGE, Refused

from office_library.cells import COLUMNS, NEEDED, NOBODY, Entry, Rule, Wrong, code_of, entry_of, rule_of

SEPARATORS = (",", ";", "\t")
HEAD = ("title", "checked by")
"""what the lines above the header must say"""
MOST_BYTES = 1 << 20
MOST_REPORTED = 40
Line = tuple[int, list[str]]


@dataclass(frozen=True)
class Row:
    """A row that is right: where it is, its class, the rule of its schedule, and the entry that it makes."""

    place: str
    code: str
    rule: Rule
    entry: Entry


@dataclass
class Library:
    """A library: its name, what its head says, its rows, and what is wrong with the others."""

    name: str
    head: dict[str, str]
    rows: list[Row] = field(default_factory=list)
    wrong: list[str] = field(default_factory=list)


def cells_of(text: str, separator: str) -> list[Line]:
    """Splits a sheet into its rows, each with the number of its last line. A row without text is left out."""
    reader = csv.reader(io.StringIO(text, newline=""), delimiter=separator, strict=True)
    return [(reader.line_num, cells) for cells in reader if any(cell.strip() for cell in cells)]


def is_head(cells: list[str]) -> bool:
    return cells[0].lstrip().startswith("#")


def head_of(rows: Iterable[list[str]], separator: str) -> dict[str, str]:
    """Reads the lines above the header: `# key: value`. A line without a colon is a remark."""
    head: dict[str, str] = {}
    for cells in rows:
        key, colon, value = separator.join(cells).strip(f"# {separator}").partition(":")
        if colon:
            head.setdefault(key.strip().lower(), value.strip())
    return head


def columns_in(header: list[str]) -> list[str]:
    return [cell.strip().lower() for cell in header]


def split(text: str, name: str) -> tuple[list[Line], str]:
    """Splits a sheet by the separator with which its header has most of the columns."""
    best: tuple[list[str], list[Line], str] | None = None
    for separator in SEPARATORS:
        try:
            rows = cells_of(text, separator)
        except csv.Error:
            continue
        header: list[str] = next((cells for _, cells in rows if not is_head(cells)), [])
        lacks = [column for column in NEEDED if column not in columns_in(header)]
        if best is None or len(lacks) < len(best[0]):
            best = lacks, rows, separator
    if best is None:
        raise Refused(USAGE, f"{name} is no CSV: a quote is not closed, or something is behind one")
    if best[0]:
        raise Refused(USAGE, f"{name}: the header lacks {', '.join(best[0])}")
    return best[1], best[2]


def decoded(data: bytes, name: str) -> str:
    if len(data) > MOST_BYTES:
        raise Refused(USAGE, f"{name} has {len(data):,} bytes: a library has at most {MOST_BYTES:,}")
    try:
        return data.decode("utf-8-sig")
    except UnicodeDecodeError as error:
        raise Refused(USAGE, f"{name} is not UTF-8: save it as \"CSV UTF-8\"") from error


def row_of(cells: dict[str, str], place: str) -> Row:
    """Reads a row. Wrong says which cell is not of its form."""
    empty = [column for column in NEEDED if not cells[column]]
    if empty:
        raise Wrong(f"{', '.join(empty)}: empty")
    return Row(place, code_of(cells["class"]), rule_of(cells), entry_of(cells))


def columns_of(header: list[str], name: str) -> list[str]:
    """Returns the columns of a header, each of which is there once."""
    columns = columns_in(header)
    twice = [column for column in COLUMNS if columns.count(column) > 1]
    if twice:
        raise Refused(USAGE, f"{name}: the header has {', '.join(twice)} twice")
    return columns


def library_of(data: bytes, name: str) -> Library:
    """Reads a library. Refused says why it is none; a row that is wrong is named in the library."""
    rows, separator = split(decoded(data, name), name)
    at = next(at for at, (_, cells) in enumerate(rows) if not is_head(cells))
    library = Library(name, head_of((cells for _, cells in rows[:at]), separator))
    lacks = [key for key in HEAD if not library.head.get(key)]
    if lacks:
        raise Refused(USAGE, f"{name}: no line `# {lacks[0]}: ..` is above the header")
    columns = columns_of(rows[at][1], name)
    for line, cells in rows[at + 1:]:
        if is_head(cells):
            continue
        place = f"{name}:{line}"
        if any(cell.strip() for cell in cells[len(columns):]):
            library.wrong.append(f"{place}: it has more cells than the header: put a cell with a separator in quotes")
            continue
        named = dict.fromkeys(COLUMNS, "") | {column: cell.strip() for column, cell in zip(columns, cells)}
        named["checked by"] = named["checked by"] or library.head["checked by"]
        named["source"] = named["source"] or name
        try:
            library.rows.append(row_of(named, place))
        except Wrong as wrong:
            library.wrong.append(f"{place}: {wrong}")
    return library


def read(path: Path, name: str) -> Library:
    """Reads the library in a file."""
    try:
        return library_of(path.read_bytes(), name)
    except OSError as error:
        raise Refused(USAGE, f"{path}: {error.strerror}") from error


def is_checked(library: Library) -> bool:
    """Returns whether somebody has checked a library."""
    return not library.head["checked by"].startswith(NOBODY)


def clashes(rows: Iterable[Row]) -> list[str]:
    """Reports which rows do not go together: two of a class, and two rules of a schedule."""
    classes: dict[str, Row] = {}
    schedules: dict[str, Row] = {}
    reports = []
    for row in rows:
        first = classes.setdefault(row.code, row)
        if first is not row:
            reports.append(f"{row.place}: class {row.code} is in {first.place} too: choose one by --only")
        other = schedules.setdefault(row.entry.schedule, row)
        if other.rule != row.rule:
            reports.append(f"{row.place}: schedule {row.entry.schedule} has another rule in {other.place}")
    return reports


def together(libraries: list[Library], only: list[str]) -> list[Row]:
    """Returns the rows of libraries, or those of some classes. Refused names each row that is wrong, and each clash."""
    rows = [row for library in libraries for row in library.rows if not only or row.code in only]
    wrong = [report for library in libraries for report in library.wrong]
    wrong += [f"no library has a class {code}" for code in only if code not in {row.code for row in rows}]
    wrong += clashes(rows)
    if wrong:
        more = [f"and {len(wrong) - MOST_REPORTED} more"] if len(wrong) > MOST_REPORTED else []
        raise Refused(USAGE, "\n".join([*wrong[:MOST_REPORTED], *more]))
    if not rows:
        raise Refused(USAGE, "there is no row to take")
    return rows
