"""Writes what one file of an office has and another lacks, and saves the certificates that the other lacks.

    since.py FOLDER OLD NEW [DAMAGED]

office-since runs it. FOLDER has the two files as was.db and now.db, and gets the list and the certificates; OLD and NEW
are what the two are called. DAMAGED says that the program does not open OLD. The status is 1 if the list must be read
before NEW is used, and 3 if the files cannot be compared.
"""
import contextlib
import datetime
import sqlite3
import sys
from pathlib import Path
from typing import TextIO

sys.dont_write_bytecode = True
sys.path[:0] = [str(folder) for folder in Path(__file__).resolve().parents[1:3]
                if (folder / "office_copies").is_dir() or (folder / "office_common").is_dir()]

from office_common import command  # noqa: E402
from office_common.errors import IMPOSSIBLE, Refused  # noqa: E402
from office_copies.since_sections import Section, sections  # noqa: E402

NAME = "office-since"
COUNTS = """SELECT day(day) || ': ' || (SELECT count(*) FROM {0}.records) || ' records, '
  || (SELECT count(*) FROM {0}.aggregations) || ' aggregations, ' || (SELECT count(*) FROM {0}.holds) || ' holds, '
  || (SELECT count(*) FROM {0}.runs) || ' runs' FROM {0}.office"""
BODIES = "SELECT run, body FROM was.certificates WHERE (run, body) NOT IN (SELECT run, body FROM now.certificates)"
EPOCH = datetime.date(1970, 1, 1)


def day(number: object) -> str | None:
    """Returns the day that a table has as a number of days since 1970, or nothing if it has no such number."""
    with contextlib.suppress(OverflowError):
        return (EPOCH + datetime.timedelta(number)).isoformat() if isinstance(number, int) else None
    return None


def text(data: bytes) -> str:
    """Returns a text of a table, whose bytes are kept if a damaged file has others than those of UTF-8."""
    return data.decode("utf-8", "surrogateescape")


def missing(text: str) -> Refused:
    return Refused(IMPOSSIBLE, f"{text}: nothing is compared")


def opened(folder: Path) -> sqlite3.Connection:
    """Opens both files, which nobody changes."""
    base = sqlite3.connect(":memory:", uri=True)
    base.text_factory = text
    base.create_function("day", 1, day, deterministic=True)
    for name in ("was", "now"):
        base.execute(f"ATTACH ? AS {name}", [f"{(folder / f'{name}.db').absolute().as_uri()}?immutable=1"])
    return base


def has(base: sqlite3.Connection, table: str) -> bool:
    """Returns whether a table can be read."""
    with contextlib.suppress(sqlite3.Error):
        base.execute(f"SELECT 1 FROM {table}").fetchone()
        return True
    return False


def rows(base: sqlite3.Connection, section: Section) -> list[str]:
    """Returns the lines of a section: a column is a text of one line, so each row is one."""
    try:
        values = base.execute(section.query).fetchall()
    except sqlite3.Error as error:
        raise missing(f"{section.title}: {error}") from error
    return ["\t".join("" if value is None else str(value) for value in row) for row in values]


def text_of(section: Section, lines: list[str]) -> str:
    columns = "\t".join(column.replace("_", " ") for column in section.columns.split())
    return "\n".join([f"\n{section.title}: {len(lines)}", f"{section.advice}\n", columns, *lines, ""])


def open_list(folder: Path) -> TextIO:
    return (folder / "since").open("w", encoding="utf-8", errors="surrogateescape")


def compare(folder: Path, old: str, new: str, damaged: str = "") -> int:
    """Writes the list, and prints how many lines each section has."""
    with contextlib.closing(opened(folder)) as base, open_list(folder) as since:
        if not has(base, "was.office"):
            raise missing(f"{old} is not read as an office")
        if not has(base, "now.schedules2"):
            raise missing(f"{new} is no office of version 2")
        old_counts, new_counts = (base.execute(COUNTS.format(name)).fetchone()[0] for name in ("was", "now"))
        since.write("What OLD has and NEW lacks. Each section says what to do, in this order.\n\n"
                    f"OLD, {old_counts}\nNEW, {new_counts}\n")
        if damaged:
            print(damaged)
            since.write(f"{damaged}\n")
        (version,) = base.execute("SELECT version FROM was.office").fetchone()
        is_serious = bool(damaged)
        for section in sections("schedules" if version == 1 else "schedules2", has(base, "was.events")):
            if lines := rows(base, section):
                print(f"{len(lines)}\t{section.title}")
                since.write(text_of(section, lines))
                is_serious |= section.is_first
        # each as it was made, byte for byte
        for run, body in base.execute(BODIES):
            data = body if isinstance(body, bytes) else body.encode("utf-8", "surrogateescape")
            (folder / f"certificate-{run}").write_bytes(data)
    return 1 if is_serious else 0


if __name__ == "__main__":
    place, *names = sys.argv[1:]
    sys.exit(command.run(NAME, lambda: compare(Path(place), *names), (OSError, sqlite3.Error)))
