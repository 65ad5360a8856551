"""The list of what waits for somebody in an office on a day, with a count of days to confirm.

What is due and overdue are the program's own registers of a copy. All else is in the tables of the copy.
"""
import contextlib
import csv
import os
import sqlite3
import subprocess
from collections import Counter
from collections.abc import Iterator
from pathlib import Path

from office_common import command, files
from office_lists import laws
from office_lists.morning import Request, fail

OPEN_RUNS = "SELECT 'run ' || num || ', opened on ' || date(day * 86400, 'unixepoch') FROM runs WHERE closed = 0"
RECEIVED = "SELECT count(*) FROM records WHERE status = 'received'"
STILL = """
SELECT count(*) FROM (SELECT a.num FROM aggregations a LEFT JOIN records r ON r.aggregation = a.num
  WHERE a.closed IS NULL AND a.num NOT IN (SELECT parent FROM aggregations WHERE closed IS NULL AND parent IS NOT NULL)
  GROUP BY a.num HAVING max(r.added) IS NULL OR max(r.added) < unixepoch(?, '-12 months') / 86400)"""
EVENTS = """
WITH RECURSIVE up(num, at, class) AS (SELECT num, parent, class FROM aggregations
  UNION ALL SELECT up.num, a.parent, a.class FROM up JOIN aggregations a ON a.num = up.at WHERE up.class IS NULL)
SELECT c.code, s.code, count(*) FROM records r JOIN up ON up.num = r.aggregation AND up.class IS NOT NULL
  JOIN classes c ON c.code = coalesce(r.class, up.class) JOIN schedules2 s ON s.code = coalesce(r.schedule, c.schedule)
  WHERE r.status = 'here' AND s.start_at = 'event' AND s.disposal <> 'keep'
    AND NOT EXISTS (SELECT 1 FROM events WHERE record = r.num) GROUP BY c.code, s.code"""
HOLDS = """
SELECT code, 'since', date(placed * 86400, 'unixepoch') FROM holds
  WHERE lifted IS NULL AND placed <= unixepoch(?, '-12 months') / 86400 ORDER BY placed, code"""


class NoRegister(Exception):
    """A register that the program did not print. The program has reported why."""


def register(*args: str) -> Iterator[dict[str, str]]:
    """Reads a register that the program prints, row by row."""
    with subprocess.Popen([os.environ["OFFICE"], *args], stdin=subprocess.DEVNULL, stdout=subprocess.PIPE, text=True,
                          encoding="utf-8") as process:
        assert process.stdout is not None
        yield from csv.DictReader(process.stdout)
    if process.returncode:
        raise NoRegister


def due(rows: Iterator[dict[str, str]]) -> Counter[str]:
    """Counts what is due, by what somebody has to do with it."""
    counts: Counter[str] = Counter()
    for row in rows:
        action, is_held, is_confirmed = row["action"], row["held"] != "", row["confirmed"] == "yes"
        if action == "review":
            counts["review"] += 1
        elif not is_confirmed:
            counts["open"] += not is_held
        elif action == "destroy":
            counts["kept" if is_held else "destroy"] += 1
        else:
            counts["send"] += action == "transfer"
    return counts


def line(title: str, value: object) -> str:
    return f"{f'{title}:':48}{value}"


def by_registers(copy: str, day: str, count: str) -> Iterator[str]:
    """Lists what the registers of a day have."""
    counts = due(register("export", copy, day))
    yield line(f"Overdue, with {count} days to confirm", sum(1 for _ in register("overdue", copy, day, count)))
    yield line("Due, neither confirmed nor held", counts["open"])
    yield line("To be reviewed", counts["review"])
    yield line("Ready for a run, which would destroy", counts["destroy"])
    yield line("Ready for a run, which would send", counts["send"])
    yield line("Confirmed, and kept by a hold", counts["kept"])


def by_tables(copy: Path, day: str) -> Iterator[str]:
    """Lists what waits by the tables of the copy."""
    with contextlib.closing(files.tables_of(copy)) as tables:
        runs = tables.execute(OPEN_RUNS).fetchall() or [("none",)]
        yield line("Open run", "\n".join(run for run, in runs))
        yield line("Received, and ended by the next run", tables.execute(RECEIVED).fetchone()[0])
        yield line("Open files without addition for a year", tables.execute(STILL, [day]).fetchone()[0])
        yield "Waiting for an event, by class and schedule:"
        yield from (" ".join(["   ", *map(str, row)]) for row in tables.execute(EVENTS))
        yield "Holds in force for a year or longer:"
        yield from (" ".join(["   ", *row]) for row in tables.execute(HOLDS, [day]))


def by_laws(copy: Path, mandates: Path, day: str) -> Iterator[str]:
    """Lists which classes have no law, or an old one, if the laws of the office are beside its FILE."""
    if not mandates.exists():
        return
    with contextlib.closing(files.tables_of(copy)) as tables:
        rows = laws.of_classes(tables, mandates, copy.parent, day)
        if rows is None:
            yield line("Laws of the classes", "the file cannot be read: see office-library")
            return
        without, old = laws.counts(tables, rows, day)
    yield line("Classes without a law", without)
    yield line("Classes whose law is as of two years ago", old)


def write(new: Path, request: Request) -> list[Path]:
    """Writes the list of a copy."""
    copy, day, count = new / "copy.db", request.day, request.margin
    try:
        lines = [f"To do on {day}", "", *by_registers(str(copy), day, count), *by_tables(copy, day),
                 *by_laws(copy, laws.file_of(request.file), day)]
    except (NoRegister, OSError, sqlite3.Error) as error:
        if not isinstance(error, NoRegister):
            command.report("office-todo", str(error))
        raise fail(f"there is no list of {day} and {count} days") from error
    file = new / "todo.txt"
    file.write_text("\n".join([*lines, ""]), encoding="utf-8")
    return [file]
