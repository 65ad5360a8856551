"""Compares the certificates of a bag with its runs, entries and records: opening an office does not."""
import hashlib
import sqlite3
from collections.abc import Iterator
from pathlib import Path

from office_exchange import kinds

LAST = "SHA256 "
RUNS = "SELECT num, day, opened_by FROM runs WHERE closed ORDER BY num"
COUNTS = """SELECT count(*) FILTER (WHERE outcome IN ('destroyed', 'transferred')),
  count(*) FILTER (WHERE outcome = 'sent'), count(*) FILTER (WHERE outcome = 'skipped') FROM entries WHERE run = ?"""
ENTRIES = """SELECT record, outcome, ref, e.class, e.schedule, due, coalesce(hold, '-'), confirmed_by, size, digest
  FROM entries e JOIN records r ON r.num = e.record WHERE run = ? ORDER BY record"""
ABOVE = """WITH RECURSIVE above(num) AS (SELECT aggregation FROM entries JOIN records ON num = record
    WHERE run = ? AND outcome IN ('destroyed', 'transferred')
  UNION SELECT parent FROM above JOIN aggregations USING (num) WHERE parent IS NOT NULL)
SELECT num, ref FROM above JOIN aggregations USING (num) WHERE closed IS NOT NULL"""


def head_and_entries(tables: sqlite3.Connection, run: int, day: int, by: str) -> Iterator[str]:
    """Writes the lines of a certificate that its run, entries and records decide."""
    counts = tables.execute(COUNTS, (run,)).fetchone()
    yield from (f"CERTIFICATE {run}", f"DAY {kinds.day_of(day)}", f"BY {by}")
    yield from (f"{word} {count}" for word, count in zip(("ENDED", "SENT", "SKIPPED"), counts, strict=True))
    for record, outcome, ref, code, schedule, due, *rest in tables.execute(ENTRIES, (run,)):
        yield "\t".join(map(str, ("ENTRY", record, outcome, ref, code, schedule, kinds.day_of(due), *rest)))


def fault(file: Path, tables: sqlite3.Connection, run: int, day: int, by: str) -> str | None:
    """Returns what is wrong with a certificate, or None."""
    sha256 = hashlib.sha256()
    with file.open(encoding="utf-8", newline="\n") as lines:
        def next_line() -> str:
            line = lines.readline()
            if not line.startswith(LAST):
                sha256.update(line.encode())
            return line
        for wanted in head_and_entries(tables, run, day, by):
            if (line := next_line()) != f"{wanted}\n":
                return f"its line {line.rstrip()!r} is not {wanted!r}"
        above = {f"AGGREGATION\t{number}\t{ref}\n": number for number, ref in tables.execute(ABOVE, (run,))}
        spent = next_line()
        before = count = 0
        while (line := next_line()).startswith("AGGREGATION\t"):
            if above.get(line, 0) <= before:
                return f"its line {line.rstrip()!r} names no closed aggregation of a record that the run ended"
            before, count = above[line], count + 1
        if spent != f"SPENT {count}\n":
            return f"its line {spent.rstrip()!r} is not 'SPENT {count}'"
        if line != f"{LAST}{sha256.hexdigest()}\n" or lines.read(1):
            return "its last line is not the SHA-256 of the lines before it"
    return None


def faults(folder: Path, tables: sqlite3.Connection) -> Iterator[str]:
    """Names each certificate of a bag that does not agree with its run, entries and records."""
    for run, day, by in tables.execute(RUNS).fetchall():
        file = folder / f"data/certificates/{run}.txt"
        try:
            why = fault(file, tables, run, day, by) if file.is_file() else "it is missing"
        except UnicodeDecodeError:
            why = "it is no text"
        if why:
            yield f"certificate {run}: {why}"
