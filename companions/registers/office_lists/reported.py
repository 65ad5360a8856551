"""What the program reports of the records of a copy: class, schedule, hold and due day of each that is here.

The program has a register of what is due, and none of all records. So it is asked twice for what is due by a day in
the far future, in a scratch office with the tables of the copy and empty contents. With the schedules as they are it
reports the due days. With each schedule due at once it lists each record that is here: its class, its schedule and its
hold do not depend on what a schedule says. In the end the listed records are counted.
"""
import contextlib
import csv
import os
import sqlite3
import subprocess
from collections.abc import Iterator
from pathlib import Path

from office_common.errors import WRONG, Refused

FAR = "2999-12-31"
TABLES = ("classes", "aggregations", "records", "events", "holds", "targets", "runs", "entries", "certificates")
COPIED = "; ".join(("PRAGMA synchronous = OFF", "BEGIN", "UPDATE office SET day = (SELECT day FROM copied.office)",
                    "INSERT INTO schedules2 SELECT * FROM copied.schedules2",
                    *(f"INSERT INTO {table} SELECT * FROM copied.{table}" for table in TABLES),
                    "INSERT INTO contents SELECT record, x'' FROM copied.contents", "COMMIT"))
AT_ONCE = "UPDATE schedules2 SET start_at = 'added', unit = 'days', span = 0, roll = 'none', disposal = 'destroy'"
LISTED = "SELECT (SELECT count(*) FROM temp.here) = (SELECT count(*) FROM records WHERE status = 'here')"


def fail(text: str) -> Refused:
    return Refused(WRONG, text)


def scratch_office(file: Path, copy: Path, name: str) -> None:
    """Makes an office with the tables of a copy."""
    if subprocess.run([os.environ["OFFICE"], "init", str(file)], stdin=subprocess.DEVNULL, stdout=subprocess.DEVNULL,
                      check=False).returncode:
        raise fail("an office is not made")
    try:
        with contextlib.closing(sqlite3.connect(file.absolute().as_uri(), uri=True, isolation_level=None)) as office:
            office.execute("ATTACH ? AS copied", [f"{copy.absolute().as_uri()}?immutable=1"])
            office.executescript(COPIED)
    except sqlite3.Error as error:
        raise fail(f"the tables of {name} are not read") from error


def due(file: Path, name: str) -> Iterator[tuple[int, str, str, str, str]]:
    """Reads the program's register of what is due: record, class, schedule, hold and due day of each row."""
    with subprocess.Popen([os.environ["OFFICE"], "export", str(file), FAR], stdin=subprocess.DEVNULL,
                          stdout=subprocess.PIPE, text=True, encoding="utf-8") as process:
        assert process.stdout is not None
        for row in csv.DictReader(process.stdout):
            yield int(row["record"]), row["class"], row["schedule"], row["held"], row["due"]
    if process.returncode:
        raise fail(f"the tables of {name} are not opened as an office")


def report(tables: sqlite3.Connection, copy: Path, folder: Path, name: str) -> None:
    """Puts what the program reports into the tables `due` and `here` beside those of the copy."""
    file = folder / "office.db"
    scratch_office(file, copy, name)
    for table in ("due", "here"):
        tables.execute(f"CREATE TEMP TABLE {table}(record INTEGER PRIMARY KEY, class TEXT, schedule TEXT, held TEXT, "
                       "due TEXT)")
        tables.executemany(f"INSERT INTO temp.{table} VALUES (?, ?, ?, ?, ?)", due(file, name))
        if table == "due":
            with contextlib.closing(sqlite3.connect(file, isolation_level=None)) as office:
                office.execute(AT_ONCE)
    if tables.execute(LISTED).fetchone() != (1,):
        raise fail(f"the program does not report each record that is here in {name}")
