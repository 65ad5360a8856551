"""The laws behind the rules of an office, which office-library keeps beside FILE: shown in lists that are whole without.

Nothing depends on them. If they cannot be had, a list goes as it is, and this is reported.
"""
import csv
import sqlite3
from collections.abc import Iterable
from pathlib import Path

from office_common import command
from office_lists import commands

ENDING = ".mandates.json"
"""what the name of the laws has behind that of FILE"""
OLD = "-24 months"
"""a law that nobody has looked at for so long may be another one"""
DAMAGED = '[{"damaged":true}]\n'
CLASSES = "SELECT code, schedule FROM classes"
LIMIT = "SELECT date(?, ?)"


def file_of(office: Path) -> Path:
    """Returns the path of the laws of an office."""
    return office.with_name(office.name + ENDING)


def asked(args: list[str], out: Path) -> bool:
    """Writes what office-library prints to a file, and returns whether it printed that."""
    try:
        with out.open("wb") as file:
            return commands.run([commands.path_of("office-library"), *args], file) == 0
    except OSError as error:
        command.report("office-library", str(error))
        return False


def add(name: str, register: Path, mandates: Path, day: str) -> None:
    """Adds the laws as of a day to a register. Without laws it stays as it is."""
    new = register.with_name(f"{register.name}.laws")
    if not mandates.exists():
        return
    if asked(["why", str(mandates), str(register), "--day", day], new):
        new.replace(register)
    else:
        command.report(name, "the register has no laws")
        new.unlink()


def entries(mandates: Path, folder: Path) -> str:
    """Returns the laws of an office as a catalogue has them: an array of JSON, with `damaged` if they cannot be had."""
    new = folder / "entries.json"
    if not mandates.exists():
        return "[]\n"
    return new.read_text(encoding="utf-8") if asked(["entries", str(mandates)], new) else DAMAGED


def of_classes(tables: sqlite3.Connection, mandates: Path, folder: Path, day: str) -> list[dict[str, str]] | None:
    """Returns each class of an office with its law as of a day, or None if the laws cannot be had."""
    register, new = folder / "classes.csv", folder / "laws.csv"
    with register.open("w", newline="", encoding="utf-8") as file:
        csv.writer(file).writerows([("class", "schedule"), *tables.execute(CLASSES)])
    if not asked(["why", str(mandates), str(register), "--day", day], new):
        return None
    with new.open(newline="", encoding="utf-8") as file:
        return list(csv.DictReader(file))


def counts(tables: sqlite3.Connection, rows: Iterable[dict[str, str]], day: str) -> tuple[int, int]:
    """Counts the classes without a law, and those whose law is old on a day."""
    limit, = tables.execute(LIMIT, [day, OLD]).fetchone()
    listed = list(rows)
    return sum(not row["law"] for row in listed), sum("" < row["as of"] <= limit for row in listed)
