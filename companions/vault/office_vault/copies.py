"""A copy of an office's FILE, which nobody has open: what it says of records, and their contents."""
import contextlib
import shutil
import sqlite3
import subprocess
import tempfile
from collections.abc import Iterator
from pathlib import Path

from office_common.errors import IMPOSSIBLE, Refused
from office_common.files import locked, tables_of

from office_vault.offices import Metadata

VERSION = 2
ENDS = """
CREATE TEMP TABLE ends(record INTEGER PRIMARY KEY, run INTEGER, outcome TEXT);
INSERT INTO ends SELECT record, run, outcome FROM entries WHERE outcome IN ('destroyed', 'transferred');
"""
SAID = """
WITH RECURSIVE up(container, height) AS (SELECT aggregation, 1 FROM records WHERE num = ?1
  UNION ALL SELECT parent, height + 1 FROM up JOIN aggregations ON num = container WHERE parent IS NOT NULL)
SELECT ref, digest, size, run, outcome, coalesce(class, (SELECT a.class FROM up JOIN aggregations AS a
  ON a.num = container WHERE a.class IS NOT NULL ORDER BY height LIMIT 1), '')
  FROM records LEFT JOIN ends ON record = num WHERE num = ?1"""
CONTENT = "SELECT bytes FROM records JOIN contents ON record = num WHERE num = ? AND status <> 'ended'"


@contextlib.contextmanager
def copy_of(file: Path, work: Path) -> Iterator[Path]:
    """Has office-backup copy FILE with every act that was answered before this call, also while it is served."""
    if not file.is_file():
        raise Refused(IMPOSSIBLE, f"there is no {file}")
    program = shutil.which("office-backup")
    if program is None:
        raise Refused(IMPOSSIBLE, "there is no program office-backup: install it")
    folder = Path(tempfile.mkdtemp(dir=work))
    # the lock says to another command that this copy is in use
    with locked(folder, waits=True):
        try:
            copy = folder / "copy.db"
            done = subprocess.run([program, str(file), str(copy)], stdin=subprocess.DEVNULL, stdout=subprocess.DEVNULL,
                                  stderr=subprocess.PIPE, text=True, check=False)
            if done.returncode:
                raise Refused(IMPOSSIBLE, f"{file} was not copied: {done.stderr.strip()}")
            yield copy
        finally:
            shutil.rmtree(folder, ignore_errors=True)


class Copied:
    """The office in a copy."""

    def __init__(self, copy: Path) -> None:
        try:
            self.tables = tables_of(copy)
            [(version,)] = self.tables.execute("SELECT version FROM office")
            # entries have no index by record
            self.tables.executescript(ENDS)
        except (sqlite3.Error, ValueError) as error:
            raise Refused(IMPOSSIBLE, f"{copy} is not read as an office: {error}") from error
        if version != VERSION:
            raise Refused(IMPOSSIBLE, f"{copy} is an office of version {version}, and not of {VERSION}")

    def close(self) -> None:
        self.tables.close()

    def metadata(self, number: int) -> Metadata | None:
        row = self.tables.execute(SAID, [number]).fetchone()
        return None if row is None else Metadata(*row)

    def content(self, number: int) -> bytes | None:
        row = self.tables.execute(CONTENT, [number]).fetchone()
        return None if row is None else bytes(row[0])
