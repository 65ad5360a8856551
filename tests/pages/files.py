"""FILE alone, after a word that opened and closed it."""
import os
import shutil
import sqlite3
import tempfile
from collections.abc import Callable

from kit.judging import judge
from pages.shell import Shell

# a log that is shorter than its header and the head of a page has no act
NO_ACT = 32 + 24
# the rows of the office of examples/first
FIRST = {"records": 1, "aggregations": 1, "schedules2": 1, "classes": 1}


def judge_alone(shell: Shell, word: str, file: str, rows: dict[str, int]) -> None:
    """A copy of FILE alone is read by sqlite3, with every act; no log lies beside FILE, or one without an act."""
    log = shell.path(file + "-wal")
    alone = not log.exists() or log.stat().st_size < NO_ACT
    with tempfile.TemporaryDirectory() as other:
        copy = os.path.join(other, "copy.db")
        shutil.copy(shell.path(file), copy)
        conn = sqlite3.connect(copy)
        sound = conn.execute("PRAGMA integrity_check").fetchall() == [("ok",)]
        there = {table: conn.execute(f"SELECT count(*) FROM {table}").fetchone()[0] for table in rows}
        conn.close()
    judge(f"after {word}: FILE alone has every act, and the log none", alone and sound and there == rows,
          f"log {alone}, sound {sound}, {there}")


def alone(word: str, file: str, rows: dict[str, int]) -> Callable[[Shell], None]:
    """The same, as what follows a command."""
    return lambda shell: judge_alone(shell, word, file, rows)
