"""How the trial calls office-library, and what it reads of an office."""
from __future__ import annotations

import csv
import io
import json
import os
import sqlite3
import sys
import traceback
import unittest.mock as mock
from collections.abc import Sequence
from contextlib import closing, redirect_stderr, redirect_stdout
from pathlib import Path

from kit.commands import Done, office, run
from kit.companions import companion
from kit.judging import judge

COMMAND = companion("office-library")
sys.path[:0] = [str(COMMAND.parent), str(COMMAND.parents[1])]

from office_library.commands import main  # noqa: E402

LIBRARIES = COMMAND.parent / "libraries"
NAMES = ["at", "ch", "de", "eu", "uk", "us"]
COUNT = int(os.environ.get("COUNT", "12"))
OFFICES = max(COUNT // 6, 2)
DAY = "2026-12-01"


def library(*args: object, data: bytes = b"") -> Done:
    """Calls office-library in this process, which saves the start of another one."""
    out, error = io.TextIOWrapper(io.BytesIO(), "utf-8"), io.StringIO()
    with mock.patch("sys.stdin", io.TextIOWrapper(io.BytesIO(data))), redirect_stdout(out), redirect_stderr(error):
        try:
            status = main([str(arg) for arg in args], COMMAND.parent)
        except SystemExit as end:
            status = int(str(end.code))
        except Exception:
            status = 1
            traceback.print_exc()
        out.flush()
    return Done(status, out.buffer.getvalue().decode(), error.getvalue())


def started(*args: object) -> Done:
    """Runs office-library as a command of its own."""
    return run(COMMAND, *args)


def rows_of(text: str) -> list[dict[str, str]]:
    """Reads the rows of a library, or of a register."""
    lines = [line for line in text.removeprefix("\ufeff").splitlines(keepends=True) if not line.startswith("#")]
    return list(csv.DictReader(lines))


def table(text: str) -> list[list[str]]:
    return list(csv.reader(io.StringIO(text, newline="")))


def applied(file: Path, acts: Sequence[object]) -> Done:
    """Applies acts to an office."""
    listed = file.with_suffix(".json")
    listed.write_text(json.dumps(acts))
    return office("apply", file, listed)


def asked(file: Path, query: str) -> list[tuple[object, ...]]:
    """Reads rows of an office's tables."""
    with closing(sqlite3.connect(file)) as tables:
        return tables.execute(query).fetchall()


def judge_refusal(name: str, done: Done, status: int, *parts: str) -> None:
    """Judges that a command ended so, printed nothing, and reported these parts without a traceback."""
    lacks = [part for part in parts if part not in done.error]
    is_short = "Traceback" not in done.error and done.error.startswith("office-library: ")
    judge(name, (done.status, done.out) == (status, "") and is_short and not lacks, (done, lacks), is_quiet=True)
