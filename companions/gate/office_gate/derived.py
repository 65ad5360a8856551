"""Files of tables that the gate derives from its journal, so that a damaged one can be made anew."""
import sqlite3
from collections.abc import Callable
from pathlib import Path

from office_gate.errors import Refused, say


def open_derived(path: Path, opened: Callable[[Path], sqlite3.Connection]) -> sqlite3.Connection:
    """Opens a file of tables. If it is damaged, or of another version, that is reported and the file is made anew."""
    try:
        return opened(path)
    except sqlite3.DatabaseError as error:
        say(f"{path} is made anew: {error}")
    for end in ("", "-wal", "-shm"):
        Path(f"{path}{end}").unlink(missing_ok=True)
    try:
        return opened(path)
    except sqlite3.DatabaseError as error:
        raise Refused(3, f"{path}: {error}") from error
