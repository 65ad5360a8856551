"""How the office stands: whether its administrator closed it for a while, and whether it wrote what it was asked to write."""
import contextlib
import datetime
import json
import time
from pathlib import Path

from office_gate.errors import Answered

FAULT_SECONDS = 900.0
"""so long after an act that met a fault the monitor is told, unless one was done since"""
MOST_BYTES = 100


class Standing:
    """A note of the administrator, which root writes, and the last fault of an act."""

    def __init__(self, note: Path | None = None) -> None:
        self.note = note
        self.faulted: float | None = None

    def until(self) -> str | None:
        """Returns up to when the office is closed, in the time of the note, or None if it is not."""
        text = ""
        with contextlib.suppress(OSError, UnicodeDecodeError):
            text = self.note.read_text(encoding="ascii")[:MOST_BYTES].strip() if self.note else ""
        try:
            moment = datetime.datetime.fromisoformat(text)
        except ValueError:
            return None
        is_over = moment.tzinfo is None or moment <= datetime.datetime.now(datetime.timezone.utc)
        return None if is_over else f"{moment:%Y-%m-%d %H:%M}"

    def need_open(self) -> None:
        """Ends a request that the office did not take, if its administrator closed it: nobody waits for it then."""
        if (until := self.until()) is not None:
            raise Answered(503, "closed", until=until)

    def acted(self, status: int, body: bytes) -> None:
        """Notes whether an act met a fault, as on a full disk, or was answered."""
        if status == 503 and is_fault(body):
            self.faulted = time.monotonic()
        elif status < 500:
            self.faulted = None

    def has_fault(self) -> bool:
        return self.faulted is not None and time.monotonic() - self.faulted < FAULT_SECONDS


def is_fault(data: bytes) -> bool:
    """Returns whether a body reports a fault of the office."""
    try:
        body = json.loads(data)
    except ValueError:
        return False
    return isinstance(body, dict) and isinstance(body.get("fault"), int)
