"""An entry that this machine cannot do: after some failures the state before it is read meanwhile.

No member leaves an entry out by itself. It tries again after a pause that grows, and at its next start. A list of acts
that needs more memory or more disk than there is, is one that waits here. Meanwhile it promises the others not to do
the entry, so that an operator can have it refused (refusing.py), and takes the promise back before each further try.
The promise is on the disk before anybody hears of it.
"""
from __future__ import annotations

import pathlib
import time

from office_common import files

from replica.errors import say

FAILURES = 3
"""in a row at one position, until the entry is left alone for a while"""
FIRST_PAUSE, LONGEST_PAUSE = 30, 600
LOOK_SECONDS = 2
"""between two looks whether the entry was refused"""


class Blocked:
    """The entry at which this member failed last; for one thread."""

    def __init__(self, folder: pathlib.Path) -> None:
        self.file = folder / "promised"
        self.position: int | None = None
        self.failures, self.until, self.pause, self.reason = 0, 0.0, FIRST_PAUSE, ""
        self.looked = 0.0
        self.promised = self.read()
        """the entry that is not done before the promise is taken back"""

    def failed(self, position: int, reason: str) -> None:
        """Counts a failure of the entry at this position."""
        if position != self.position:
            self.position, self.failures, self.pause = position, 0, FIRST_PAUSE
        self.failures, self.reason = self.failures + 1, reason
        if self.failures >= FAILURES:
            self.until = time.monotonic() + self.pause
            self.pause = min(2 * self.pause, LONGEST_PAUSE)

    def done(self, position: int) -> None:
        """Forgets the failures of an entry that was done."""
        if position == self.position:
            self.position, self.failures = None, 0

    def is_waiting(self) -> bool:
        return self.failures >= FAILURES and time.monotonic() < self.until

    def held(self) -> int | None:
        """Returns the entry that may not be done now, if there is one."""
        return self.promised if self.promised is not None else self.position if self.is_waiting() else None

    def why(self) -> str:
        if not self.failures:
            return f"entry {self.promised} was not done here, and this machine has promised not to: it asks the others"
        return (f"entry {self.held()} was not done in {self.failures} tries, and is tried again later; readings are of "
                f"the state before it: {self.reason}")

    def is_time_to_look(self) -> bool:
        """Says so every few seconds."""
        if time.monotonic() - self.looked < LOOK_SECONDS:
            return False
        self.looked = time.monotonic()
        return True

    # ---- the promise

    def read(self) -> int | None:
        try:
            return int(self.file.read_text("ascii"))
        except (OSError, ValueError):
            return None

    def promise(self) -> int | None:
        """Promises not to do the entry that waits, and gives its position; None where none waits, the promise is there,
        or the disk does not take it."""
        if self.promised is not None or not self.is_waiting():
            return None
        try:
            self.write()
        except OSError as error:
            if self.is_time_to_look():
                say(f"entry {self.position} is not promised: {error}")
            return None
        self.promised = self.position
        return self.promised

    def write(self) -> None:
        files.write(self.file, str(self.position).encode())

    def release(self) -> None:
        """Takes the promise back here, once the others have it no more, or the entry was refused."""
        self.file.unlink(missing_ok=True)
        self.promised = None
