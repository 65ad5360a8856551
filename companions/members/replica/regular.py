"""Regular snapshots: what a run destroyed leaves the log, though few entries come or none.

The log is dropped up to the older snapshot of each member. So after each entry two snapshots are owed, at two
positions. Where no entry comes in between, an entry of no acts makes the second position.
"""
from __future__ import annotations

import time
import zlib

from replica.entries import NO_ACTS, Entry
from replica.snapshots import KEPT

ASK_SECONDS = 60
"""between two tries to put an entry of no acts"""


class Regular:
    """When one member owes a snapshot; for one thread."""

    def __init__(self, seconds: int, name: str) -> None:
        """The time between two is shorter by up to a quarter, another at each member: so not all copy at once."""
        self.seconds = seconds * (1 - zlib.crc32(name.encode()) % 100 / 400)
        self.owed, self.last = KEPT, time.monotonic()
        self.asked = 0.0

    def note(self, entry: Entry) -> None:
        """Owes snapshots again after an entry that may have done something."""
        if (entry.kind, entry.body) != ("acts", NO_ACTS):
            self.owed = KEPT

    def taken(self) -> None:
        self.owed, self.last = max(0, self.owed - 1), time.monotonic()

    def is_soon(self, seconds: int) -> bool:
        """Returns whether so few seconds have gone by since the last one, or since the start."""
        return time.monotonic() - self.last < seconds

    def may_ask(self) -> bool:
        """Says so once a minute: what it asks for may fail while there is no majority."""
        if self.asked and time.monotonic() - self.asked < ASK_SECONDS:
            return False
        self.asked = time.monotonic()
        return True

    def is_due(self, is_full: bool) -> bool:
        """Returns whether one is owed since long, or at all while etcd is nearly full: no entry comes then."""
        return self.owed > 0 and (is_full or self.seconds > 0 and time.monotonic() - self.last > self.seconds)
