"""The next entries of the log: those that have come by themselves, and else those that this machine's etcd has."""
from __future__ import annotations

import pathlib
import time

from replica.arrived import Arrived
from replica.entries import Entry
from replica.errors import Fault, NotTaken, Unclear
from replica.log import Log

LOOK_SECONDS = 0.5
"""between two looks at the log where nothing has come"""


class Reading:
    """How one member goes on in the log; for one thread."""

    def __init__(self, log: Log, arrived: Arrived, snapshots: pathlib.Path) -> None:
        self.log, self.arrived, self.snapshots = log, arrived, snapshots
        self.again = 0.0

    def begin(self) -> None:
        """Looks at the log at once: the position is another one."""
        self.again = 0.0

    def after(self, position: int) -> list[Entry]:
        """Returns the entries after a position; none where etcd does not answer.

        Fault where they are not there any more.
        """
        entries = self.arrived.after(position)
        if entries or not self.arrived.lacks_some() and time.monotonic() < self.again:
            return entries
        self.arrived.has_missed = False
        try:
            entries, tail = self.log.after(position)
        except (NotTaken, Unclear):
            self.arrived.has_missed = True
            return []
        self.again = 0.0 if entries else time.monotonic() + LOOK_SECONDS
        if entries[0].position != position + 1 if entries else tail > position:
            raise Fault(f"the log does not have {position + 1} any more: copy a snapshot of another member into "
                        f"{self.snapshots}")
        return entries
