"""Entries that have come to a member without its asking: its own ones, and those that its etcd tells of.

Each is in the log, on a majority, so it need not be read.
"""
from __future__ import annotations

import threading
from typing import Sequence

from replica.entries import Entry

MOST, LONGEST = 1000, 33_554_432
"""entries, and bytes of their bodies, that are kept; what comes beyond is read from etcd"""


class Arrived:
    """The entries that are kept until the follower has them, for any number of threads."""

    def __init__(self) -> None:
        self.lock = threading.Lock()
        self.entries: dict[int, Entry] = {}
        self.size = self.done = 0
        self.has_missed = True
        """there may be entries of which nothing has come"""

    def is_new(self, position: int) -> bool:
        return position > self.done and position not in self.entries

    def add(self, entries: Sequence[Entry]) -> None:
        with self.lock:
            for entry in entries:
                if len(self.entries) >= MOST or self.size >= LONGEST:
                    self.has_missed = True
                elif self.is_new(entry.position):
                    self.entries[entry.position] = entry
                    self.size += len(entry.body)

    def after(self, position: int) -> list[Entry]:
        """Returns the entries after a position, up to the first that is missing, and forgets those before."""
        with self.lock:
            self.done = position
            for past in [it for it in self.entries if it <= position]:
                self.size -= len(self.entries.pop(past).body)
            following: list[Entry] = []
            while (entry := self.entries.get(position + 1 + len(following))) is not None:
                following.append(entry)
        return following

    def lacks_some(self) -> bool:
        """Returns whether the next entry has to be read: something was missed, or a later one is here."""
        return self.has_missed or bool(self.entries)
