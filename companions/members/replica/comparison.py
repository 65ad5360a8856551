"""The comparison: are the own answers those of more than half of the members?

Each member reports a hash over all its answers at certain positions. A member whose hash is not the
one of more than half halts. While hashes differ and no half is known, it answers nobody.
"""
from __future__ import annotations

import time
from dataclasses import dataclass

from replica.errors import Halt
from replica.log import Log

AGAIN_SECONDS = 1
GIVEN_UP = 10
"""comparisons later one that nobody decided gives way to the next"""


@dataclass
class Pending:
    """A comparison that is not decided yet."""

    position: int
    chain: str
    due: float = 0.0


class Comparison:
    """The comparisons of one member from its opening on."""

    def __init__(self, log: Log, every: int) -> None:
        self.log, self.every = log, every
        self.pending: Pending | None = None
        self.is_split = False

    def note(self, position: int, chain: str) -> None:
        """The own hash after an entry; one in so many is compared."""
        if position % self.every == 0:
            waits = self.pending is not None and (
                position < self.pending.position + GIVEN_UP * self.every)
            if not waits:
                self.pending = Pending(position, chain)

    def look(self) -> None:
        """Compares what is pending. Halt: more than half of the members answer otherwise."""
        mine = self.pending
        if mine is None or time.monotonic() < mine.due:
            return
        chains, members = self.log.report_chain(mine.position, mine.chain)
        most = max(chains, key=chains.count)
        if 2 * chains.count(most) <= members:
            mine.due = time.monotonic() + AGAIN_SECONDS
            self.is_split = len(set(chains)) > 1
        elif most != mine.chain:
            raise Halt(f"the answers to the entries up to {mine.position} are not those of the "
                       "other members")
        else:
            self.pending, self.is_split = None, False
