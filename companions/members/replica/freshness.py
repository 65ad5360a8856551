"""How old a reading may be: when this member last heard through a majority where the log ends.

A majority tells the end of the log as it was at some moment after it was asked. Once the entries up to there are done
here, FILE has everything that was answered anywhere before it was asked. The age of a reading counts from that moment,
by the clock of this machine that is never set, and that goes on while the machine sleeps.
"""
from __future__ import annotations

import math
import threading
import time

from replica.errors import NotTaken, Unclear, say
from replica.log import Log

EVERY_SECONDS = 1
"""between two questions for the end of the log"""
LATE_SECONDS = 5
"""after the last answer: then there is no majority to be heard"""
MOST_WAITING = 1000


def now() -> float:
    return time.clock_gettime(time.CLOCK_BOOTTIME)


class Freshness:
    """What one member knows about the end of the log, for any number of threads."""

    def __init__(self, log: Log, limit: int) -> None:
        self.log, self.limit = log, limit
        self.lock = threading.Lock()
        self.waiting: list[tuple[int, float]] = []
        """ends of the log that are not known to be done here, and when each was asked for"""
        self.complete: float | None = None
        """FILE has all that was answered before this moment"""
        self.heard: float | None = None
        self.tail = 0

    def run(self) -> None:
        """Asks again and again. Never returns."""
        while True:
            try:
                self.confirm()
            except (NotTaken, Unclear):
                pass
            except Exception as error:  # without this thread the member would answer no reading any more
                say(f"the end of the log is not known: {error!r}")
            time.sleep(EVERY_SECONDS)

    def confirm(self) -> int:
        """Gives the end of the log, through a majority. NotTaken, Unclear: none answered."""
        moment = now()
        tail = self.log.tail()
        with self.lock:
            self.heard = moment if self.heard is None else max(self.heard, moment)
            self.tail = max(self.tail, tail)
            self.note(tail, moment)
        return tail

    def note(self, tail: int, moment: float) -> None:
        """Adds an end of the log, in their order: what came out of order says nothing more."""
        if self.waiting and tail < self.waiting[-1][0]:
            return
        if self.waiting and tail == self.waiting[-1][0]:
            moment = max(moment, self.waiting.pop()[1])
        self.waiting.append((tail, moment))
        if len(self.waiting) > MOST_WAITING:
            del self.waiting[1::2]

    def age(self, position: int) -> float | None:
        """Gives the seconds since FILE, which is at this position, surely had everything. None: it never surely had."""
        with self.lock:
            while self.waiting and self.waiting[0][0] <= position:
                moment = self.waiting.pop(0)[1]
                self.complete = moment if self.complete is None else max(self.complete, moment)
            return None if self.complete is None else now() - self.complete

    def is_behind(self, position: int) -> bool:
        """Says whether a reading at this position would be older than the limit."""
        age = self.age(position)
        return self.limit > 0 and (age is None or age > self.limit)

    def state(self, position: int) -> dict[str, object]:
        """What /replica tells about it, in whole seconds, rounded up."""
        age = self.age(position)
        with self.lock:
            heard = None if self.heard is None else now() - self.heard
            lag = max(0, self.tail - position)
        return {"age": whole(age), "heard": whole(heard), "lag": lag,
                "quorum": heard is not None and heard < LATE_SECONDS}


def whole(seconds: float | None) -> int | None:
    return None if seconds is None else math.ceil(seconds)
