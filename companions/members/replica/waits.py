"""Waiting until a member is somewhere: whoever waits is told once, when what it waits for is so."""
from __future__ import annotations

import threading
from concurrent.futures import Future
from typing import Callable, NamedTuple


class Wait(NamedTuple):
    """What somebody waits for, and how that is told."""

    is_so: Callable[[], bool]
    future: Future[bool]


class Waits:
    """Those who wait. What they wait for changes only under `lock`, and `wake` is called within it."""

    def __init__(self) -> None:
        self.lock = threading.RLock()
        self.waiting: list[Wait] = []

    def wake(self) -> None:
        """Tells those for whom it is so now, and forgets those who have given up."""
        left = []
        for waiting in self.waiting:
            if waiting.is_so():
                if waiting.future.set_running_or_notify_cancel():
                    waiting.future.set_result(True)
            elif not waiting.future.cancelled():
                left.append(waiting)
        self.waiting = left

    def until(self, is_so: Callable[[], bool]) -> Future[bool]:
        """Is told True once it is so. Whoever gives up cancels it."""
        mine = Wait(is_so, Future())
        with self.lock:
            if is_so():
                mine.future.set_result(True)
            else:
                self.waiting.append(mine)
        return mine.future
