"""Waiting for an event in place of seconds."""
from __future__ import annotations

import time
from collections.abc import Callable

from kit.commands import SECONDS

STEP = 0.02


def comes(event: Callable[[], object], seconds: float = SECONDS) -> bool:
    """Waits for an event, and returns whether it came; after as many seconds it does not come on a busy machine either."""
    until = time.monotonic() + seconds
    while not event():
        if time.monotonic() > until:
            return False
        time.sleep(STEP)
    return True


def next_second() -> None:
    """Waits until the clock shows another second: a name that has the second in it is not given twice."""
    second = int(time.time())
    comes(lambda: int(time.time()) != second)
