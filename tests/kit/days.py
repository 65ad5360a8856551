"""Parts that take today from the clock, as what they try does: none fails because midnight falls into it."""
from __future__ import annotations

import functools
import pathlib
import time
from collections.abc import Callable

from kit.judging import FAILED, PASSED, goes_on

TRIES = 3


def today(days: int = 0) -> str:
    """Returns the day of the clock, or one some days later, in UTC as the trial's commands have it."""
    return time.strftime("%Y-%m-%d", time.gmtime(time.time() + 86_400 * days))


def on_one_day(part: Callable[[pathlib.Path, str], object]) -> Callable[[pathlib.Path], object]:
    """Makes a part that is given the day. If it fails and the day has changed meanwhile, it is run again, and that counts."""
    @functools.wraps(part)
    def run(folder: pathlib.Path) -> None:
        for at in range(TRIES):
            place, day, counts = folder / f"{at}", today(), (len(PASSED), len(FAILED))
            place.mkdir()
            goes_on(part, place, day)
            if len(FAILED) == counts[1] or today() == day:
                return
            del PASSED[counts[0]:], FAILED[counts[1]:]
            print(f"once more: {day} has ended within {part.__name__}", flush=True)
    return run
