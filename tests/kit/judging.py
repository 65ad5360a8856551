"""Judgements of a trial: each is counted, a step that raises is a failed one, and the last line has the counts."""
from __future__ import annotations

import os
import traceback
from collections.abc import Callable, Iterable

MOST_SHOWN = 2_000
STOPS, PRINTS_ALL = "stops at the first failure", "prints each judgement"
WAYS = {STOPS} if "STOP_AT_FIRST" in os.environ else set()
"""how the trial goes on: the trial of a trial needs no more than the first failure"""
PASSED: list[str] = []
FAILED: list[str] = []


class Stopped(BaseException):
    """The end of a trial before its last step: by a signal, or at the first failure if that was wanted."""


def stop_at_first() -> None:
    """Ends the trial at its first failure."""
    WAYS.add(STOPS)


def print_all() -> None:
    """Prints the lines of quiet judgements that hold, too."""
    WAYS.add(PRINTS_ALL)


def judge(name: str, holds: object, seen: object = "", *, is_quiet: bool = False, always: bool = False) -> bool:
    """Counts a judgement and prints its line, a quiet one only if it fails; `seen` is printed if it fails, or always."""
    (PASSED if holds else FAILED).append(name)
    if not holds:
        print(f"FAILED: {name}" + (f"\n    {seen}"[:MOST_SHOWN] if seen != "" else ""), flush=True)
        if STOPS in WAYS:
            raise Stopped
    elif not is_quiet or PRINTS_ALL in WAYS:
        print(f"passed: {name}" + (f" ({seen})" if always else ""), flush=True)
    return bool(holds)


def same(name: str, actual: object, wanted: object) -> bool:
    """Judges that a whole answer is the wanted one, and prints both if it is not."""
    both = f"is   {str(actual)[:MOST_SHOWN // 2]}\n    and not {str(wanted)[:MOST_SHOWN // 2]}"
    return judge(name, actual == wanted, both, is_quiet=True)


def absent(name: str, text: str, parts: Iterable[str]) -> bool:
    """Judges that none of the parts is in a text."""
    there = [part for part in parts if part in text]
    return judge(name, not there, there)


def goes_on(step: Callable[..., object], *operands: object, name: str = "") -> bool:
    """Runs a step. If it raises, that is a failed judgement with the last line of its traceback, and the next goes on."""
    try:
        step(*operands)
    except (Exception, SystemExit) as why:
        last = traceback.format_exception(why)[-1].strip()
        place = traceback.extract_tb(why.__traceback__)[-1]
        return judge(f"{name or step.__name__} comes to its end", False, f"{place.filename}:{place.lineno}: {last}")
    return True


def ended() -> int:
    """Prints the counts as the last line, and returns the status of the trial: a trial that judged nothing fails."""
    if not PASSED and not FAILED:
        judge("there are judgements", False)
    print(f"{len(PASSED)} passed, {len(FAILED)} failed", flush=True)
    return 1 if FAILED else 0
