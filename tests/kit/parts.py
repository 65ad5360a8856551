"""The parts of a trial: each is a function with a new folder of its own, and none hides the next."""
from __future__ import annotations

import pathlib
import signal
import sys
import tempfile
import time
from collections.abc import Callable, Sequence
from typing import NoReturn

from kit.judging import Stopped, ended, goes_on, judge

Part = Callable[[pathlib.Path], object]


def run_parts(parts: Sequence[Part], arguments: Sequence[str], usage: str | None) -> int:
    """Runs the parts that the arguments name, or all, prints the counts, and returns the status of the trial."""
    named = {part.__name__.rstrip("_"): part for part in parts}
    if not set(arguments) <= set(named):
        sys.exit(usage)
    signal.signal(signal.SIGTERM, stop)
    try:
        for name in arguments or named:
            run_part(name, named[name])
    except Stopped:
        judge_stop()
    return ended()


def run_part(name: str, part: Part) -> None:
    """Runs a part in a folder of its own, which goes with its end."""
    print(f"{name}:", flush=True)
    began = time.monotonic()
    with tempfile.TemporaryDirectory(prefix=f"{name}-", ignore_cleanup_errors=True) as folder:
        # a part may run something as another user there
        pathlib.Path(folder).chmod(0o755)
        goes_on(part, pathlib.Path(folder), name=name)
    print(f"{name}: {time.monotonic() - began:.0f} seconds", flush=True)


def judge_stop() -> None:
    """Counts the end before the last part as a failure."""
    try:
        judge("the trial comes to its last part", False)
    except Stopped:
        pass


def stop(*_: object) -> NoReturn:
    """Ends the trial at a signal, with what it started."""
    raise Stopped
