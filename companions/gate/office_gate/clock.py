"""The clock of the machine, and whether it is believed: a day that is too late cannot be taken back.

The clock is believed while it goes as the machine counts, or if the system says that it is synchronised. Otherwise
nothing is done by it until it is right again, or a person says that it is right.
"""
import ctypes
import datetime
import math
import os
import time
from collections.abc import Callable
from pathlib import Path
from typing import NamedTuple, Protocol

from office_gate.errors import Answered, Refused, say

MOST_AHEAD = 36 * 3600.0
"""so many seconds the clock may be ahead of what the machine counted: a night and a day that it was off"""
MOST_BACK = 300.0
"""so many seconds it may be behind"""
LEAST_KEPT = 3600.0
"""so often, in seconds, the moment is written down while nothing happens"""
WORD = "clock-is-right"
"""the file by which a person says that the clock is right"""
TIMESYNCD = Path("/run/systemd/timesync/synchronized")
UNSYNCHRONISED, TIMEX_BYTES = 5, 512
"""what adjtimex returns of a clock that nobody keeps right, and more room than it needs"""

LIBRARY = ctypes.CDLL(None, use_errno=True)

Synchronised = Callable[[], bool]


class Moment(NamedTuple):
    """A time by the clock, and how many seconds the machine had counted by then, with those of its sleep."""

    at: float
    counted: float

    def text(self) -> str:
        return f"{self.at:.3f} {self.counted:.3f}\n"

    def after(self, counted: float) -> float:
        """Returns what the clock has to show once the machine has counted so far. After a start it counts anew."""
        return self.at + (counted - self.counted if counted >= self.counted else counted)


class Lines(Protocol):
    """A journal, as far as the clock needs one."""

    async def append(self, entry: dict[str, object]) -> object: ...


def now() -> Moment:
    return Moment(time.time(), time.clock_gettime(time.CLOCK_BOOTTIME))


def is_synchronised() -> bool:
    """Asks the system whether the clock is kept right by others, as by chrony or timesyncd."""
    state = int(LIBRARY.adjtimex(ctypes.byref(ctypes.create_string_buffer(TIMEX_BYTES))))
    # a unit may forbid the call
    return TIMESYNCD.exists() if state < 0 else state != UNSYNCHRONISED


def read(place: Path) -> Moment | None:
    """Reads a moment that was written down, or returns None if there is none."""
    try:
        at, counted = map(float, place.read_text().split())
    except (OSError, ValueError):
        return None
    return Moment(at, counted) if math.isfinite(at) and math.isfinite(counted) else None


def write(place: Path, moment: Moment, mode: int = 0o600) -> None:
    """Writes a moment down, in the place of an older one."""
    new = place.with_name(f"{place.name}.new")
    new.unlink(missing_ok=True)
    file = os.open(new, os.O_WRONLY | os.O_CREAT | os.O_EXCL | os.O_CLOEXEC, mode)
    try:
        os.fchmod(file, mode)
        os.write(file, moment.text().encode())
        os.fsync(file)
    finally:
        os.close(file)
    new.rename(place)


def doubt(then: Moment, at: Moment) -> str:
    """Says how the clock differs from what the machine counted since a moment that was believed, if it is too much."""
    ahead = at.at - then.after(at.counted)
    if -MOST_BACK <= ahead <= MOST_AHEAD:
        return ""
    return f"{datetime.timedelta(seconds=round(abs(ahead)))} {'ahead of' if ahead > 0 else 'behind'}"


class Clock:
    """The last moment that was believed. It is in a file, so that it outlasts a start."""

    def __init__(self, state: Path, last: float | None, synchronised: Synchronised = is_synchronised) -> None:
        """Begins with the moment of the file, or else with the time stamp of the last line of the journal."""
        self.place, self.word, self.synchronised = state / "clock", state / WORD, synchronised
        current = now()
        self.moment = read(self.place) or (current if last is None else Moment(last, current.counted))
        self.kept = 0.0
        self.is_doubted = False
        # what the journal does not say yet
        self.news: dict[str, object] | None = None

    def is_believed(self) -> bool:
        """Returns whether acts may go by the clock as it is now."""
        current = now()
        if self.synchronised():
            self.believe(current, "synchronised")
            return True
        why = doubt(self.moment, current)
        if why and self.takes_word(current):
            return True
        if why:
            self.deny(why)
            return False
        # while the machine runs, steps of the clock add up
        has_started = current.counted < self.moment.counted
        self.believe(current if has_started else Moment(self.moment.after(current.counted), current.counted), "right again")
        return True

    def takes_word(self, current: Moment) -> bool:
        """Returns whether a person said that the clock is right, and it has gone since as the machine counts."""
        word = read(self.word)
        if word is None or doubt(word, current):
            return False
        self.word.unlink(missing_ok=True)
        self.is_doubted = True
        self.believe(current, "somebody said that it is right")
        return True

    def believe(self, moment: Moment, why: str) -> None:
        self.moment = moment
        if self.is_doubted:
            say(f"the clock is believed: {why}")
            self.is_doubted, self.news = False, {"believed": True, "why": why}

    def deny(self, why: str) -> None:
        """Says once why the clock is not believed, and what to do."""
        if self.is_doubted:
            return
        self.is_doubted, self.news = True, {"believed": False, "why": f"{why} what the machine counted"}
        say(f"the clock is {why} what the machine counted since it was believed last, and nothing says that it is "
            f"synchronised: no act is done and no content removed until it is right. If it is right: office-gate "
            f"{WORD} {self.place.parent}")

    def keep(self, is_asked: bool = False) -> None:
        """Writes the moment down for the next start, each hour or as it is asked for."""
        if not is_asked and abs(self.moment.counted - self.kept) < LEAST_KEPT:
            return
        try:
            write(self.place, self.moment)
            self.kept = self.moment.counted
        except OSError as error:
            say(f"{self.place} is not written: {error}")

    async def need(self, journal: Lines) -> None:
        """Refuses to act by a clock that is not believed."""
        is_believed = self.is_believed()
        await self.note(journal)
        if not is_believed:
            raise Answered(503, "clock")

    async def note(self, journal: Lines) -> None:
        """Writes into the journal that the clock is believed no more, or again."""
        news, self.news = self.news, None
        if news is None:
            return
        try:
            await journal.append({"what": "clock", **news})
        except Answered:
            self.news = self.news or news
            raise


def say_right(state: Path) -> str:
    """Writes down that the clock is right as it is now. Returns what it shows."""
    if not state.is_dir():
        raise Refused(2, f"there is no folder {state}: it is that of the gate, as /var/lib/office-gate/NAME")
    # root may write it, and the gate reads it
    write(state / WORD, now(), 0o644)
    return datetime.datetime.now().astimezone().isoformat(timespec="seconds")
