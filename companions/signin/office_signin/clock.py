"""The two clocks of a session: that of the wall, for the end of the working day, and that of the machine, for durations."""
import datetime
import time
from typing import NamedTuple

from office_signin.settings import Times

DAY = datetime.timedelta(days=1)


class Moment(NamedTuple):
    """A moment by both clocks: nobody sets the machine's, which counts seconds since its start, its sleep included."""

    wall: float
    machine: float


def now() -> Moment:
    return Moment(time.time(), time.clock_gettime(time.CLOCK_BOOTTIME))


def end_of_day(times: Times, wall: float) -> float:
    """Returns when the working day ends that a moment is in. What begins after its end goes on to the next one."""
    here = datetime.datetime.fromtimestamp(wall, times.zone)
    end = here.replace(hour=times.day_ends.hour, minute=times.day_ends.minute, second=0, microsecond=0, fold=0)
    if end <= here:
        end = (end + DAY).replace(tzinfo=times.zone)
    return end.timestamp()


def text_of(wall: float) -> str:
    """Returns a moment as journals have it."""
    return datetime.datetime.fromtimestamp(wall, datetime.timezone.utc).isoformat(timespec="microseconds")
