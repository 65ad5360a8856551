"""The watch over the program: one that neither works nor answers is ended, and started again."""
import fcntl
import os
import pathlib
import time

from office_common.notify import alive

STEPS = 6
"""how often the program is looked at before it counts as hung"""


def is_paused(file: pathlib.Path) -> bool:
    """Returns whether office-backup pauses the program: it locks the folder of FILE for as long."""
    try:
        folder = os.open(file.parent, os.O_RDONLY | os.O_DIRECTORY)
    except OSError:
        return False
    try:
        fcntl.flock(folder, fcntl.LOCK_EX | fcntl.LOCK_NB)
    except BlockingIOError:
        return True
    except OSError:
        return False
    finally:
        os.close(folder)
    return False


def work_of(pid: int) -> tuple[str, ...]:
    """Returns what grows while a process works: the time of its processors, and how often it waited for something."""
    try:
        process = pathlib.Path(f"/proc/{pid}")
        times = (process / "stat").read_text().rpartition(")")[2].split()[11:15]
        switches = [it for it in (process / "status").read_text().splitlines() if "ctxt_switches" in it]
    except OSError:
        return ()
    return (str(pid), *times, *switches)


class Watch:
    """Knows since when the program has done nothing, and tells systemd that office-serve itself goes on."""

    def __init__(self, file: pathlib.Path, seconds: float) -> None:
        self.file = file
        self.seconds = seconds
        self.step = seconds / STEPS
        self.work: tuple[str, ...] = ()
        self.since = self.looked = time.monotonic()

    def begin(self) -> None:
        """Begins to count: from now on the program has something to do."""
        self.since = time.monotonic()

    def is_time(self) -> bool:
        """Returns whether a step has passed since the program was looked at, and notes that it is looked at now."""
        now = time.monotonic()
        if now - self.looked < self.step:
            return False
        self.looked = now
        alive()
        return True

    def is_hung(self, pid: int) -> bool:
        """Returns whether the program has done nothing for too long, though nobody paused it."""
        if not self.is_time():
            return False
        work = work_of(pid)
        if work != self.work or is_paused(self.file):
            self.work, self.since = work, self.looked
        return self.looked - self.since > self.seconds
