"""The end of the oldest files of a journal: the head of what goes stays, so that the chain of the rest can be checked."""
import contextlib
import datetime
import fcntl
import os
import subprocess
from collections.abc import Iterator
from dataclasses import dataclass
from pathlib import Path

from office_gate import chain
from office_gate.chain import Head
from office_gate.checking import check, heads_in, moment_of
from office_gate.errors import Refused

DAY = 86400.0


@dataclass(frozen=True)
class Old:
    """A file that may go: its lines, and the days of its first and last time stamps."""

    path: Path
    first: int
    head: Head
    earliest: float
    latest: float

    def text(self) -> str:
        """Describes it for the file of heads."""
        days = f"of {day_of(self.earliest)} to {day_of(self.latest)}"
        return f"{self.head} {self.path.name}, {self.path.stat().st_size} bytes, lines from {self.first}, {days}"


def day_of(moment: float) -> str:
    return datetime.datetime.fromtimestamp(moment, datetime.UTC).date().isoformat()


def heads_of(journal: Path) -> Path:
    """Names the file of the heads of what was dropped."""
    return journal.with_name(f"{journal.name}.heads")


def dropped(journal: Path) -> set[Head]:
    """Reads the heads of what was dropped."""
    place = heads_of(journal)
    return heads_in(place.read_text()) if place.exists() else set()


def read(path: Path) -> Old:
    """Reads what is in a file. Refused says that a line has no time stamp, so that nobody knows its day."""
    first, head, moments = 0, chain.START, []
    for line in chain.lines_of(path):
        entry = chain.entry_of(line)
        if entry is None:
            continue
        moment = moment_of(entry)
        if moment is None:
            raise Refused(1, f"{line.where()}: line {entry['line']} has no time stamp: nothing is dropped")
        moments.append(moment)
        head = Head(int(entry["line"]), chain.digest(line.data))
        first = first or head.line
    if not moments:
        raise Refused(1, f"{path} has no line")
    return Old(path, first, head, min(moments), max(moments))


@contextlib.contextmanager
def appended(journal: Path) -> Iterator[int]:
    """Opens the file of heads, to which lines can only be added, while nobody else does."""
    place = heads_of(journal)
    is_new = not place.exists()
    file = os.open(place, os.O_WRONLY | os.O_CREAT | os.O_APPEND | os.O_CLOEXEC, 0o600)
    try:
        fcntl.flock(file, fcntl.LOCK_EX)
        if is_new:
            like(journal, file)
            mark(place, "+a")
        yield file
    finally:
        os.close(file)


def like(path: Path, file: int) -> None:
    """Gives a file the group and the mode of another one, as far as this user may."""
    with contextlib.suppress(OSError):
        state = path.stat()
        os.fchown(file, -1, state.st_gid)
        os.fchmod(file, state.st_mode & 0o640)


def mark(path: Path, how: str) -> None:
    """Sets or takes away that a file can only be appended to, on a disk that knows this, if this user may."""
    subprocess.run(["chattr", how, "--", str(path)], stderr=subprocess.DEVNULL, check=False)


def going(journal: Path, before: str) -> Iterator[tuple[Old, Path]]:
    """Gives the oldest files that are over, each with the one after it, until one is not. The last file stays."""
    files = chain.files_of(journal)
    for path, after in zip(files, files[1:]):
        old = read(path)
        if path == journal or chain.first_number(after) == chain.NO_LINE or day_of(old.latest) >= before:
            return
        yield old, after


def drop(journal: Path, before: datetime.date, days: int) -> list[str]:
    """Removes the oldest files of which each line is of an earlier day. Returns what it did."""
    files = chain.files_of(journal)
    last = chain.last_entry(files)
    if last is None:
        raise Refused(3, f"there is no journal {journal}")
    # a clock that is ahead drops nothing sooner
    today = min(datetime.datetime.now(datetime.UTC).timestamp(), moment_of(last) or 0.0)
    latest = day_of(today - days * DAY)
    if before.isoformat() > latest:
        raise Refused(2, f"{before} is less than {days} days before the last line of {journal}, and a recovery may need "
                         f"the lines since {latest}")
    known, done = dropped(journal), []
    check(files, known, known)
    with appended(journal) as file:
        for old, after in going(journal, before.isoformat()):
            # the rest has to be whole without it
            check([after], (), {old.head})
            os.write(file, f"{old.text()}, dropped {day_of(today)}\n".encode())
            os.fsync(file)
            remove(old.path)
            done.append(f"dropped {old.path.name}: lines {old.first} to {old.head.line}, head {old.head}")
    return done


def remove(path: Path) -> None:
    """Overwrites and removes a file."""
    mark(path, "-a")
    end = subprocess.run(["shred", "--iterations=1", "--remove", "--", str(path)], stderr=subprocess.PIPE, text=True,
                         check=False)
    if end.returncode:
        raise Refused(3, f"{path} is not removed: {end.stderr.strip()}")
