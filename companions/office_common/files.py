"""FILE, its log and its copies: what they hold, who has them open, and writes that are on the disk once they return."""
import contextlib
import fcntl
import glob
import os
import re
import shutil
import sqlite3
import struct
import tempfile
from collections.abc import Iterator
from pathlib import Path

from office_common.errors import IMPOSSIBLE, Refused

FIRST_FRAME = 32 + 24
"""the bytes of a log's header and of a frame's header. The program and SQLite pass over a shorter log and write a new
one in its place, so no act is in it; one that the program closed has 41"""
LOCKS = (0x40000000, 512)
"""where SQLite and the program lock a file, and how many bytes"""
FLOCK = "hhqqi4x"
"""struct flock of Linux, on machines of 64 bits"""
TIME = re.compile(r"\d{8}T\d{6}Z\.db")


# ---- FILE and its log


def log_of(file: Path) -> Path:
    return file.with_name(f"{file.name}-wal")


def size_of(file: Path) -> int:
    """Returns the bytes of a file, 0 if it is missing."""
    try:
        return file.stat().st_size
    except FileNotFoundError:
        return 0


def has_content(file: Path) -> bool:
    """Returns whether the file is there with a byte in it. In the place of any other the program makes a new office."""
    return file.is_file() and size_of(file) > 0


def has_acts(log: Path) -> bool:
    """Returns whether a log may have acts that its FILE lacks."""
    return size_of(log) >= FIRST_FRAME


def is_locked(file: Path) -> bool:
    """Returns whether a process holds a lock of SQLite on the file, as the program does while it has an office open."""
    with file.open("rb") as opened:
        wanted = struct.pack(FLOCK, fcntl.F_WRLCK, os.SEEK_SET, *LOCKS, 0)
        lock = fcntl.fcntl(opened, fcntl.F_OFD_GETLK, wanted)
    return bool(struct.unpack(FLOCK, lock)[0] != fcntl.F_UNLCK)


def is_open(file: Path) -> bool:
    """Returns whether a process that this user may look into has the file open, or any process has it locked."""
    return is_locked(file) or any(is_same(descriptor, file) for descriptor in descriptors())


def descriptors() -> Iterator[Path]:
    """Lists the open files of the processes that this user may look into. A process may end meanwhile."""
    for process in Path("/proc").glob("[0-9]*"):
        with contextlib.suppress(OSError):
            yield from (process / "fd").iterdir()


def is_same(descriptor: Path, file: Path) -> bool:
    with contextlib.suppress(OSError):
        return descriptor.samefile(file)
    return False


# ---- copies


def copies_in(folder: Path) -> list[Path]:
    """Returns the copies in a folder, oldest first: those that office-backup@NAME made, whose name is a time."""
    return sorted(copy for copy in folder.glob("*.db") if TIME.fullmatch(copy.name))


def check_copy(copy: Path) -> None:
    """Refuses what is no closed copy: a file that is missing or open, or whose log has acts."""
    if not copy.is_file():
        raise Refused(IMPOSSIBLE, f"there is no {copy}")
    if is_locked(copy):
        raise Refused(IMPOSSIBLE, f"somebody has {copy} open: take a copy with office-backup first")
    if has_acts(log_of(copy)):
        raise Refused(IMPOSSIBLE, f"{log_of(copy)} still has acts: take a copy with office-backup first")


def tables_of(copy: Path) -> sqlite3.Connection:
    """Opens a closed copy to be read. SQLite makes no file beside it, and nothing changes."""
    return sqlite3.connect(f"{copy.absolute().as_uri()}?immutable=1", uri=True)


# ---- writes that last


def sync(path: Path) -> None:
    """Waits until a file, or the names in a folder, are on the disk."""
    descriptor = os.open(path, os.O_RDONLY)
    try:
        os.fsync(descriptor)
    finally:
        os.close(descriptor)


def write(file: Path, data: bytes, mode: int = 0o666, owner: tuple[int, int] | None = None) -> None:
    """Puts a whole file in place: a stop at any moment leaves the file that was there, or this one. With a user and a
    group it is theirs before anybody sees it, and has exactly this mode."""
    new = file.with_name(f".{file.name}.new")
    new.unlink(missing_ok=True)
    descriptor = os.open(new, os.O_WRONLY | os.O_CREAT | os.O_EXCL, mode)
    with open(descriptor, "wb") as opened:
        if owner is not None:
            os.fchown(descriptor, *owner)
            os.fchmod(descriptor, mode)
        opened.write(data)
        opened.flush()
        os.fsync(descriptor)
    new.replace(file)
    sync(file.parent)


# ---- locks


@contextlib.contextmanager
def locked(path: Path, waits: bool = False, is_made: bool = False) -> Iterator[None]:
    """Holds the lock of a folder or of a file, which is made first if that is meant. The kernel releases it whatever
    becomes of the process. If it does not wait, a path that another process has locked is refused."""
    try:
        descriptor = os.open(path, os.O_RDWR | os.O_CREAT if is_made else os.O_RDONLY, 0o600)
    except FileNotFoundError:
        raise Refused(IMPOSSIBLE, f"there is no {path}") from None
    try:
        try:
            fcntl.flock(descriptor, fcntl.LOCK_EX | (0 if waits else fcntl.LOCK_NB))
        except BlockingIOError:
            raise Refused(IMPOSSIBLE, f"another process holds {path}") from None
        yield
    finally:
        os.close(descriptor)


# ---- folders for the time of a work


@contextlib.contextmanager
def new_folder(parent: Path, start: str) -> Iterator[Path]:
    """Gives a folder of this process's own, whose name begins so. At the end it goes, with all that is left in it.

    First it removes what a process that was killed left: whoever is at work holds the lock of its folder.
    """
    for left in parent.glob(f"{glob.escape(start)}*"):
        with contextlib.suppress(Refused, OSError), locked(left):
            shutil.rmtree(left)
    path, handle = locked_folder(parent, start)
    try:
        yield path
    finally:
        shutil.rmtree(path, ignore_errors=True)
        os.close(handle)


def locked_folder(parent: Path, start: str) -> tuple[Path, int]:
    """Makes a folder and locks it. Another process may remove one that is not locked yet: then it makes another."""
    while True:
        path = Path(tempfile.mkdtemp(prefix=start, dir=parent))
        with contextlib.suppress(FileNotFoundError):
            handle = os.open(path, os.O_RDONLY | os.O_DIRECTORY)
            fcntl.flock(handle, fcntl.LOCK_EX)
            if path.exists():
                return path, handle
            os.close(handle)
