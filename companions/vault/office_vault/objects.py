"""The folder of objects: how one comes in, gets a new stamp, is listed and goes out."""
import contextlib
import errno
import hashlib
import os
import re
import shutil
import stat
import time
from collections.abc import Callable, Iterator
from dataclasses import dataclass
from pathlib import Path

from office_common.errors import IMPOSSIBLE, Refused
from office_common.files import locked, sync

DIGEST = re.compile(r"[0-9a-f]{64}")
FOLDERS = [f"{it:02x}" for it in range(256)]
PART = 1 << 18
"""bytes that are held in memory at once"""
SYNCED = 1 << 26
"""after so many bytes those before them go to the disk, so that the last sync is short"""
FULL = (errno.ENOSPC, errno.EDQUOT)


class WrongBytes(Exception):
    """The bytes that came are not those of the digest (`digest`), or are too few (`body`)."""


class NoRoom(Exception):
    """The disk has no room for an object."""


@dataclass(frozen=True)
class Stamp:
    """Which PUT an object comes from: each PUT gives it another one. It is never compared with a clock."""

    inode: int
    put: int


class Vault:
    """A vault in a folder: objects/ab/abcdef.., what goes out in going/, the memory of the sweeps in state.db."""

    def __init__(self, folder: Path) -> None:
        self.folder = folder
        self.objects = folder / "objects"
        self.going = folder / "going"
        self.reports = folder / "reports"
        self.work = folder / "work"
        if not self.objects.is_dir():
            raise Refused(IMPOSSIBLE, f"{folder} is no vault: office-vault make {folder} makes one")

    @classmethod
    def make(cls, folder: Path) -> "Vault":
        """Creates the folders that are missing; the group of the folder may read the objects."""
        for name in [".", *(f"objects/{it}" for it in FOLDERS), "going", "reports", "work"]:
            (folder / name).mkdir(parents=True, exist_ok=True)
        for name in ("going", "reports", "work"):
            (folder / name).chmod(0o700)
        for name in ("objects", "going", "reports", "work", "."):
            sync(folder / name)
        return cls(folder)

    def path(self, digest: str) -> Path:
        """Returns the place of an object. Only a digest names one, so no name leads out of the folder."""
        if not DIGEST.fullmatch(digest):
            raise ValueError(digest)
        return self.objects / digest[:2] / digest

    def lock(self) -> contextlib.AbstractContextManager[None]:
        """Returns the lock that a PUT and a sweep hold for a moment, as they take room, name, renew or take out."""
        return locked(self.folder / "lock", waits=True, is_made=True)

    def sweeping(self) -> contextlib.AbstractContextManager[None]:
        """Returns the lock that a sweep holds, and a mirror into this vault: one of them at a time."""
        return locked(self.folder / "sweep.lock", is_made=True)

    # ---- in

    def room(self, reserve: int) -> int:
        """Returns how many bytes an object may have now, so that the reserve stays free."""
        disk = os.statvfs(self.objects)
        return max(disk.f_bavail * disk.f_frsize - reserve, 0)

    def receive(self, digest: str, length: int, read: Callable[[int], bytes], reserve: int = 0) -> bool:
        """Takes the bytes of an object in and returns whether it is new. It is on the disk then, with a new stamp.

        The file gets its name after its bytes are on the disk and have that digest, so a kill leaves nothing.
        """
        path = self.path(digest)
        try:
            fd = os.open(path.parent, os.O_TMPFILE | os.O_RDWR, 0o440)
            try:
                self.take_room(fd, length, reserve)
                fill(fd, digest, length, read)
                is_new = self.name(fd, path)
            finally:
                os.close(fd)
        except OSError as error:
            if error.errno in FULL:
                raise NoRoom from error
            raise
        sync(path.parent)
        return is_new

    def take_room(self, fd: int, length: int, reserve: int) -> None:
        """Takes the room of an object before its first byte, so that objects at once never take the reserve."""
        with self.lock():
            if self.room(reserve) < length:
                raise NoRoom
            if length:
                os.posix_fallocate(fd, 0, length)

    def name(self, fd: int, path: Path) -> bool:
        """Gives a filled file its name, or a new stamp to the object that is there; returns whether it is new."""
        while True:
            there = stamp_at(path)
            is_sound = there is not None and digest_of(path) == path.name
            with self.lock():
                now = stamp_at(path)
                if (now and now.inode) != (there and there.inode):
                    continue
                if is_sound:
                    renew(path)
                    return False
                if there is None and not os.path.lexists(path):
                    link(fd, path)
                    return True
                # what was there is damaged, or no file
                new = path.with_name(".new")
                new.unlink(missing_ok=True)
                link(fd, new)
                os.replace(new, path)
                return True

    # ---- what is there

    def stamps(self) -> Iterator[tuple[str, Stamp]]:
        """Lists all objects, each with its stamp."""
        for name in FOLDERS:
            for entry in os.scandir(self.objects / name):
                if DIGEST.fullmatch(entry.name) and entry.name[:2] == name and (stamp := stamp_at(Path(entry.path))):
                    yield entry.name, stamp

    def strangers(self) -> list[str]:
        """Lists what is in the folders and is no object."""
        names = [f"{it.name}/{sub.name}" for it in os.scandir(self.objects) if it.is_dir(follow_symlinks=False)
                 for sub in os.scandir(it.path)]
        names += [it.name for it in os.scandir(self.objects) if it.name not in FOLDERS]
        return sorted(it for it in names if not re.fullmatch(r"([0-9a-f]{2})/\1[0-9a-f]{62}", it)
                      or stamp_at(self.objects / it) is None)

    # ---- out

    def take_out(self, digest: str, stamp: Stamp) -> bool:
        """Moves an object out of reach if it still has this stamp; returns whether it did."""
        path = self.path(digest)
        with self.lock():
            if stamp_at(path) != stamp:
                return False
            os.rename(path, self.going / digest)
            return True

    def clear(self) -> None:
        """Removes what a kill left: half-named objects, and copies that no process works with."""
        with self.lock():
            for path in self.objects.glob("*/.new"):
                path.unlink()
        for path in self.work.iterdir():
            with contextlib.suppress(Refused), locked(path):
                shutil.rmtree(path, ignore_errors=True)


def stamp_at(path: Path) -> Stamp | None:
    """Returns the stamp of a file, or None if there is none; a link or a folder is no object."""
    try:
        state = path.lstat()
    except FileNotFoundError:
        return None
    return Stamp(state.st_ino, state.st_mtime_ns) if stat.S_ISREG(state.st_mode) else None


def digest_of(path: Path) -> str | None:
    """Returns the SHA-256 of a file, or None if it is gone or the disk does not read it."""
    try:
        with open(os.open(path, os.O_RDONLY | os.O_NOFOLLOW), "rb") as file:
            return hashlib.file_digest(file, "sha256").hexdigest()
    except OSError:
        return None


def fill(fd: int, digest: str, length: int, read: Callable[[int], bytes]) -> None:
    """Writes so many bytes, which must have this digest, and waits until they are on the disk."""
    sha256, left, unsynced = hashlib.sha256(), length, 0
    while left:
        part = read(min(PART, left))
        if not part:
            raise WrongBytes("body")
        sha256.update(part)
        left -= len(part)
        rest = memoryview(part)
        while rest:
            rest = rest[os.write(fd, rest):]
        unsynced += len(part)
        if unsynced >= SYNCED:
            os.fdatasync(fd)
            unsynced = 0
    if sha256.hexdigest() != digest:
        raise WrongBytes("digest")
    os.utime(fd, ns=(time.time_ns(), time.time_ns()))
    os.fsync(fd)


def link(fd: int, path: Path) -> None:
    """Gives an open file without a name this one."""
    folder = os.open(path.parent, os.O_RDONLY | os.O_DIRECTORY)
    try:
        # Python follows the link of /proc only if a folder is given
        os.link(f"/proc/self/fd/{fd}", path.name, dst_dir_fd=folder, follow_symlinks=True)
    finally:
        os.close(folder)


def renew(path: Path) -> None:
    """Gives an object that is there a new stamp, which is on the disk then."""
    fd = os.open(path, os.O_RDONLY | os.O_NOFOLLOW)
    try:
        now = max(time.time_ns(), os.fstat(fd).st_mtime_ns + 1)
        os.utime(fd, ns=(now, now))
        os.fsync(fd)
    finally:
        os.close(fd)
