"""Snapshots: what FILE and the memo were at one position, each a folder with the sums of its files.

    snapshots/POSITION/     office.db, memo.db, sums (as `sha256sum --check sums` reads it)

The last two are kept. A snapshot is only ever made under another name and renamed, so one that is
there is whole; one whose sums do not agree was damaged later, and is passed over. Nothing is done with
the office while the files are copied; the rest has a thread of its own.
"""
from __future__ import annotations

import hashlib
import os
import pathlib
import shutil
import subprocess
import threading
from typing import ContextManager

from office_common.files import has_content, log_of

from replica.errors import Fault, Halt, say
from replica.memo import Memo
from replica.program import Program

KEPT = 2


def sync(folder: pathlib.Path) -> None:
    """Afterwards the disk has what was written to the file system of this folder."""
    subprocess.run(["sync", "--file-system", folder], check=True)


def copy(files: list[pathlib.Path], folder: pathlib.Path) -> None:
    """Copies files, sharing their blocks where the file system can."""
    subprocess.run(["cp", "--reflink=auto", "--", *files, folder], check=True)


def files_of(file: pathlib.Path) -> list[pathlib.Path]:
    """FILE, and its log where there is one; nothing else that is beside them. Fault where there is no FILE."""
    if not has_content(file):
        raise Fault(f"{file} is gone, or empty")
    log = log_of(file)
    return [file, log] if log.exists() else [file]


def sum_of(file: pathlib.Path) -> str:
    with open(file, "rb") as opened:
        return hashlib.file_digest(opened, "sha256").hexdigest()


def sums_in(folder: pathlib.Path) -> dict[str, str]:
    """Returns the sum of each file of a snapshot, as it was written. OSError, ValueError where there are none."""
    lines = (folder / "sums").read_text(encoding="utf-8").splitlines()
    return dict((name, digest) for digest, name in (line.split("  ") for line in lines))


def sum_in(folder: pathlib.Path, name: str) -> str:
    return sums_in(folder).get(name, "")


def positions_in(folder: pathlib.Path) -> list[int]:
    """Where there are snapshots, the newest first."""
    names = os.listdir(folder) if folder.exists() else []
    return sorted((int(name) for name in names if name.isdigit()), reverse=True)


def has_sums(folder: pathlib.Path) -> bool:
    """Returns whether each file of a snapshot is the one that was written."""
    try:
        wanted = sums_in(folder)
        return {"office.db", "memo.db"} <= set(wanted) and all(
            sum_of(folder / name) == digest for name, digest in wanted.items())
    except (OSError, ValueError):
        return False


class Snapshots:
    """The snapshots of one member, and the work folder that is made of them."""

    def __init__(self, folder: pathlib.Path, program: Program) -> None:
        self.folder, self.work, self.program = folder / "snapshots", folder / "work", program
        self.lock = threading.Lock()
        """held by who reads a whole snapshot, or gives and takes one its name"""
        self.thread: threading.Thread | None = None
        self.halting: str | None = None
        """why the member has to halt, where a snapshot showed that"""

    def place(self, position: int) -> pathlib.Path:
        return self.folder / f"{position:016d}"

    def positions(self) -> list[int]:
        """Where there are snapshots, the newest first."""
        return positions_in(self.folder)

    def restore(self) -> None:
        """Afterwards `work` has the newest snapshot that is as it was written, and nothing else.

        Fault where there is none. A stop in the middle leaves a `work` whose memo is not settled,
        or none, so that the next start restores again.
        """
        with self.lock:
            for position in self.positions():
                place = self.place(position)
                if has_sums(place):
                    shutil.rmtree(self.work, ignore_errors=True)
                    self.work.mkdir(mode=0o700)
                    copy(files_of(place / "office.db"), self.work)
                    copy([place / "memo.db"], self.work)
                    return sync(self.work)
                say(f"damaged: {place}")
                place.rename(f"{place}.damaged")
        raise Fault(f"there is no snapshot in {self.folder}")

    def is_under_way(self) -> bool:
        return self.thread is not None and self.thread.is_alive()

    def take(self, position: int, at_rest: ContextManager[None]) -> None:
        """Copies `work`, whose files nobody changes within `at_rest`; a thread completes the snapshot.

        Where a step fails there is no new snapshot, and the others stay. Fault where FILE is gone.
        """
        new = self.folder / "new"
        try:
            shutil.rmtree(new, ignore_errors=True)
            new.mkdir(mode=0o700)
            with at_rest:
                copy([*files_of(self.work / "office.db"), self.work / "memo.db"], new)
        except (OSError, subprocess.CalledProcessError) as error:
            return self.give_up(position, error)
        self.thread = threading.Thread(target=self.complete, args=(new, position), daemon=True)
        self.thread.start()

    def give_up(self, position: int, error: Exception) -> None:
        say(f"no snapshot at {position}: {error}")
        shutil.rmtree(self.folder / "new", ignore_errors=True)

    def complete(self, new: pathlib.Path, position: int) -> None:
        """Finishes a copy, and drops what is older than the last two."""
        try:
            self.finish(new, position)
            with self.lock:
                for old in self.positions()[KEPT:]:
                    shutil.rmtree(self.place(old))
        except Halt as error:
            self.halting = str(error)
        except (OSError, subprocess.CalledProcessError) as error:
            self.give_up(position, error)

    def make_first(self, file: pathlib.Path | None, epoch: str) -> None:
        """Snapshot 0: of FILE, which nobody has open, or of a new office."""
        new = self.folder / "new"
        shutil.rmtree(new, ignore_errors=True)
        new.mkdir(mode=0o700, parents=True)
        if file is not None:
            for path in files_of(file):
                copy([path], new)
                (new / path.name).rename(new / f"office.db{path.name[len(file.name):]}")
        Memo.make(new / "memo.db", epoch)
        self.finish(new, 0)

    def finish(self, new: pathlib.Path, position: int) -> None:
        """Opens the office in a folder once, so it is one; writes the sums, and gives the folder its name."""
        self.program.run(["init", str(new / "office.db")])
        names = sorted(it.name for it in new.iterdir())
        lines = [f"{sum_of(new / name)}  {name}\n" for name in names]
        (new / "sums").write_text("".join(lines), encoding="utf-8")
        sync(new)
        with self.lock:
            shutil.rmtree(self.place(position), ignore_errors=True)
            new.rename(self.place(position))
        sync(self.folder)
