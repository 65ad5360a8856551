"""The files and mails of a folder: where each is, and its bytes, which must not change while it is filed."""
from __future__ import annotations

import functools
import io
import os
import pathlib
import time
from collections.abc import Iterator
from dataclasses import dataclass
from typing import BinaryIO, NamedTuple, cast

from intaking.boxes import Box, Part, box_in
from intaking.dated import HEAD


@dataclass(frozen=True)
class State:
    """A file as it was when it was looked at: its size, and when it was changed last."""

    size: int
    modified: int
    # also the moment at which it was renamed or got its times: a copy may have the times of the original
    changed: float

    def settled_for(self) -> float:
        """Since how many seconds nobody changes it."""
        return time.time() - max(self.modified / 1e9, self.changed)


def state_of(path: pathlib.Path) -> State:
    seen = path.stat()
    return State(seen.st_size, seen.st_mtime_ns, seen.st_ctime)


class Left(NamedTuple):
    """A file or a mail that is not filed: its name, why, where it is, and whether a later call may file it as it is."""

    name: str
    why: str
    path: pathlib.PurePosixPath
    is_for_later: bool = False

    def __str__(self) -> str:
        return f"{self.name}: {self.why}"


def printed(path: pathlib.PurePosixPath) -> str:
    return str(path).encode("utf-8", "backslashreplace").decode()


@dataclass
class Document:
    """A file, or a mail of a mailbox: where it is, as it was first seen, and its bytes once they are asked for."""

    root: pathlib.Path
    path: pathlib.PurePosixPath
    state: State
    mail: int | None = None

    def name(self) -> str:
        """Returns its name, as each terminal can print it."""
        return printed(self.path) + ("" if self.mail is None else f" mail {self.mail}")

    def file(self) -> pathlib.Path:
        return self.root / self.path

    def is_changed(self) -> bool:
        """Returns whether the file has changed since it was first seen."""
        now = state_of(self.file())
        return (now.size, now.modified) != (self.state.size, self.state.modified)

    def data(self) -> bytes:
        """Returns all of its bytes, which must be few."""
        with self.opened() as file:
            return file.read()

    def opened(self) -> BinaryIO:
        """Opens it for reading, so that a large one is not read whole."""
        if self.mail is None:
            return self.file().open("rb")
        return cast(BinaryIO, io.BufferedReader(Part(self.file(), box_of(self.file()).mails[self.mail - 1])))

    def size(self) -> int:
        if self.mail is None:
            return self.state.size
        span = box_of(self.file()).mails[self.mail - 1]
        return span.end - span.start

    def head(self) -> bytes:
        with self.opened() as file:
            return file.read(HEAD)


@functools.cache
def box_of(path: pathlib.Path) -> Box:
    """Returns a mailbox, whose mails are looked for once."""
    return box_in(path)


def documents(root: pathlib.Path, left: list[Left]) -> Iterator[Document]:
    """Returns all files below a folder, by their names; links are not followed. A mailbox is its mails.

    What cannot be looked at gets a line of `left`.
    """
    for folder, folders, names in os.walk(root):
        folders.sort()
        for name in sorted(names):
            path = pathlib.Path(folder, name)
            if path.is_symlink() or not path.is_file():
                continue
            inside = pathlib.PurePosixPath(path.relative_to(root).as_posix())
            try:
                state = state_of(path)
                box = box_of(path) if path.suffix.lower() == ".mbox" else None
            except (OSError, ValueError) as why:
                left.append(Left(printed(inside), f"it cannot be read: {why.__class__.__name__}", inside, True))
                continue
            if box is None:
                yield Document(root, inside, state)
                continue
            if box.before:
                left.append(Left(printed(inside), f"{box.before:,} bytes are no mail, since each begins with a line From "
                                 f"({len(box.mails)} mails are looked at)", inside))
            yield from (Document(root, inside, state, at) for at in range(1, len(box.mails) + 1))
