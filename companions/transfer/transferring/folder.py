"""A new folder that is written beside its place and gets its name once it is whole."""
from __future__ import annotations

import contextlib
import filecmp
import hashlib
import os
from collections.abc import Iterable, Iterator
from dataclasses import dataclass, field
from pathlib import Path

from office_common import files
from office_common.errors import IMPOSSIBLE, WRONG, Refused
from office_common.files import sync


@dataclass(frozen=True)
class File:
    """A file that was written: its name in the folder, its SHA-256, its length and its media type."""

    name: str
    digest: str
    length: int
    media: str


@dataclass
class Folder:
    """A folder that is being written, and the files in it in the order of their writing."""

    path: Path
    files: list[File] = field(default_factory=list)

    def put(self, name: str, parts: Iterable[bytes], media: str) -> File:
        """Writes a new file to the disk, and returns what it is."""
        path, sha256, length = self.path / name, hashlib.sha256(), 0
        path.parent.mkdir(parents=True, exist_ok=True)
        with path.open("xb") as file:
            for part in parts:
                file.write(part)
                sha256.update(part)
                length += len(part)
            file.flush()
            os.fsync(file.fileno())
        self.files.append(File(name, sha256.hexdigest(), length, media))
        return self.files[-1]


def parent_of(target: Path) -> Path:
    parent = target.absolute().parent
    if not parent.is_dir() or not target.name or target.name in (".", ".."):
        raise Refused(IMPOSSIBLE, f"there is no folder {parent} for a folder {target.name}")
    return parent


@contextlib.contextmanager
def new_folder(target: Path) -> Iterator[Folder]:
    """Gives a folder beside the target, under a name that begins with a dot."""
    with files.new_folder(parent_of(target), f".{target.name[:100]}.new-") as path:
        yield Folder(path)


def differing(one: Path, other: Path) -> list[str]:
    """Returns the names of files that are in one of two folders alone, or have other bytes in the other."""
    sides = [{str(it.relative_to(side)) for it in side.rglob("*") if not it.is_dir()} for side in (one, other)]
    both = sides[0] & sides[1]
    return sorted((sides[0] ^ sides[1]) | {it for it in both if not filecmp.cmp(one / it, other / it, shallow=False)})


def finish(folder: Folder, target: Path) -> bool:
    """Gives the folder its name: whether it is new. If one of that name is there, it must be the same to the byte."""
    if target.exists() or target.is_symlink():
        others = differing(folder.path, target) if target.is_dir() else [target.name]
        if others:
            raise Refused(WRONG, f"{target} is there, and another: {', '.join(others[:5])} differ; nothing was written")
        return False
    for at, _, _ in os.walk(folder.path):
        sync(Path(at))
    try:
        os.rename(folder.path, target)
    except OSError as why:
        raise Refused(IMPOSSIBLE, f"{target} was not put in its place: {why}") from why
    sync(parent_of(target))
    return True
