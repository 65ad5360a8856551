"""Where files go after an intake: what is filed to one folder, and what is not to another, with the reason beside it."""
from __future__ import annotations

import pathlib
from collections.abc import Sequence
from typing import NamedTuple

from intaking.files import Document, Left, printed


class Places(NamedTuple):
    """The folder that files come to, that of filed ones, and that of those that somebody has to look at."""

    folder: pathlib.Path
    done: pathlib.Path
    look: pathlib.Path


def unused(path: pathlib.Path) -> pathlib.Path:
    """Returns a path, or the next one after it that no file has."""
    names = (path.with_name(f"{path.stem}-{at}{path.suffix}") for at in range(2, 1_000_000))
    return path if not path.exists() else next(each for each in names if not each.exists())


def move(document: Document, target: pathlib.Path, why: str) -> bool:
    """Moves a file, unless it has changed since it was looked at: then it stays for the next call."""
    if document.is_changed():
        return False
    target.parent.mkdir(parents=True, exist_ok=True)
    free = unused(target)
    if why:
        # the reason is there before the file is
        free.with_name(f"{free.name}.why.txt").write_text(why, encoding="utf-8", errors="backslashreplace")
    document.file().rename(free)
    return True


class Moved(NamedTuple):
    """How many files went to be looked at, and lines about those that could not be moved."""

    looked: int
    stuck: list[str]


def moved(places: Places, there: Sequence[Document], left: Sequence[Left]) -> Moved:
    """Moves each file, but those that a later call may file."""
    reasons: dict[pathlib.PurePosixPath, list[Left]] = {}
    for one in left:
        reasons.setdefault(one.path, []).append(one)
    looked, stuck = 0, []
    for document in {each.path: each for each in there}.values():
        why = reasons.get(document.path, [])
        if any(each.is_for_later for each in why):
            continue
        target = (places.look if why else places.done) / document.path
        try:
            looked += move(document, target, "".join(f"{each}\n" for each in why)) and bool(why)
        except OSError as error:
            stuck.append(f"{printed(document.path)} cannot be moved: {error.strerror}")
    return Moved(looked, stuck)
