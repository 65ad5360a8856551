"""An office that moves to members: its FILE is put aside, so that no service goes on with it.

FILE and its log become FILE.moved and FILE.moved-wal. While both names of FILE are there, no office opens it, so a stop
in the middle leaves nothing that a service could go on with.
"""
from __future__ import annotations

import os
import pathlib

from office_common.files import has_content, is_open, log_of, sync


class NotMoved(Exception):
    """FILE cannot be taken; it is as it was."""


def moved_name(file: pathlib.Path) -> pathlib.Path:
    return file.with_name(f"{file.name}.moved")


def look_at(file: pathlib.Path) -> None:
    """NotMoved where FILE is in use, or is none."""
    if not has_content(file):
        raise NotMoved(f"there is no office in {file}")
    if file.stat().st_nlink > 1:
        raise NotMoved(f"{file} has another name: a restore or a compaction was stopped in the middle")
    if is_open(file):
        raise NotMoved(f"somebody has {file} open: stop the service first, and disable it")


def put_aside(file: pathlib.Path) -> pathlib.Path:
    """Gives FILE and its log their other names. NotMoved where that cannot be."""
    moved = moved_name(file)
    look_at(file)
    for name in (moved, log_of(moved)):
        if name.exists():
            raise NotMoved(f"{name} is there already")
    rename(file, moved)
    return moved


def put_back(file: pathlib.Path) -> None:
    """Takes the names that `put_aside` gave away again."""
    rename(moved_name(file), file)


def rename(old: pathlib.Path, new: pathlib.Path) -> None:
    """Renames FILE and its log, as one that no office opens in between."""
    os.link(old, new)
    try:
        if log_of(old).exists():
            os.rename(log_of(old), log_of(new))
    except OSError:
        os.unlink(new)
        raise
    os.unlink(old)
    sync(old.parent)
