"""Copies the office of a member, whole and as of now, while the member goes on.

    copy CONFIG COPY

COPY is a new file: an office that nobody has open, as of an entry that is no earlier than the one at which the member
is as this begins. The member makes a snapshot for it, unless its newest is there already; the sum of the copy is that of
the snapshot. The member's user runs it. Status 0 where COPY is there, 1 where COPY was there before, 2 for wrong
settings or operands, 3 where the member makes no snapshot within ten minutes, or a step fails.
"""
from __future__ import annotations

import json
import os
import pathlib
import shutil
import signal
import sys
import time

from office_common.client import Client
from office_common.errors import NoAnswer
from office_common.files import sync

from replica.settings import Settings, read_settings
from replica.snapshots import positions_in, sum_in, sum_of

SNAPSHOT_SECONDS, LOOK_SECONDS, ASK_SECONDS = 600, 0.5, 60


class NotCopied(Exception):
    """There is no copy."""


def position_of(settings: Settings) -> int:
    """Where the member is now."""
    try:
        return int(json.loads(Client(str(settings.listen), 10).ask("GET", "/replica").body)["position"])
    except (NoAnswer, ValueError, KeyError) as error:
        raise NotCopied(f"the member at port {settings.listen} does not say where it is: {error!r}") from error


def ask_for_snapshot(settings: Settings) -> None:
    """Sends SIGHUP to the member that has the folder."""
    try:
        os.kill(int((settings.folder / "lock").read_text("ascii")), signal.SIGHUP)
    except (OSError, ValueError) as error:
        raise NotCopied(f"no member has {settings.folder}: {error}") from error


def snapshot(settings: Settings) -> pathlib.Path:
    """Returns the newest snapshot, once it is no earlier than the member is now."""
    wanted, began, requested = position_of(settings), time.monotonic(), 0.0
    folder = settings.folder / "snapshots"
    while time.monotonic() - began < SNAPSHOT_SECONDS:
        newest = max(positions_in(folder), default=-1)
        if newest >= wanted:
            return folder / f"{newest:016d}"
        if not requested or time.monotonic() - requested > ASK_SECONDS:
            ask_for_snapshot(settings)
            requested = time.monotonic()
        time.sleep(LOOK_SECONDS)
    raise NotCopied(f"the member made no snapshot of {wanted} or later in {SNAPSHOT_SECONDS} seconds")


def copy(settings: Settings, to: pathlib.Path) -> None:
    """Makes the copy, under another name until it is whole."""
    source, new = snapshot(settings), to.with_name(f"{to.name}.new")
    try:
        shutil.copyfile(source / "office.db", new)
        if sum_of(new) != sum_in(source, "office.db"):
            raise NotCopied(f"{source} is damaged")
        sync(new)
        os.link(new, to)
        sync(to.parent)
    finally:
        new.unlink(missing_ok=True)
    print(f"{to}: the office at entry {int(source.name)}")


def main() -> None:
    if len(sys.argv) != 3:
        print(__doc__, file=sys.stderr)
        raise SystemExit(2)
    os.umask(0o077)
    settings, to = read_settings(sys.argv[1]), pathlib.Path(sys.argv[2]).absolute()
    if to.exists():
        print(f"not copied: {to} is there already", file=sys.stderr)
        raise SystemExit(1)
    try:
        copy(settings, to)
    except (NotCopied, OSError, ValueError) as error:
        print(f"not copied: {error}", file=sys.stderr)
        raise SystemExit(3) from error
