"""The begin of a log: snapshot 0 at one member, and the log of its name in etcd.

    found CONFIG [FILE]
    found CONFIG --copy COPY

FILE is an office that nobody has open; without it a new office is made. Where the log was begun FILE and its log are
FILE.moved and FILE.moved-wal afterwards, so that no service goes on with them. COPY is a copy of an office, as of a
backup, and stays as it is. Copy the folder `snapshots` to the other members before they start. Status 0 where it was done, 1 where there is a log of this name, or snapshots, already, 2 for
wrong settings, 3 where a step failed or FILE is in use.
"""
from __future__ import annotations

import os
import pathlib
import shutil
import subprocess
import sys
import uuid

from replica.errors import Fault, Halt, NotTaken, Unclear
from replica.etcd import Etcd
from replica.log import Log
from replica.moving import NotMoved, look_at, put_aside, put_back
from replica.program import Program
from replica.settings import Settings, read_settings
from replica.snapshots import Snapshots


def found(settings: Settings, file: pathlib.Path | None, copy: pathlib.Path | None = None) -> int:
    """Makes both, or neither but for a snapshot that the next call begins with."""
    program = Program(settings.office, settings.disk)
    log = Log(settings, Etcd(settings.etcd, settings.tls()), program.digest)
    snapshots = Snapshots(settings.folder, program)
    if snapshots.positions():
        print(f"there are snapshots in {snapshots.folder} already", file=sys.stderr)
        return 1
    try:
        moved = None if file is None else put_aside(file)
        if copy is not None:
            look_at(copy)
    except (NotMoved, OSError) as error:
        print(f"not founded: {error}", file=sys.stderr)
        return 3
    status = begin(settings.log, log, snapshots, moved or copy)
    if status is None:
        print(f"perhaps founded, ask etcd for /office/{settings.log}/epoch", file=sys.stderr)
    elif status > 0:
        shutil.rmtree(snapshots.folder, ignore_errors=True)
        if file is not None:
            put_back(file)
    if moved is not None and not status:
        print(f"the office that was taken: {moved}")
    return 3 if status is None else status


def begin(name: str, log: Log, snapshots: Snapshots, file: pathlib.Path | None) -> int | None:
    """Returns the status; None where the log may have been begun: then the snapshot may be its own."""
    epoch = str(uuid.uuid4())
    try:
        snapshots.make_first(file, epoch)
        if log.found(epoch):
            print(f"founded {name}")
            return 0
        print(f"there is a log {name} in etcd already", file=sys.stderr)
        return 1
    except (OSError, subprocess.CalledProcessError, NotTaken, Fault, Halt) as error:
        print(f"not founded: {error}", file=sys.stderr)
        return 3
    except Unclear as error:
        print(error, file=sys.stderr)
        return None


def main() -> None:
    is_copy = len(sys.argv) == 4 and sys.argv[2] == "--copy"
    if len(sys.argv) not in (2, 3) and not is_copy:
        print(__doc__, file=sys.stderr)
        raise SystemExit(2)
    os.umask(0o077)
    named = pathlib.Path(sys.argv[-1]).resolve() if sys.argv[2:] else None
    settings = read_settings(sys.argv[1])
    raise SystemExit(found(settings, None, named) if is_copy else found(settings, named))
