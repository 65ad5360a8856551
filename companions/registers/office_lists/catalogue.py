"""A catalogue: files of JSON that are made from a copy of an office, and put in place by one rename.

If anything fails the status is 1, and the catalogue that was there stays.
"""
import contextlib
import datetime
import gzip
import os
import shutil
import sqlite3
import subprocess
import sys
from collections.abc import Iterable
from pathlib import Path
from typing import NamedTuple

from office_common import command, files, rights
from office_common.errors import WRONG
from office_lists import commands, laws, reported
from office_lists.catalogue_queries import DETAIL, FILES
from office_lists.morning import find_program
from office_lists.reported import fail

NAME = "office-catalogue"
LENT = "OFFICE_LENT"
"""the setting with the descriptor of a copy that root opened for an owner who may not read it"""


class Source(NamedTuple):
    """A copy of an office: its path as it was named, and the descriptor at which root lent it, if it did."""

    path: Path
    descriptor: int | None


def closed(text: str) -> Path:
    """Returns the path of a copy. Refused says that it is missing or open, or that its log has acts."""
    copy = Path(text).resolve()
    if not copy.exists():
        raise fail(f"there is no {text}")
    if files.is_open(copy):
        raise fail(f"somebody has {copy} open: take a copy with office-backup first")
    if files.has_acts(files.log_of(copy)):
        raise fail(f"{files.log_of(copy)} still has acts")
    return copy


def make_as_owner(copy: str, folder: Path, mandates: list[str]) -> int:
    """Makes a catalogue as the owner of its folder. Root opens a copy that this owner may not read, if nobody else
    decides where its path leads."""
    path, owner = Path(copy).absolute(), rights.owner_in(folder.stat())
    args = [str(Path(sys.argv[0]).resolve()), str(path.resolve()), str(folder), *mandates]
    if commands.run(["test", "-r", str(path)], owner=owner) == 0:
        return commands.run(args, owner=owner)
    if not rights.is_only_theirs(path, 0):
        raise fail(f"{owner.name} may not read {path}, and others than root decide where it leads: copy it to a folder "
                   "of root's")
    with path.open("rb") as opened:
        return commands.run(args, owner=owner, lent={LENT: opened.fileno()})


def readable(source: Source, new: Path) -> Path:
    """Returns the path of a copy that this user may read: of one that root lent, a copy in a folder."""
    if source.descriptor is None:
        return source.path
    own = new / "copy.db"
    descriptor = os.open(own, os.O_WRONLY | os.O_CREAT | os.O_EXCL, 0o600)
    with open(source.descriptor, "rb", closefd=False) as lent, open(descriptor, "wb") as file:
        shutil.copyfileobj(lent, file)
    return own


def moment_of(source: Source) -> str:
    """Returns the moment of a copy: office-backup makes its file while the service is paused, and the copy has no later
    act. A copy that was brought from elsewhere is as old as its last change."""
    lent = [] if source.descriptor is None else [source.descriptor]
    path = f"/proc/self/fd/{lent[0]}" if lent else str(source.path)
    done = subprocess.run(["stat", "-L", "-c", "%W %Y", "--", path], stdout=subprocess.PIPE, text=True, check=False,
                          pass_fds=lent)
    if done.returncode:
        raise fail(f"there is no {source.path}")
    made, changed = map(int, done.stdout.split())
    moment = made if 0 < made <= changed else changed
    return datetime.datetime.fromtimestamp(moment, datetime.UTC).strftime("%Y-%m-%dT%H:%M:%SZ")


def write(file: Path, lines: Iterable[str]) -> None:
    """Writes a file of a catalogue, compressed, without a name and a time in its head."""
    with file.open("wb") as raw, gzip.GzipFile("", "wb", 6, raw, mtime=0) as packed:
        for line in lines:
            packed.write(line.encode())


def lines_of(name: str, moment: str, rows: Iterable[tuple[str]]) -> Iterable[str]:
    """Writes the rows of a file as an array, a line each."""
    yield f'{{"moment":"{moment}","{name}":[\n'
    for at, (row,) in enumerate(rows):
        yield f"{',' if at else ''}{row}\n"
    yield "]}\n"


def awaiting(copy: Path, name: str) -> str:
    """Returns what was sent and has no receipt, as office-awaiting reports it."""
    done = subprocess.run([commands.path_of("office-awaiting"), "--json", str(copy)], stdin=subprocess.DEVNULL,
                          stdout=subprocess.PIPE, encoding="utf-8", check=False)
    if done.returncode:
        raise fail(f"office-awaiting does not read {name}")
    return done.stdout


def check_version(tables: sqlite3.Connection, name: str) -> None:
    """Refuses what is no office of this version."""
    try:
        version, = tables.execute("SELECT version FROM office").fetchone()
    except (sqlite3.Error, TypeError) as error:
        raise fail(f"{name} is no office") from error
    if version != 2:
        raise fail(f"{name} is of version {version}, and not of 2: open it once with office init")


def fill(new: Path, copy: Path, name: str, moment: str) -> None:
    """Writes the files of a catalogue into a folder."""
    with contextlib.closing(files.tables_of(copy)) as tables:
        check_version(tables, name)
        reported.report(tables, copy, new, name)
        tables.executescript(DETAIL)
        for part, query in FILES.items():
            try:
                write(new / f"files/{part}.json.gz", lines_of(part, moment, tables.execute(query)))
            except sqlite3.Error as error:
                raise fail(f"sqlite3 does not read the {part} of {name}") from error
    write(new / "files/awaiting.json.gz", [f'{{"moment":"{moment}","awaiting":\n', awaiting(copy, name), "}\n"])


def put(new: Path, folder: Path) -> None:
    """Puts the files in place by one rename. The catalogue before this one stays: who began to read it may go on."""
    now = datetime.datetime.now(datetime.UTC).strftime("%Y%m%dT%H%M%SZ")
    stamp, link = f"{now}-{new.name.rpartition('.')[2]}", folder / "now"
    before = os.readlink(link) if link.is_symlink() else ""
    (new / "files").rename(folder / stamp)
    (new / "now").symlink_to(stamp)
    (new / "now").replace(link)
    for old in folder.glob("[0-9]*Z-*"):
        if old.name not in (stamp, before):
            shutil.rmtree(old)


def make(copy: str, target: str, mandates: list[str]) -> int:
    """Makes a catalogue, and returns the exit status."""
    find_program()
    folder = Path(target)
    if not folder.exists():
        raise fail(f"there is no folder {target}")
    if not folder.is_dir():
        raise fail(f"{target} is no folder")
    owner = rights.check_owner(folder.absolute())
    folder, lent = folder.resolve(), os.environ.get(LENT)
    source = Source(closed(copy), None) if lent is None else Source(Path(copy), int(lent))
    if rights.is_anothers(owner):
        return make_as_owner(copy, folder, [str(Path(path).absolute()) for path in mandates])
    with files.new_folder(folder, f".{NAME}.") as new:
        (new / "files").mkdir()
        moment = moment_of(source)
        fill(new, readable(source, new), str(source.path), moment)
        for path in mandates:
            write(new / "files/mandates.json.gz", [f'{{"moment":"{moment}","mandates":\n', laws.entries(Path(path), new), "}\n"])
        put(new, folder)
    return 0


def main() -> int:
    """Runs the command, and returns its exit status."""
    copy, folder, *mandates = command.operands(f"{NAME} COPY FOLDER [MANDATES]", 2, 3)
    command.end_by_signals()
    os.umask(0o027)
    return WRONG if command.run(NAME, lambda: make(copy, folder, mandates), (OSError, sqlite3.Error)) else 0
