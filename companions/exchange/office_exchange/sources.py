"""What an office is exported from: a closed copy, the objects of its vault, and files that are put beside it."""
import contextlib
import os
import re
import sqlite3
from collections.abc import Callable, Iterator
from pathlib import Path
from typing import NamedTuple

from office_common import files
from office_common.errors import WRONG, Refused

from office_exchange import bag
from office_exchange.tables import TABLES

ATTACHED = ("journal", "seals", "also")
"""the folders of a bag that have files from beside the office, as they are"""
OWN = {*(each.table for each in TABLES), "office", "contents", "certificates"}
PRAGMAS = ("user_version", "application_id")


class Source(NamedTuple):
    """A copy of an office: its tables, where an object of the vault is, and the files beside it by their names."""

    tables: sqlite3.Connection
    object_of: Callable[[str], Path | None]
    attached: tuple[tuple[str, Path], ...]


@contextlib.contextmanager
def opened(copy: Path) -> Iterator[sqlite3.Connection]:
    """Opens a closed copy of version 2, which nobody changes."""
    files.check_copy(copy)
    with contextlib.closing(files.tables_of(copy)) as tables:
        try:
            rows = tables.execute("SELECT version FROM office").fetchall()
        except sqlite3.Error as error:
            raise Refused(WRONG, f"{copy} is no office: {error}") from error
        if rows != [(2,)]:
            raise Refused(WRONG, f"{copy} is no office of version 2: open it once with office init")
        yield tables


def object_in(folder: Path, digest: str) -> Path | None:
    """Finds an object: a file that is named by its digest, in a folder that is named by the digest's first two."""
    path = folder / digest[:2] / digest
    return path if path.is_file() and not path.is_symlink() else None


def no_object(_: str) -> None:
    """Finds no object: there is no vault."""


def foreign(tables: sqlite3.Connection) -> Iterator[str]:
    """Names what a file has besides the tables of an office: it is not in the form."""
    query = "SELECT type, name FROM sqlite_schema WHERE name NOT GLOB 'sqlite_*' ORDER BY type, name"
    for kind, name in tables.execute(query).fetchall():
        if kind != "table":
            yield f"the {kind} {name}"
        elif name not in OWN:
            quoted = str(name).replace('"', '""')
            count, = tables.execute(f'SELECT count(*) FROM "{quoted}"').fetchone()
            if name != "schedules" or count:
                yield f"the table {name}, rows: {count}"
    for name in PRAGMAS:
        value, = tables.execute(f"PRAGMA {name}").fetchone()
        if value:
            yield f"{name} {value}"


# ---- files from beside the office


def journal_at(path: Path) -> list[tuple[str, Path]]:
    """Lists a gate's journal with the older files that logrotate made of it, and the heads of what was dropped."""
    if not path.is_file():
        raise Refused(WRONG, f"there is no journal {path}")
    older = sorted(each for each in path.parent.glob(f"{glob_of(path.name)}-*") if each.is_file())
    heads = path.with_name(f"{path.name}.heads")
    return [(f"journal/{each.name}", each) for each in (*older, path, *([heads] if heads.is_file() else []))]


def glob_of(name: str) -> str:
    return re.sub(r"([*?\[])", r"[\1]", name)


def below(part: str, path: Path) -> list[tuple[str, Path]]:
    """Lists a file, or all files of a folder, below a folder of the bag."""
    if path.is_file():
        return [(f"{part}/{path.name}", path)]
    if not path.is_dir():
        raise Refused(WRONG, f"there is no {path}")
    return [(f"{part}/{name}", path / name) for name, _ in bag.walk(path)]


def attached_in(folder: Path) -> tuple[tuple[str, Path], ...]:
    """Lists the attached files of a bag."""
    return tuple((f"{part}/{name}", folder / "data" / part / name) for part in ATTACHED
                 if (folder / "data" / part).is_dir() for name, _ in bag.walk(folder / "data" / part))


def is_plain(name: str) -> bool:
    """Returns whether a manifest can have a name."""
    try:
        return re.fullmatch(bag.PLAIN, name) is not None and len(os.fsencode(name)) == len(name.encode())
    except UnicodeEncodeError:
        return False
