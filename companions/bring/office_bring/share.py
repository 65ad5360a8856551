"""A file share: each folder with documents is a file, and each document a record with the day of its last change.

Each entry is a part. Its owner and rights are another, which is lost, and so is each of its extended attributes.
"""
from __future__ import annotations

import os
import stat
from dataclasses import dataclass
from pathlib import Path

from office_bring.brought import Brought, File, Record
from office_bring.how import How
from office_bring.ledger import Wrong
from office_common.errors import USAGE, Refused

MOST_ENTRIES = 1_000_000
PROGRAMS = ("thumbs.db", "desktop.ini", ".ds_store", "ehthumbs.db")
"""what programs put into folders for themselves, beside names that begin with ~$"""


@dataclass(frozen=True)
class Document:
    """A file of the share: its folder, its name and the day of its last change."""

    folder: tuple[str, ...]
    name: str
    day: str

    def path(self) -> str:
        return "/".join((*self.folder, self.name))


def reason_lost(name: str, mode: int) -> str | None:
    """Returns why an entry is no document, or None if it may be one."""
    if stat.S_ISLNK(mode):
        return "links, which are not followed"
    if not stat.S_ISREG(mode):
        return "devices, sockets and pipes"
    if name.casefold() in PROGRAMS or name.startswith("~$"):
        return "files that programs make for themselves, such as Thumbs.db"
    return None


def check(path: str) -> None:
    """Refuses a path that a cell of a sheet cannot have."""
    try:
        path.encode()
    except UnicodeEncodeError:
        raise Wrong("its path is not UTF-8") from None
    if any(name != name.strip() for name in path.split("/")) or not path.isprintable():
        raise Wrong("a name in its path begins or ends with a space, or has a character that nobody sees: rename it")


def shown(path: str) -> str:
    return path.encode("utf-8", "backslashreplace").decode()


class Share:
    """A walk through a share."""

    def __init__(self, top: Path, how: How, brought: Brought) -> None:
        self.top, self.how, self.brought, self.ledger = top, how, brought, brought.ledger
        self.root = how.root or top.resolve().name
        self.entries = 0
        self.folders: list[tuple[str, ...]] = []
        self.documents: list[Document] = []

    def walk(self) -> None:
        """Looks at each entry once."""
        waiting: list[tuple[str, ...]] = [()]
        while waiting:
            folder = waiting.pop()
            with os.scandir(self.top.joinpath(*folder)) as listed:
                entries = sorted(listed, key=lambda entry: entry.name)
            for entry in entries:
                state = entry.stat(follow_symlinks=False)
                self.count(entry)
                if stat.S_ISDIR(state.st_mode):
                    waiting.append((*folder, entry.name))
                    self.folders.append((*folder, entry.name))
                else:
                    self.take(folder, entry.name, state)

    def count(self, entry: os.DirEntry[str]) -> None:
        """Counts what an office does not keep of an entry."""
        self.entries += 1
        if self.entries > MOST_ENTRIES:
            raise Refused(USAGE, f"{self.top} has more than {MOST_ENTRIES:,} entries: bring it in parts")
        self.ledger.lose("owner and rights of an entry")
        try:
            self.ledger.lose("extended attributes", len(os.listxattr(entry.path, follow_symlinks=False)))
        except OSError:
            pass

    def take(self, folder: tuple[str, ...], name: str, state: os.stat_result) -> None:
        """Takes a document, or notes why an entry is none."""
        path = "/".join((*folder, name))
        if reason := reason_lost(name, state.st_mode):
            self.ledger.lose(reason)
            return
        try:
            check(path)
            self.documents.append(Document(folder, name, self.how.days.day_of_stamp(state.st_mtime)))
        except Wrong as wrong:
            self.ledger.fault(shown(path), str(wrong), 1)

    def home(self, folder: tuple[str, ...]) -> tuple[str, ...]:
        """Returns the folder that is the file of a document: with levels, deeper folders are no files."""
        return folder if self.how.levels is None else folder[:self.how.levels - 1]

    def ref(self, folder: tuple[str, ...]) -> str:
        return "/".join((self.root, *folder))

    def add_files(self) -> None:
        """Makes a file of each folder that has a document, and of those around it; each is opened on its least day."""
        opened: dict[tuple[str, ...], str] = {}
        for document in self.documents:
            home = self.home(document.folder)
            for depth in range(len(home) + 1):
                opened[home[:depth]] = min(document.day, opened.get(home[:depth], document.day))
        for folder in sorted(opened):
            ref = self.brought.ref(self.ref(folder))
            title = self.brought.title(folder[-1] if folder else self.root, ref)
            parent = self.brought.ref(self.ref(folder[:-1])) if folder else ""
            self.brought.add_file(File(ref, title, "" if folder else self.how.class_code(), parent, opened[folder], ""))
        for folder in self.folders:
            if folder in opened:
                self.ledger.take()
            else:
                deep = self.how.levels is not None and len(folder) >= self.how.levels
                self.ledger.lose("folders below the last level, whose names the refs have" if deep
                                 else "folders without a document")

    def add_records(self) -> None:
        """Makes a record of each document."""
        for document in self.documents:
            ref = self.brought.ref(self.ref((*document.folder, document.name)))
            title = self.brought.title(Path(document.name).stem, ref)
            file = self.brought.ref(self.ref(self.home(document.folder)))
            self.brought.add_record(Record(ref, title, document.day, file, "", "", document.path(), ""))
            self.ledger.take()


def bring(top: Path, how: How, brought: Brought) -> None:
    """Reads a file share."""
    if not top.is_dir():
        raise Refused(USAGE, f"{top} is no folder")
    share = Share(top, how, brought)
    share.walk()
    share.documents.sort(key=lambda document: (document.folder, document.name))
    share.add_files()
    share.add_records()
