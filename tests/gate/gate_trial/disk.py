"""The disk behind a trace of calls: of each file of a gate what was written, what is synced, and under which name."""
import pathlib
from dataclasses import dataclass, field

from gate_trial.calls import SYNCS, WRITES, Call

NEVER = 1 << 60
"""the moment of what did not happen"""


@dataclass
class File:
    """A file: writes and cuts, each with the place in the trace at which it was done, and the syncs."""

    name: str
    changes: list[tuple[int, int, bytes | None]] = field(default_factory=list)
    syncs: list[tuple[int, int]] = field(default_factory=list)
    size: int = 0

    def write(self, data: bytes, place: int) -> None:
        self.changes.append((place, self.size, data))
        self.size += len(data)

    def cut(self, size: int, place: int) -> None:
        self.changes.append((place, size, None))
        self.size = size

    def content(self, moment: int = NEVER) -> bytes:
        """Returns what the system has of the file at a moment."""
        content = bytearray()
        for place, at, data in self.changes:
            if place > moment:
                break
            content[at:] = data or b""
        return bytes(content)

    def synced(self, moment: int) -> bytes:
        """Returns what is on the disk for certain at a moment."""
        return self.content(max([begins for begins, ends in self.syncs if ends <= moment], default=-1))

    def synced_after(self, place: int) -> int:
        """Returns the moment from which on a write is on the disk."""
        return min([ends for begins, ends in self.syncs if begins > place], default=NEVER)

    def lengths(self, begin: int, end: int) -> list[int]:
        """Lists lengths between two: about each end of a line between them, and in the middle of each line."""
        data, lengths = self.content(), {begin, end}
        at = begin
        while at < end:
            after = data.find(b"\n", at) + 1 or end
            lengths |= {at + 1, (at + after) // 2, after - 1, after}
            at = after
        return sorted(length for length in lengths if begin <= length <= end)


@dataclass
class Folder:
    """A folder: which name was given to which file, in their order, and the syncs."""

    names: list[tuple[int, str, str, File]] = field(default_factory=list)
    syncs: list[tuple[int, int]] = field(default_factory=list)

    def give(self, place: int, old: str, new: str, file: File) -> None:
        self.names.append((place, old, new, file))

    def now(self, count: int = NEVER) -> dict[str, File]:
        """Returns the files by their names after so many changes."""
        files: dict[str, File] = {}
        for _, old, new, file in self.names[:count]:
            files.pop(old, None)
            files[new] = file
        return files

    def done(self, moment: int) -> int:
        """Counts the changes up to a moment."""
        return sum(place <= moment for place, *_ in self.names)

    def synced(self, moment: int) -> int:
        """Counts the changes that are on the disk for certain at a moment."""
        return self.done(max([begins for begins, ends in self.syncs if ends <= moment], default=-1))


class Disk:
    """The journal's folder and that of the contents, as the calls of one gate made them."""

    def __init__(self, calls: list[Call], journal: pathlib.Path, contents: pathlib.Path,
                 turns: list[tuple[str, bool]]) -> None:
        self.folders = {str(journal.parent): Folder(), str(contents): Folder()}
        self.journal, self.contents = self.folders[str(journal.parent)], self.folders[str(contents)]
        self.path, self.turns = journal, iter(turns)
        self.open: dict[int, File] = {}
        # the most lines that one call wrote into the journal
        self.most_lines = 0
        for call in calls:
            self.take(call)

    def take(self, call: Call) -> None:
        if call.name == "SIGHUP":
            self.rotate(call.ends)
        elif call.name == "openat" and call.result >= 0:
            self.opened(call)
        elif call.name == "close":
            self.open.pop(call.fd, None)
        elif call.name in SYNCS and call.result == 0:
            if (target := self.open.get(call.fd) or self.folders.get(call.place)) is not None:
                target.syncs.append((call.begins, call.ends))
        elif file := self.open.get(call.fd):
            if call.name in WRITES and call.result > 0:
                file.write(call.sent(), call.ends)
                if file in self.files():
                    self.most_lines = max(self.most_lines, call.sent().count(b"\n"))
            elif call.name == "ftruncate" and call.result == 0:
                file.cut(int(call.arguments.rpartition(",")[2]), call.ends)

    def opened(self, call: Call) -> None:
        path = pathlib.Path(call.place)
        folder = self.folders.get(str(path.parent))
        self.open.pop(call.result, None)
        is_for_writing = "O_RDWR" in call.arguments or "O_WRONLY" in call.arguments
        if folder is None or not is_for_writing or folder is self.journal and path != self.path:
            return
        file = folder.now().get(path.name)
        if file is None:
            file = File(path.name)
            folder.give(call.ends, "", path.name, file)
        self.open[call.result] = file

    def rotate(self, place: int) -> None:
        """Takes that somebody gave the journal another name, and perhaps made a new file."""
        name, creates = next(self.turns)
        if not name:
            return
        file = self.journal.now()[self.path.name]
        self.journal.give(place, self.path.name, name, file)
        if creates:
            self.journal.give(place, "", self.path.name, File(self.path.name))

    def files(self) -> list[File]:
        """Lists the files of the journal, the oldest first."""
        distinct: list[File] = []
        for *_, file in self.journal.names:
            if not any(other is file for other in distinct):
                distinct.append(file)
        return distinct
