"""The contents of today's records, beside the journal: what the journal's acts need to be done once more.

Each day has a file of its own, to which contents are appended. A line of the journal names the file and the place of
each. After so many days the file is overwritten and removed, since no run reaches it. What the office did not take is
freed at once: a list that changed nothing leaves nothing on the disk.
"""
import base64
import binascii
import ctypes
import datetime
import os
import subprocess
from pathlib import Path

from office_gate.body import Json, Number, text_of
from office_gate.chain import digest
from office_gate.errors import Answered, say
from office_gate.words import DENIED

LONGEST = 4096
"""of a longer text in another member the journal has the length and the digest"""
PUNCH_HOLE, KEEP_SIZE = 2, 1
"""what fallocate(2) takes to free bytes within a file"""
Span = tuple[int, int]
"""a place in a file, and a length"""


class Contents:
    """A folder with a file for each day. Nobody but its owner may read it, as with FILE."""

    def __init__(self, folder: Path) -> None:
        self.folder = folder

    def make(self) -> "Contents":
        self.folder.mkdir(mode=0o700, exist_ok=True)
        return self

    def add(self, parts: list[bytes]) -> dict[str, object]:
        """Appends contents, and returns where the first one is: they are on the disk."""
        day = datetime.datetime.now(datetime.UTC).date().isoformat()
        path = self.folder / day
        is_new = not path.exists()
        file = os.open(path, os.O_WRONLY | os.O_CREAT | os.O_APPEND | os.O_CLOEXEC, 0o600)
        try:
            at = os.fstat(file).st_size
            view = memoryview(b"".join(parts))
            while view:
                view = view[os.write(file, view):]
            os.fdatasync(file)
        finally:
            os.close(file)
        if is_new:
            folder = os.open(self.folder, os.O_RDONLY | os.O_DIRECTORY)
            os.fsync(folder)
            os.close(folder)
        return {"day": day, "from": at}

    def take_back(self, day: str, spans: list[Span]) -> None:
        """Frees the bytes of contents that nobody needs. The places of the others stay."""
        file = os.open(self.folder / day, os.O_RDWR | os.O_CLOEXEC)
        try:
            for at, length in reversed(spans):
                if at + length == os.fstat(file).st_size:
                    os.ftruncate(file, at)
                else:
                    free(file, at, length)
        finally:
            os.close(file)

    def read(self, day: str, at: int, length: int, sha256: str) -> bytes | None:
        """Returns a content, or None if it is no longer there."""
        try:
            with (self.folder / day).open("rb") as file:
                data = os.pread(file.fileno(), length, at)
        except OSError:
            return None
        return data if digest(data) == sha256 else None

    def prune(self, days: int) -> None:
        """Overwrites and removes the files whose days are over."""
        last = (datetime.datetime.now(datetime.UTC).date() - datetime.timedelta(days)).isoformat()
        for folder in sorted(self.folder.glob("????-??-??")):
            if folder.name < last:
                done = subprocess.run(["shred", "--iterations=1", "--remove", "--", str(folder)], check=False)
                if done.returncode:
                    say(f"{folder} is not removed")


def free(file: int, at: int, length: int) -> None:
    """Frees bytes within a file; on a file system that cannot, overwrites them."""
    if ctypes.CDLL(None).fallocate64(file, PUNCH_HOLE | KEEP_SIZE, ctypes.c_int64(at), ctypes.c_int64(length)):
        os.pwrite(file, bytes(length), at)


def require(folders: tuple[Path, ...], length: int, reserve: int) -> None:
    """Refuses what would leave less than the reserve of a disk, so that holds, which are short, still get through."""
    for folder in folders:
        disk = os.statvfs(folder)
        if disk.f_bavail * disk.f_frsize < length + reserve:
            raise Answered(503, "room")


def changed_nothing(answer: object) -> bool:
    """Returns whether an act was refused, or had been done before."""
    return isinstance(answer, dict) and ("refused" in answer or answer.get("same") is True)


def is_unneeded(answered: Json, place: int) -> bool:
    """Returns whether the content at a place of a list was not taken, by the answer to the list."""
    if not answered.get("known", True):
        return False
    answers = answered.get("answers")
    answer = answers[place] if isinstance(answers, list) and place < len(answers) else None
    if answered["status"] == DENIED:
        # the acts before the one that the office denied are done
        return answer is None or changed_nothing(answer)
    return answered["status"] not in (200, 409) or changed_nothing(answer)


def unneeded(acts: list[Json], begin: int, answered: Json) -> list[Span]:
    """Lists where the contents are that the office did not take, of a list whose first content is at `begin`."""
    spans: list[Span] = []
    for place, (at, length) in spans_of(acts, begin).items():
        if not is_unneeded(answered, place):
            continue
        if spans and sum(spans[-1]) == at:
            spans[-1] = (spans[-1][0], spans[-1][1] + length)
        else:
            spans.append((at, length))
    return spans


def spans_of(acts: list[Json], begin: int) -> dict[int, Span]:
    """Returns where the content of each act is, by its place in the list, as the journal has the acts."""
    spans, at = {}, begin
    for place, act in enumerate(acts):
        content = act.get("content")
        if isinstance(content, dict) and "bytes" in content:
            spans[place] = (at, int(str(content["bytes"])))
            at += spans[place][1]
    return spans


def decoded(text: object) -> bytes | None:
    """Returns the bytes of a content, or None if it is no base64 as the office takes it."""
    if type(text) is not str:
        return None
    try:
        data = base64.b64decode(text.encode("ascii"), validate=True)
    except (binascii.Error, UnicodeEncodeError):
        return None
    return data if base64.b64encode(data).decode() == text else None


def noted(acts: list[Json]) -> tuple[list[Json], list[bytes]]:
    """Returns the acts as the journal has them, and the contents that it leaves out."""
    parts: list[bytes] = []
    entries = []
    for act in acts:
        entry = dict(act)
        for name, value in act.items():
            if name == "content" and (data := decoded(value)) is not None:
                entry[name] = {"bytes": len(data), "sha256": digest(data)}
                parts.append(data)
            elif name == "content" or not is_short(value):
                entry[name] = shortened(value)
        entries.append(entry)
    return entries, parts


def is_short(value: object) -> bool:
    text = value.text if isinstance(value, Number) else value
    return value is None or isinstance(value, int) or isinstance(text, str) and len(text) <= LONGEST


def shortened(value: object) -> dict[str, object]:
    """What the journal has of a value that no act has: the office refuses it."""
    data = text_of(value).encode()
    return {"other": len(data), "sha256": digest(data)}
