"""A bag (BagIt 1.0, RFC 8493): written file by file, compared with one that is there, and verified."""
import hashlib
import os
import re
import stat
from collections.abc import Iterable, Iterator
from pathlib import Path
from typing import Protocol

from office_common.errors import WRONG, Refused

from office_exchange.ledger import Ledger

DECLARATION = b"BagIt-Version: 1.0\nTag-File-Character-Encoding: UTF-8\n"
PAYLOAD, TAGS = "manifest-sha256.txt", "tagmanifest-sha256.txt"
PLAIN = r"[^\x00-\x1f\x7f\\%]{1,4096}"
"""a name that a manifest has as it is"""
MANIFEST_LINE = re.compile(rb"([0-9a-f]{64})  (" + PLAIN.encode() + rb")\n")
LONGEST_LINE = 4096 + 68
NAMED_BY_DIGEST = re.compile(r"data/(?:contents|files)/([0-9a-f]{2})/(\1[0-9a-f]{62})")
PART = 1 << 18
"""bytes that are held in memory at once"""


def differs(text: str) -> Refused:
    return Refused(WRONG, text)


class Sink(Protocol):
    """Takes the files of a bag, one after another."""

    ledger: Ledger

    def put(self, name: str, parts: Iterable[bytes]) -> str:
        """Takes a file, and returns its digest."""

    def end_payload(self) -> None:
        """Ends the payload, once its last file has come."""

    def end(self) -> None:
        """Ends the bag."""


def finish(sink: Sink, info: Iterable[tuple[str, str]], tags: Iterable[tuple[str, bytes]]) -> None:
    """Puts all files into a bag that are not its payload. The declaration comes last."""
    sink.end_payload()
    length, count = sink.ledger.payload()
    lines = [*info, ("Payload-Oxum", f"{length}.{count}")]
    for name, data in tags:
        sink.put(name, [data])
    sink.put("bag-info.txt", ["".join(f"{name}: {value}\n" for name, value in lines).encode()])
    sink.put(PAYLOAD, sink.ledger.lines(is_payload=True))
    sink.ledger.add("bagit.txt", hashlib.sha256(DECLARATION).hexdigest(), len(DECLARATION))
    sink.put(TAGS, sink.ledger.lines(is_payload=False))
    sink.ledger.remove("bagit.txt")
    sink.put("bagit.txt", [DECLARATION])
    sink.end()


class Writer:
    """Writes each file into a new folder. Whoever calls it syncs the whole folder at the end."""

    def __init__(self, folder: Path) -> None:
        self.folder, self.ledger = folder, Ledger()

    def put(self, name: str, parts: Iterable[bytes]) -> str:
        path, digest, length = self.folder / name, hashlib.sha256(), 0
        path.parent.mkdir(parents=True, exist_ok=True)
        with path.open("xb") as file:
            for part in parts:
                file.write(part)
                digest.update(part)
                length += len(part)
        if not self.ledger.add(name, digest.hexdigest(), length):
            raise differs(f"{name} comes twice")
        return digest.hexdigest()

    def end_payload(self) -> None:
        pass

    def end(self) -> None:
        self.ledger.close()


class Comparer:
    """Compares each file with that of a bag. Refused says which one differs, lacks, or is beside them."""

    def __init__(self, folder: Path) -> None:
        self.folder, self.ledger, self.left = folder, Ledger(), Ledger()
        for name, _ in walk(folder):
            self.left.add(name, "", 0)

    def put(self, name: str, parts: Iterable[bytes]) -> str:
        digest, length = hashlib.sha256(), 0
        if self.left.remove(name) is None:
            raise differs(f"{self.folder} has no {name}, and would have one")
        with (self.folder / name).open("rb") as file:
            for part in parts:
                if file.read(len(part)) != part:
                    raise differs(f"{name} would have other bytes")
                digest.update(part)
                length += len(part)
            if file.read(1):
                raise differs(f"{name} would be shorter")
        if not self.ledger.add(name, digest.hexdigest(), length):
            raise differs(f"{name} comes twice")
        return digest.hexdigest()

    def end_payload(self) -> None:
        self.refuse_left("data/*")

    def end(self) -> None:
        self.refuse_left("*")
        self.ledger.close()
        self.left.close()

    def refuse_left(self, pattern: str) -> None:
        """Refuses files that the bag has and should not have."""
        if names := self.left.names(5, pattern):
            raise differs(f"{self.folder} has what would not be in it: {', '.join(names)}")


# ---- what is there


def walk(folder: Path) -> Iterator[tuple[str, os.stat_result]]:
    """Lists all files of a folder by their names. Refused says that something is neither a file nor a folder."""
    for place, folders, files in os.walk(folder, onerror=raised):
        folders.sort()
        for name in sorted([*files, *(each for each in folders if (Path(place) / each).is_symlink())]):
            path = Path(place) / name
            state = path.lstat()
            shown = path.relative_to(folder).as_posix()
            if not stat.S_ISREG(state.st_mode):
                raise differs(f"{shown} is no file")
            yield shown, state


def raised(error: OSError) -> None:
    raise error


class Readable(Protocol):
    """A file, or a value of a table that is read like one."""

    def read(self, length: int, /) -> bytes: ...


def parts_of(file: Readable) -> Iterator[bytes]:
    """Reads a file part by part."""
    while part := file.read(PART):
        yield part


def digest_of(path: Path) -> str:
    with path.open("rb") as file:
        return hashlib.file_digest(file, "sha256").hexdigest()


def listed(folder: Path, name: str, is_payload: bool) -> Iterator[tuple[str, str]]:
    """Reads a manifest: the name and the digest of each file. Refused says that it is not of its form."""
    before = b""
    with (folder / name).open("rb") as file:
        for number, line in enumerate(iter(lambda: file.readline(LONGEST_LINE), b""), 1):
            match = MANIFEST_LINE.fullmatch(line)
            if match is None or match[2] <= before or match[2].startswith(b"data/") != is_payload:
                raise differs(f"{name}, line {number}: it is no line of a manifest")
            before = match[2]
            yield match[2].decode(errors="replace"), match[1].decode()


def verify(folder: Path) -> Ledger:
    """Compares each file of a bag with its manifests, and returns the files. Refused names the first that is wrong."""
    if not folder.is_dir():
        raise differs(f"{folder} is no folder")
    there, ledger = Ledger(), Ledger()
    for name, state in walk(folder):
        there.add(name, "", state.st_size)
    for needed in ("bagit.txt", TAGS, PAYLOAD):
        if there.digest_of(needed) is None:
            raise differs(f"{folder} is no bag: it has no {needed}")
    if (folder / "bagit.txt").read_bytes() != DECLARATION:
        raise differs("bagit.txt is not that of BagIt 1.0 in UTF-8")
    for manifest, is_payload in ((TAGS, False), (PAYLOAD, True)):
        for name, digest in listed(folder, manifest, is_payload):
            if there.remove(name) is None:
                raise differs(f"{name} is missing")
            check(folder, name, digest)
            ledger.add(name, digest, (folder / name).stat().st_size)
    there.remove(TAGS)
    if strangers := there.names(5):
        raise differs(f"no manifest has {', '.join(strangers)}")
    there.close()
    return ledger


def check(folder: Path, name: str, digest: str) -> None:
    """Compares a file with its digest, and with its name if that is a digest."""
    if digest_of(folder / name) != digest:
        raise differs(f"{name} has another SHA-256 than the manifest")
    if name.startswith(("data/contents/", "data/files/")):
        match = NAMED_BY_DIGEST.fullmatch(name)
        if match is None or match[2] != digest:
            raise differs(f"{name} is not named by its SHA-256")
