"""Files that are not whole: those that a program still has open, and those that lack the end that their kind has."""
from __future__ import annotations

import io
import os
import pathlib
import re
import signal
import struct
from typing import BinaryIO

try:
    import fcntl
except ImportError:  # no Linux
    fcntl = None  # type: ignore[assignment]

PIECE = 65_536
# the names that programs give to a file until it is whole
ON_THE_WAY = (".part", ".partial", ".filepart", ".crdownload", ".download", ".tmp", ".temp", ".swp", "~")
HIDDEN = (".", "~$")
MOST_PAGES = 10_000
PAGES = {b"II*\0": "<", b"MM\0*": ">"}
# the places and the lengths of strips, and of tiles
STORED = ((273, 279), (324, 325))
SIZES = {3: "H", 4: "I"}
LAST_OF_ZIP = re.compile(rb"PK\x05\x06.{18}", re.DOTALL)
PNG = b"\x89PNG\r\n\x1a\n"


def is_on_the_way(name: str) -> bool:
    """Whether a name is one that programs give to what they have not written to its end, or hide."""
    return name.startswith(HIDDEN) or name.lower().endswith(ON_THE_WAY)


def is_written(path: pathlib.Path) -> bool:
    """Whether a program has a file open for writing; the system says so for files of the user who asks alone."""
    if fcntl is None:
        return False
    file = os.open(path, os.O_RDONLY | os.O_NONBLOCK)
    # a writer who comes meanwhile ends the lease, and the signal of that would end this program
    before = signal.signal(signal.SIGIO, signal.SIG_IGN)
    try:
        fcntl.fcntl(file, fcntl.F_SETLEASE, fcntl.F_RDLCK)
        fcntl.fcntl(file, fcntl.F_SETLEASE, fcntl.F_UNLCK)
    except BlockingIOError:
        return True
    except OSError:
        return False
    finally:
        os.close(file)
        signal.signal(signal.SIGIO, before)
    return False


def lacking_end(file: BinaryIO, size: int) -> str:
    """Returns what a file lacks to be whole, in words; nothing if it is whole, or of a kind that has no end."""
    head = file.read(8)
    if not size:
        return "it is empty"
    if head.startswith(b"%PDF-") and b"%%EOF" not in tail(file, size, 1_024):
        return "it is a PDF without its end"
    if head.startswith(b"\xff\xd8\xff") and not has_picture_end(file):
        return "it is a JPEG without its end"
    if head == PNG and not has_last_chunk(file, size):
        return "it is a PNG without its end"
    if head[:4] in PAGES and not has_all_pages(file, size, PAGES[head[:4]]):
        return "it is a TIFF that lacks a page, or a part of one"
    if head.startswith(b"PK\3\4") and not LAST_OF_ZIP.search(tail(file, size, 65_557)):
        return "it is a ZIP, as documents of Office are, without its end"
    return ""


def tail(file: BinaryIO, size: int, length: int) -> bytes:
    file.seek(max(0, size - length))
    return file.read(length)


def has_picture_end(file: BinaryIO) -> bool:
    """Whether a JPEG has its last mark: behind its parts, and then behind the picture itself."""
    at = 2
    while True:
        file.seek(at)
        mark = file.read(4)
        if mark[:2] == b"\xff\xd9":
            return True
        if len(mark) < 4 or mark[0] != 0xFF:
            return False
        if mark[1] == 0xDA:
            return has(file, b"\xff\xd9")
        at += 2 + max(2, int.from_bytes(mark[2:], "big"))


def has(file: BinaryIO, wanted: bytes) -> bool:
    """Whether bytes come in the rest of a file."""
    last = b""
    while piece := file.read(PIECE):
        if wanted in last + piece:
            return True
        last = piece[1 - len(wanted):]
    return False


def has_last_chunk(file: BinaryIO, size: int) -> bool:
    """Whether a PNG has all of its chunks, up to the one that ends it."""
    at = len(PNG)
    while at + 12 <= size:
        file.seek(at)
        length, kind = struct.unpack(">I4s", file.read(8))
        at += 12 + length
        if kind == b"IEND":
            return True
    return False


def has_all_pages(file: BinaryIO, size: int, order: str) -> bool:
    """Whether each page of a TIFF, and what it stores, lies within the file."""
    try:
        at = number(file, 4, order, "I")
        for _ in range(MOST_PAGES):
            if at == 0:
                return True
            count = number(file, at, order, "H")
            if not has_stored(file, at + 2, count, order, size):
                return False
            at = number(file, at + 2 + 12 * count, order, "I")
    except (struct.error, ValueError, OverflowError):
        return False
    return True


def number(file: BinaryIO, at: int, order: str, form: str) -> int:
    file.seek(at)
    value: int = struct.unpack(order + form, file.read(struct.calcsize(order + form)))[0]
    return value


def has_stored(file: BinaryIO, at: int, count: int, order: str, size: int) -> bool:
    """Whether the strips or tiles of a page end within the file."""
    file.seek(at)
    data = io.BytesIO(file.read(12 * count))
    entries = {}
    for _ in range(count):
        tag, kind, amount, value = struct.unpack(order + "HHI4s", data.read(12))
        if kind in SIZES:
            entries[tag] = numbers(file, order, SIZES[kind], amount, value)
    for places, lengths in STORED:
        ends = (at + length for at, length in zip(entries.get(places, ()), entries.get(lengths, ())))
        if max(ends, default=0) > size:
            return False
    return True


def numbers(file: BinaryIO, order: str, form: str, length: int, value: bytes) -> tuple[int, ...]:
    """Returns the numbers of an entry, which stand in it, or where it says."""
    bytes_of = struct.calcsize(form) * length
    if bytes_of > 4:
        file.seek(struct.unpack(order + "I", value)[0])
        if bytes_of > 4_000_000:
            raise ValueError("a page of so many parts")
        value = file.read(bytes_of)
    return struct.unpack(f"{order}{length}{form}", value[:bytes_of])
