"""The mails of a mailbox: where each lies in its file. Neither a mail nor a line is read whole."""
from __future__ import annotations

import io
import pathlib
from dataclasses import dataclass
from typing import NamedTuple

# of a longer line one piece after another is read
PIECE = 65_536
START = b"From "


class Span(NamedTuple):
    """Where a mail lies: its first byte, after the line that begins it, and the one behind its last."""

    start: int
    end: int


class Box(NamedTuple):
    """The mails of a mailbox, and how many bytes stand before the first of them."""

    mails: list[Span]
    before: int


@dataclass
class Finder:
    """Finds the mails of a mailbox line by line; an empty line before the next mail belongs to none."""

    mails: list[Span]
    begun: int | None = None
    is_after_empty: bool = False
    before: int = 0

    def end(self, at: int) -> None:
        """Ends the mail that has begun, before a place."""
        if self.begun is not None:
            self.mails.append(Span(self.begun, max(self.begun, at - self.is_after_empty)))

    def take(self, at: int, piece: bytes, is_line: bool) -> None:
        """Notes a piece at a place: the beginning of a line, or its next piece."""
        if is_line and piece.startswith(START):
            self.end(at)
            self.begun, self.is_after_empty = at + len(piece), False
        elif not is_line and self.begun == at:
            # a long line that begins a mail goes on
            self.begun = at + len(piece)
        else:
            self.is_after_empty = is_line and piece == b"\n"
            self.before += len(piece.strip()) if self.begun is None else 0


def box_in(path: pathlib.Path) -> Box:
    """Looks for the mails of a mailbox."""
    finder, at, is_line = Finder([]), 0, True
    with path.open("rb") as file:
        while piece := file.readline(PIECE):
            finder.take(at, piece, is_line)
            at += len(piece)
            is_line = piece.endswith(b"\n")
    finder.end(at)
    return Box(finder.mails, finder.before)


class Part(io.RawIOBase):
    """A part of a file, read as a file of its own."""

    def __init__(self, path: pathlib.Path, span: Span) -> None:
        self.file, self.span, self.at = path.open("rb"), span, 0

    def readable(self) -> bool:
        return True

    def seekable(self) -> bool:
        return True

    def tell(self) -> int:
        return self.at

    def seek(self, offset: int, whence: int = io.SEEK_SET) -> int:
        length = self.span.end - self.span.start
        self.at = max(0, offset + {io.SEEK_SET: 0, io.SEEK_CUR: self.at, io.SEEK_END: length}[whence])
        return self.at

    def readinto(self, buffer: bytearray | memoryview) -> int:  # type: ignore[override]
        self.file.seek(self.span.start + self.at)
        read = self.file.read(min(len(buffer), max(0, self.span.end - self.span.start - self.at)))
        buffer[:len(read)] = read
        self.at += len(read)
        return len(read)

    def close(self) -> None:
        self.file.close()
        super().close()
