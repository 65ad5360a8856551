"""The journal of who signed in: lines of JSON, each with the SHA-256 of the one before, as the journal of a gate has them."""
import hashlib
import json
import os
import re
from pathlib import Path
from typing import Any

from office_signin.clock import now, text_of

NONE = "0" * 64
BLOCK = 1 << 16
HIDING = re.compile("[\u007f-\u009f\u00ad\u061c\u200b-\u200f\u2028-\u202e\u2060-\u206f\ufeff\ud800-\udfff]")
"""controls, marks of direction and separators of lines, which change how a terminal shows a line"""
LONGEST = 200


def escaped(match: re.Match[str]) -> str:
    return f"\\u{ord(match[0]):04x}"


def line_of(entry: dict[str, object]) -> bytes:
    return HIDING.sub(escaped, json.dumps(entry, ensure_ascii=False, separators=(",", ":"))).encode()


def last_of(path: Path) -> tuple[int, str]:
    """Returns the number and the SHA-256 of the last whole line of a journal or, if it was rotated, of the file before."""
    older = sorted(path.parent.glob(f"{path.name}-*"), key=lambda file: file.name)
    for file in reversed([*older, path]):
        if not file.is_file():
            continue
        for data in reversed(tail(file).split(b"\n")[:-1]):
            try:
                return int(json.loads(data)["line"]), hashlib.sha256(data).hexdigest()
            except (ValueError, KeyError, TypeError):
                continue
    return 0, NONE


def tail(path: Path) -> bytes:
    """Returns the end of a file, from the beginning of a line on."""
    size = path.stat().st_size
    with path.open("rb") as file:
        file.seek(max(0, size - BLOCK))
        data = file.read()
    return data if size <= BLOCK else data.partition(b"\n")[2]


class Journal:
    """A journal to which lines are added. A line is on the disk once `write` returns."""

    def __init__(self, path: Path) -> None:
        self.path = path
        self.number, self.before = last_of(path)
        self.descriptor = os.open(path, os.O_WRONLY | os.O_APPEND | os.O_CREAT, 0o640)
        size = os.fstat(self.descriptor).st_size
        # a stop in the middle of a line left its beginning: the next line begins on a line of its own
        self.torn = size > 0 and not tail(path).endswith(b"\n")

    def write(self, what: str, **members: Any) -> int:
        """Adds a line, and returns its number."""
        if self.torn:
            os.write(self.descriptor, b"\n")
            self.torn = False
        short = {key: value[:LONGEST] if isinstance(value, str) else value for key, value in members.items()}
        data = line_of({"before": self.before, "line": self.number + 1, "at": text_of(now().wall), "what": what, **short})
        written = os.write(self.descriptor, data + b"\n")
        if written != len(data) + 1:
            self.torn = True
            raise OSError("the disk has no room for a line of the journal")
        os.fsync(self.descriptor)
        self.number, self.before = self.number + 1, hashlib.sha256(data).hexdigest()
        return self.number

    def reopen(self) -> None:
        """Goes on in the file of that name, once the one before was rotated."""
        os.close(self.descriptor)
        self.descriptor = os.open(self.path, os.O_WRONLY | os.O_APPEND | os.O_CREAT, 0o640)
