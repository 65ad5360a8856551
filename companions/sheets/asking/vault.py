"""The vault of an office: a large file is put into it, and the text that names it is the content of its record."""
from __future__ import annotations

import datetime
import hashlib
import json
import re
from collections.abc import Callable
from dataclasses import dataclass, field
from typing import BinaryIO

from office_common.client import PART, Reply
from office_common.errors import NoAnswer
from office_common.manifest import MOST_PLACE, Named

from asking.office import OverHttp

CONTROLS = re.compile("[\x00-\x1f\x7f-\x9f]")
# a file that is put twice is there once, so an answer that was lost does no harm
TRIES = 3
GRACE = datetime.timedelta(hours=24)
WORDS = {
    "full": "the vault has no room for it: tell its administrator",
    "size": "the vault does not take so large a file",
    "digest": "the vault got other bytes: the file changes, or the network does them harm",
    "busy": "the vault is busy: try again",
    "often": "this name has too many uploads under way: try again once one has ended",
    "quota": "this name has too much in the vault that no record names: file the records of what it has put in first",
    "name": "this name may not put files in",
    "origin": "this name may not put files in from here",
    "path": "this office has no vault",
}


class NotPut(Exception):
    """A file is not in the vault; the text says why."""


def place_of(name: str) -> str:
    """The name of a file as the vault takes it: without control characters, and cut at its beginning if it is too long."""
    plain = CONTROLS.sub("-", name) or "-"
    while len(plain.encode(errors="replace")) > MOST_PLACE:
        plain = plain[1:]
    return plain.encode(errors="replace").decode()


def manifest(digest: str, length: int, name: str) -> bytes:
    """Returns the text that names a file of the vault."""
    return Named(digest, length, place_of(name)).text().encode()


@dataclass
class Vault:
    """The vault of the office at an address behind nginx, and what was put into it."""

    office: OverHttp
    files: int = 0
    bytes: int = 0
    first: datetime.datetime | None = field(default=None)

    def ask(self) -> None:
        """Finds out whether there is a vault that answers."""
        try:
            reply = self.office.request("GET", "/vault/limits")
        except NoAnswer as why:
            raise NotPut(f"no answer: {why}") from why
        if reply.status != 200:
            raise NotPut(why_not(reply))

    def put(self, opened: Callable[[], BinaryIO], name: str) -> bytes:
        """Puts a file in, and returns the content of the record that is to name it."""
        with opened() as file:
            digest, length = digest_of(file)
            for left in reversed(range(TRIES)):
                file.seek(0)
                try:
                    reply = self.office.put(f"/vault/{digest}", file, length)
                except NoAnswer as why:
                    if left:
                        continue
                    raise NotPut(f"{name} is not in the vault, no answer: {why}") from why
                if reply.status in (200, 201):
                    break
                if reply.status not in (502, 503, 504) or not left:
                    raise NotPut(f"{name} is not in the vault: {why_not(reply)}")
        self.files, self.bytes = self.files + 1, self.bytes + length
        self.first = self.first or datetime.datetime.now()
        return manifest(digest, length, name)

    def told(self) -> str:
        """What was put in, and until when the records must be filed that name it."""
        if self.first is None:
            return "vault: no file was put in"
        until = (self.first + GRACE).strftime("%Y-%m-%d %H:%M")
        return f"vault: {self.files} files, {self.bytes:,} bytes. File their records before {until}, or convert again"


def digest_of(file: BinaryIO) -> tuple[str, int]:
    found, length = hashlib.sha256(), 0
    while part := file.read(PART):
        found.update(part)
        length += len(part)
    return found.hexdigest(), length


def why_not(reply: Reply) -> str:
    """Why the vault, or nginx in front of it, refused."""
    try:
        word = str(json.loads(reply.body)["error"])
    except (ValueError, KeyError, TypeError):
        word = ""
    return WORDS.get(word, f"the vault answered {reply.status} {reply.body[:200].decode(errors='replace')}".strip())
