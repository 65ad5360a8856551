"""Reads the certificate of a run, as docs/MODEL.md describes it, and compares it with its last line."""
from __future__ import annotations

import hashlib
import re
from dataclasses import dataclass

from office_common.errors import WRONG, Refused

HEAD = re.compile(r"CERTIFICATE ([1-9][0-9]*)\nDAY ([0-9]{4}-[0-9]{2}-[0-9]{2})\nBY ([^\n]*)\n"
                  r"ENDED [0-9]+\nSENT ([0-9]+)\nSKIPPED [0-9]+\n")
LAST = re.compile(rb"SHA256 ([0-9a-f]{64})\n")
DIGEST = re.compile(r"[0-9a-f]{64}")
FIELDS = 11


@dataclass(frozen=True)
class Entry:
    """What a run did with a record: a line of its certificate."""

    record: int
    outcome: str
    ref: str
    class_code: str
    schedule: str
    due: str
    confirmed_by: str
    length: int
    digest: str


@dataclass(frozen=True)
class Certificate:
    """The certificate of a run: its text, and what the text says."""

    text: bytes
    run: int
    day: str
    by: str
    entries: tuple[Entry, ...]

    def digest(self) -> str:
        """Returns the SHA-256 of the whole text."""
        return hashlib.sha256(self.text).hexdigest()


def read(text: bytes, run: int) -> Certificate:
    """Reads the certificate of this run."""
    body, last = text[:-len("SHA256 \n") - 64], LAST.fullmatch(text[-len("SHA256 \n") - 64:])
    if last is None or hashlib.sha256(body).hexdigest() != last[1].decode():
        raise Refused(WRONG, f"the certificate of run {run} is not the one that its last line seals")
    try:
        lines = body.decode()
        head = HEAD.match(lines)
        entries = tuple(entry(it) for it in lines.split("\n") if it.startswith("ENTRY\t"))
    except ValueError as why:
        raise Refused(WRONG, f"the certificate of run {run} has another form: {why}") from why
    if head is None or int(head[1]) != run or len([it for it in entries if it.outcome == "sent"]) != int(head[4]):
        raise Refused(WRONG, f"what the office answers is no certificate of run {run}")
    return Certificate(text, run, head[2], head[3], entries)


def entry(line: str) -> Entry:
    fields = line.split("\t")
    if len(fields) != FIELDS or not DIGEST.fullmatch(fields[-1]):
        raise ValueError(f"an entry has other words: {line[:80]!r}")
    record, length = int(fields[1]), int(fields[9])
    return Entry(record, *fields[2:7], confirmed_by=fields[8], length=length, digest=fields[10])
