"""What a vault asks of an office: what is said of a record, and its content. Over HTTP, or of a copy of FILE.

One moment is not needed. A content never changes, a record that ended stays ended, and each record that was filed
before the first question has a number below the first one that is not there. So what is asked record by record, after
the clock was read, is never less than what the office named at that moment, but for records that ended since.
"""
import hashlib
from collections.abc import Iterator
from dataclasses import dataclass
from typing import Protocol

from office_common import manifest
from office_common.errors import IMPOSSIBLE, Refused


@dataclass(frozen=True)
class Metadata:
    """What an office says of a record: of its content while it is there, or how it ended."""

    ref: str
    digest: str
    length: int
    run: int | None = None
    outcome: str | None = None
    # the code of its class in effect
    code: str = ""

    @property
    def is_here(self) -> bool:
        """Returns whether the record still has its content."""
        return self.run is None


class Office(Protocol):
    """An office that can be asked."""

    def metadata(self, number: int) -> Metadata | None:
        """Returns what is said of a record, or None if there is none."""

    def content(self, number: int) -> bytes | None:
        """Returns the content of a record, or None if there is none."""


def reading(office: Office, number: int, metadata: Metadata) -> manifest.Reading | None:
    """Reads what a record keeps in the vault; None if its content is gone. A content that is not its record's stops."""
    if not metadata.is_here:
        return None
    if metadata.length < manifest.LEAST_BYTES:
        return manifest.Reading((), True)
    content = office.content(number)
    if content is None:
        return None
    if len(content) != metadata.length or hashlib.sha256(content).hexdigest() != metadata.digest:
        raise Refused(IMPOSSIBLE, f"the content of record {number} is damaged: restore FILE from a backup")
    return manifest.keeps(content)


def readings(office: Office) -> Iterator[tuple[int, Metadata, manifest.Reading]]:
    """Lists what the records that have their content keep in the vault: those that keep something, or have a slip."""
    number = 1
    while (metadata := office.metadata(number)) is not None:
        kept = reading(office, number, metadata)
        if kept is not None and (kept.names or not kept.is_sound):
            yield number, metadata, kept
        number += 1
