"""The entries of the log: requests, each at its place."""
from __future__ import annotations

import json
from typing import NamedTuple

from replica.errors import Halt

NO_ACTS = b"[]"


class Entry(NamedTuple):
    """A request at its place in the log."""

    position: int
    key: str
    kind: str
    """`acts` or `resume`; `refuse` has the position of an entry that nobody does, as its body"""
    program: str
    """the digest of the office's program at the member that appended it"""
    body: bytes
    member: str = ""
    """who appended it, where that is known"""


def entry_at(key: str, value: bytes) -> Entry:
    """Returns the entry that a key of etcd has. Halt where it is none."""
    head, _, body = value.partition(b"\n")
    try:
        values = json.loads(head)
        return Entry(int(key[-16:]), values["key"], values["kind"], values["program"], body, values.get("member", ""))
    except (ValueError, KeyError, TypeError) as error:
        raise Halt(f"{key} is no entry: {error!r}") from error
