"""What can go wrong in a member, each with one meaning, and how the member says so."""
from __future__ import annotations

from office_common.command import report


class Fault(Exception):
    """The own office may be at any state: the member goes back to a snapshot."""


class Halt(Exception):
    """Going on may be wrong: the member ends for good, and somebody has to look."""


class NotTaken(Exception):
    """etcd did not take a transaction and never will. `name` is the error that a client gets."""

    def __init__(self, why: str, name: str = "quorum") -> None:
        super().__init__(why)
        self.name = name


class Unclear(Exception):
    """etcd gave no answer: the transaction may be in the log, or may come into it later."""


def say(text: str) -> None:
    """One line for the journal of this machine."""
    report("office-member", text)
