"""Who may do what: roles, the names that have them, and the rules of four eyes, as the settings say."""
from dataclasses import dataclass, field
from functools import cached_property
from pathlib import Path
from zoneinfo import ZoneInfo

from office_gate.alike import folded
from office_gate.patterns import fits


@dataclass(frozen=True)
class Grant:
    """One right. Each limit is a set of classes; all of them hold. `sent` is a right to what a run sent alone."""

    word: str
    limits: tuple[tuple[str, ...], ...] = ()
    sent: bool = False

    def is_whole(self) -> bool:
        return not self.limits and not self.sent

    def covers(self, code: str | None, status: str | None) -> bool:
        if self.sent and status not in ("sent", "received"):
            return False
        return all(code is not None and fits(it, code) for it in self.limits)


@dataclass(frozen=True)
class Person:
    """A name that signed in, with its rights and the text that the office records as `by`."""

    name: str
    signs: str
    roles: tuple[str, ...] = ()
    grants: tuple[Grant, ...] = ()

    def may(self, word: str) -> bool:
        """Returns whether the name has this right for anything at all."""
        return any(it.word == word for it in self.grants)

    def may_all(self, word: str) -> bool:
        """Returns whether the name has this right for everything."""
        return any(it.word == word and it.is_whole() for it in self.grants)

    def may_in(self, word: str, code: str | None, status: str | None = None) -> bool:
        """Returns whether the name has this right for a class. None stands for no class, or an unknown one."""
        return any(it.word == word and it.covers(code, status) for it in self.grants)

    def classes_of(self, word: str) -> list[list[str]] | None:
        """Returns the classes for which the name has this right, for the page: None if for all."""
        if self.may_all(word):
            return None
        return [[code for limit in it.limits for code in limit] for it in self.grants if it.word == word]


@dataclass(frozen=True)
class Rules:
    """The rules of four eyes, each off unless the settings switch it on."""

    opener_does_not_carry_out: bool = False
    confirmer_does_not_open: bool = False
    changer_days: int | None = None
    sender_does_not_receive: bool = False
    receiver_does_not_open: bool = False
    reasons: frozenset[str] = frozenset()


@dataclass(frozen=True)
class Access:
    """All settings of one office."""

    path: Path
    digest: str
    site: str
    zone: ZoneInfo
    people: dict[str, Person]
    others: Person | None
    rules: Rules = field(default_factory=Rules)
    requests_at_once: int = 8
    lists_at_once: int = 2
    journal_bytes: int = 10_000_000
    content_days: int = 3
    free_bytes: int = 256 << 20
    journals_readings: bool = True

    def person(self, name: str) -> Person:
        """Returns whom a name is; one that the settings do not name has the rights of `*`, if there are any.

        It has none if the name looks like another one, or like the text that somebody else signs.
        """
        known = self.people.get(name)
        if known:
            return known
        other = self.others
        if other is None or folded(name) in self.taken:
            return Person(name, name)
        return Person(name, name, other.roles, other.grants)

    @cached_property
    def taken(self) -> set[str]:
        """How the names and texts of the settings look."""
        return {folded(text) for it in self.people.values() for text in (it.name, it.signs)}

    def host(self) -> str:
        return self.site.split("://", 1)[1]
