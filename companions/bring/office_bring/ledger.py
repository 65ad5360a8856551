"""What becomes of each part of a source: it goes into a sheet, is lost under a name, or belongs to what is wrong."""
from __future__ import annotations

from collections import Counter
from dataclasses import dataclass, field


class Wrong(Exception):
    """Why a thing of the source goes into no sheet."""


@dataclass(frozen=True)
class Fault:
    """A thing of the source that goes into no sheet: its place, the reason, and the number of its parts."""

    place: str
    reason: str
    parts: int


@dataclass
class Ledger:
    """The count of the parts of a source, and what became of each."""

    parts: int = 0
    taken: int = 0
    lost: Counter[str] = field(default_factory=Counter)
    faults: list[Fault] = field(default_factory=list)

    def take(self, count: int = 1) -> None:
        """Counts parts that go into a sheet."""
        self.parts += count
        self.taken += count

    def lose(self, name: str, count: int = 1) -> None:
        """Counts parts for which an office has no place."""
        if count:
            self.parts += count
            self.lost[name] += count

    def fault(self, place: str, reason: str, count: int) -> None:
        """Counts the parts of a thing that is wrong."""
        self.parts += count
        self.faults.append(Fault(place, reason, count))

    def summary(self) -> str:
        """Returns the counts, the first of which is the sum of the others."""
        wrong = sum(fault.parts for fault in self.faults)
        return f"{self.parts} parts = {self.taken} taken + {self.lost.total()} lost + {wrong} wrong"
