"""The share of the journal that the refused requests of each name may take on a day."""
import datetime
from collections import Counter

LINE_BYTES = 200
"""the bytes of a line besides its entry: its number, its moment and the SHA-256 of the line before"""
ELSEWHERE = ("origin", "host")
"""the words of refusals of what a page from elsewhere makes a browser send, by no will of whoever signed in there"""


def share_of(name: str, word: str) -> str:
    """Names the share that a refusal with this word takes. No name that somebody signs in with has a blank."""
    return f"{name} elsewhere" if word in ELSEWHERE else name


class Budget:
    """The bytes that each name has spent since midnight in UTC, or since the gate began."""

    def __init__(self) -> None:
        self.day = datetime.date.min
        self.spent: Counter[str] = Counter()

    def is_spent(self, name: str, most: int) -> bool:
        """Reports whether a name has spent more than that today."""
        day = datetime.datetime.now(datetime.UTC).date()
        if day != self.day:
            self.day, self.spent = day, Counter()
        return self.spent[name] > most

    def spend(self, name: str, count: int) -> None:
        """Counts the bytes of an entry of a name."""
        self.spent[name] += count + LINE_BYTES
