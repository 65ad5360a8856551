"""Acts that go to an office in several requests: an act that waits for a number goes once that has come."""
from __future__ import annotations

from collections.abc import Callable, Sequence
from dataclasses import dataclass, field
from typing import Protocol

from asking.office import MOST_BYTES, Act, Answer, Office, Stopped, line_of

# so many go at most in one request: what is done is seen, and little is unknown where a connection is lost
MOST_ACTS = 100


class NotMade(Exception):
    """An act cannot be made now; the text says why. The others go on."""


class Item(Protocol):
    """An act that may wait for the numbers of aggregations."""

    def needs(self) -> list[str]: ...

    def made(self, numbers: dict[str, int]) -> Act: ...


@dataclass
class Sent:
    """What became of items: the answer to each, none where it was not sent; what stopped it, if anything did."""

    answers: list[Answer | None]
    stopped: str = ""
    numbers: dict[str, int] = field(default_factory=dict)
    # why an act was not made, by its place
    unmade: dict[int, str] = field(default_factory=dict)

    def refused(self) -> int:
        return sum("refused" in it for it in self.answers if it)

    def unsent(self) -> int:
        return sum(it is None for it in self.answers)


class Sender:
    """Sends items in their order. One that waits for a number which did not come is not sent."""

    def __init__(self, office: Office, numbers: dict[str, int], most: int = MOST_BYTES) -> None:
        self.office, self.most = office, most
        self.numbers = dict(numbers)
        self.batch: list[tuple[int, Act]] = []
        self.size = 0

    def send(self, items: Sequence[Item], told: Callable[[int], None] = lambda count: None) -> Sent:
        """Sends all items; `told` is called with how many are behind."""
        sent = Sent([None] * len(items), numbers=self.numbers)
        try:
            for at, item in enumerate(items):
                if any(ref not in self.numbers for ref in item.needs()):
                    self.flush(sent)
                if all(ref in self.numbers for ref in item.needs()):
                    try:
                        self.take(at, item.made(self.numbers), sent)
                    except NotMade as why:
                        sent.unmade[at] = str(why)
                told(at + 1)
            self.flush(sent)
        except Stopped as why:
            self.note(why.answers, sent)
            sent.stopped = str(why)
        return sent

    def take(self, at: int, act: Act, sent: Sent) -> None:
        size = len(line_of(act).encode()) + 2
        if self.batch and (self.size + size > self.most or len(self.batch) == MOST_ACTS):
            self.flush(sent)
        self.batch.append((at, act))
        self.size += size

    def flush(self, sent: Sent) -> None:
        if self.batch:
            self.note(self.office.acts([act for _, act in self.batch]), sent)
        self.batch, self.size = [], 0

    def note(self, answers: list[Answer], sent: Sent) -> None:
        """Notes the answers to what was sent last, and the numbers in them."""
        for (at, act), answer in zip(self.batch, answers):
            sent.answers[at] = answer
            number = answer.get("number")
            if act["act"] == "add-aggregation" and isinstance(number, int):
                self.numbers[str(act["ref"])] = number
