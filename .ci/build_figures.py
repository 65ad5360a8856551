"""How long each part of a build took, which the last build kept in a file, and what one may expect of this one."""
import json
import pathlib
from collections.abc import Mapping
from dataclasses import dataclass

# Where no build was here before: seconds a byte of sources, of a library that has one processor for itself, and what is
# left of that where there are four to share, as the last libraries get all of them; seconds of the program
RATE, SHARED, PROGRAM = 4900 / 4_340_000, 0.65, 480.0
# seconds of a library that is built already
SAME = 5.0


@dataclass
class Part:
    """A library, or the program: the size of its sources, their checksum with all below, and what is below it."""

    size: int
    sum: str
    is_built: bool
    below: list[str]


class Figures:
    """The figures of the last build, and those of this one."""

    def __init__(self, file: pathlib.Path, parts: Mapping[str, Part], program: str, processors: int) -> None:
        self.file, self.parts, self.program, self.processors = file, parts, program, processors
        try:
            self.last: dict[str, dict] = json.loads(file.read_text())
        except (OSError, ValueError):
            self.last = {}
        known = sum(it in self.last for it in parts)
        # what the guesses come from
        self.source = "by the last build" if 2 * known > len(parts) else "by the sizes of the sources"
        # how much slower or faster this build is than the figures say
        self.taken, self.guessed = 0.0, 0.0

    def expected(self, name: str) -> float:
        """The seconds that a part takes, as far as one knows: as many as the longest work on it that was done."""
        part, last = self.parts[name], self.last.get(name)
        if last:
            return SAME if part.is_built and last["sum"] == part.sum else last["seconds"]
        rate = RATE * SHARED if self.processors >= 4 else RATE
        return PROGRAM if name == self.program else part.size * rate

    def note(self, name: str, seconds: float) -> None:
        """Keeps how long a part took that is done, unless little was to do and nothing is known of it."""
        if self.parts[name].is_built and name not in self.last:
            return
        expected, before = self.expected(name), self.last.get(name, {"seconds": 0.0})["seconds"]
        if expected > SAME:
            self.taken, self.guessed = self.taken + seconds, self.guessed + expected
        self.last[name] = {"seconds": round(max(seconds, before), 1), "sum": self.parts[name].sum}
        self.file.write_text(json.dumps(self.last, indent=1, sort_keys=True) + "\n")

    def left(self, done: list[str], at_work: Mapping[str, tuple[float, float]]) -> float:
        """A guess of the seconds that are left: the longest way up, or all that is to do shared among the processors.
        Of a part at work one has its seconds so far, and which share of its functions is done."""
        speed = min(max(self.taken / self.guessed, 0.3), 5.0) if self.guessed else 1.0
        rest: dict[str, float] = {}
        for name in self.parts:
            expected = 0.0 if name in done else self.expected(name) * speed
            if name in at_work:
                seconds, share = at_work[name]
                expected = max(min(expected - seconds, expected * (1 - share)), expected * (1 - share) / 4, 0.0)
            rest[name] = expected
        way: dict[str, float] = {}
        # parts stand below those that use them
        for name, part in self.parts.items():
            way[name] = rest[name] + max((way[it] for it in part.below), default=0.0)
        return max(max(way.values()), sum(rest.values()) / self.processors)
