"""What a verification has to report: what is wrong, the words for seals that are not good, and the exit status."""
from __future__ import annotations

from dataclasses import dataclass, field

# the words for a seal that is not good, the worst first, and the status of each with --strict
FORGED, FOREIGN, WITHDRAWN = "forged", "another office's", "key withdrawn before this"
STATUSES = {FORGED: 1, FOREIGN: 5, WITHDRAWN: 6}
UNPROVED, UNPROVED_STATUS = "unproved since", 4


@dataclass
class Report:
    """What was seen: what is wrong, what to know, and the good seals by certificate."""

    wrong: list[str] = field(default_factory=list)
    notes: list[str] = field(default_factory=list)
    # the words for what is wrong, one for each thing that has a word; the worst word for each seal
    words: list[str] = field(default_factory=list)
    seals: dict[str, str] = field(default_factory=dict)
    # the day since which each seal is unproved whose stamp proves its moment no more
    unproved: dict[str, str] = field(default_factory=dict)
    # of each certificate the SHA-256 of its texts, in the order of their seals, and which have a good seal
    texts: dict[int, list[str]] = field(default_factory=dict)
    good: set[tuple[int, str]] = field(default_factory=set)
    # texts of which a seal is by a key that was withdrawn, with the seal and the sentence for it
    withdrawn: dict[tuple[int, str], list[tuple[str, str]]] = field(default_factory=dict)
    # the office of the chain, AT of the seal before, and for each form of signatures the keys in the order of their seals
    office: str = ""
    at: str = ""
    keys: dict[str, list[str]] = field(default_factory=dict)
    # the last line of the gate's journal that a seal named, its SHA-256, and that seal
    journal: tuple[int, str, str] = (0, "", "")
    # how many CAdES signatures nobody could verify
    unread: int = 0
    count: int = 0
    stamps: int = 0
    expired: int = 0
    renewals: int = 0
    last: str = ""

    def refuse(self, seal: str, why: str, word: str = "") -> None:
        """Reports why a seal is wrong, and the word for it, if it has one."""
        self.wrong.append(f"{seal}: {why}")
        if word:
            self.words.append(word)
            self.seals[seal] = min(word, self.seals.get(seal, word), key=list(STATUSES).index)

    def verdicts(self) -> list[str]:
        """Returns a line for each word, with its seals."""
        words = {**{seal: f"{UNPROVED} {day}" for seal, day in self.unproved.items()}, **self.seals}
        order = [*STATUSES, *sorted({word for word in words.values() if word not in STATUSES})]
        seals = {word: sorted(seal for seal in words if words[seal] == word) for word in order}
        return [f"{word}: {ranges(names)}" for word, names in seals.items() if names]

    def status(self, is_strict: bool) -> int:
        """Returns the status: 0 if nothing is wrong. With --strict it is that of the worst word."""
        if not is_strict or len(self.words) < len(self.wrong):
            return 1 if self.wrong else 0
        return next((STATUSES[word] for word in STATUSES if word in self.words), UNPROVED_STATUS if self.unproved else 0)


def ranges(names: list[str]) -> str:
    """Returns the names of seals in their order, with the first and last of those that follow one another."""
    runs: list[list[str]] = []
    for name in names:
        if runs and runs[-1][-1].isdecimal() and name == f"{int(runs[-1][-1]) + 1:06}":
            runs[-1].append(name)
        else:
            runs.append([name])
    return ", ".join(f"{run[0]} to {run[-1]}" if len(run) > 2 else ", ".join(run) for run in runs)
