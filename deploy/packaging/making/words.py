"""The program's words, as README.md has them: its table, and what it says of operands below; the exit statuses of
docs/ERRORS.md."""
import pathlib
import re
from typing import NamedTuple

TOP = pathlib.Path(__file__).resolve().parents[3]
README, ERRORS = TOP / "README.md", TOP / "docs/ERRORS.md"


class Word(NamedTuple):
    """A row of the table: the ways to call the word, and what it prints."""

    calls: list[str]
    prints: str

    @property
    def name(self) -> str:
        return self.calls[0].split(" ")[0]

    @property
    def operands(self) -> list[str]:
        """The operands, one place each; what else may stand at a place follows after |."""
        places: list[list[str]] = []
        for call in self.calls:
            for at, operand in enumerate(call.split(" ")[1:]):
                places += [[]] * (at + 1 - len(places))
                if operand not in places[at]:
                    places[at] = [*places[at], operand]
        return ["|".join(it) for it in places]


def table() -> list[Word]:
    """The words, in the order of the table."""
    text = README.read_text()
    rows = text[text.index("| Command | Standard output |"):].split("\n\n")[0].split("\n")[2:]
    found = []
    for row in rows:
        calls, prints = row.strip("| ").split(" | ", 1)
        found.append(Word(re.findall(r"`([^`]+)`", calls), prints))
    return found


def notes() -> str:
    """The paragraph below the table: operands."""
    text = README.read_text()
    return text[text.index("| Command | Standard output |"):].split("\n\n")[1].replace("\n", " ")


def statuses() -> dict[str, list[str]]:
    """What each exit status means, in the order of the table."""
    text = ERRORS.read_text()
    rows = text[text.index("| Status | Meaning | On standard error |"):].split("\n\n")[0].split("\n")[2:]
    found: dict[str, list[str]] = {}
    for row in rows:
        status, meaning = row.strip("| ").split(" | ")[:2]
        found.setdefault(status, []).append(meaning)
    return found
