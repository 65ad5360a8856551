"""How a request is answered by the gate itself, how a command ends that cannot go on, and what the service prints."""
import contextlib
import sys

from office_common.errors import Refused

__all__ = ["Answered", "Refused", "say"]


def say(text: str) -> None:
    """Prints a line for the journal of systemd. A disk that does not take it stops nothing."""
    with contextlib.suppress(OSError):
        print(f"office-gate: {text}", file=sys.stderr, flush=True)


class Answered(Exception):
    """Ends a request with a status and a word: nothing of it was done."""

    def __init__(self, status: int, word: str, **more: object) -> None:
        super().__init__(word)
        self.status, self.word, self.more = status, word, more

    def body(self) -> dict[str, object]:
        return {"error": self.word, **self.more}
