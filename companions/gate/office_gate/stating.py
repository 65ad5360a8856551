"""What a gate states to an office that decides too: the secret that both know, the name that signed in, and the day."""
from collections.abc import Callable
from dataclasses import dataclass

from office_gate.access import Access
from office_gate.errors import Refused

NEEDED = ("read records", "read lists", "read certificates")
"""what the gate asks the office for itself, in all classes"""


@dataclass(frozen=True)
class Stating:
    """The lines of each request to the office. `today` returns the day of the office, by the clock of this machine."""

    secret: str
    reader: str
    today: Callable[[], str]

    def lines(self, name: str) -> dict[str, str]:
        """Returns the lines that state a name."""
        return {"Office-Token": self.secret, "Office-Name": name, "Office-Day": self.today()}


def check_reader(access: Access, reader: str) -> None:
    """Refuses settings by which the office would not answer the questions of the gate itself."""
    person = access.person(reader)
    lacking = [it for it in NEEDED if not person.may_all(it)]
    if lacking:
        raise Refused(2, f"{access.path}: the name {reader}, by which this gate asks the office, needs a role that reads "
                         f"{' '.join(it.removeprefix('read ') for it in lacking)} without classes")
