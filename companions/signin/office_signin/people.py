"""The people who signed in, each with the roles that the groups of that person have: what the settings of gates get."""
import hashlib
import json
import re
from dataclasses import asdict, dataclass, field
from pathlib import Path

from office_common import files
from office_common.command import report

from office_signin.directory import Known
from office_signin.settings import Settings

KEPT_DAYS = 30
"""so many days after the last sign-in a gate still names a person"""
MOST_SIGNED = 200
NO_TEXT = re.compile(r"[\x00-\x1f\x7f-\x9f#\s]+")
"""what a text of the settings of a gate may not have, or has only as one space"""


@dataclass(frozen=True)
class Person:
    """Somebody with a role: what certificates show, the groups, the statements for each office, and the last day."""

    name: str
    signs: str
    groups: tuple[str, ...]
    grants: dict[str, tuple[str, ...]]
    day: str = field(compare=False)


def gate_name(settings: Settings, known: Known) -> str:
    """Returns the name by which gates know somebody: the stable id, which no local name is."""
    return f"{known.id}@{settings.realm}"


def signed_text(known: Known) -> str:
    """Returns what a person signs as: printable, on one line, and of the length that acts have."""
    text = NO_TEXT.sub(" ", known.signs).strip()
    text = "".join(letter for letter in text if letter.isprintable())
    while len(text.encode()) > MOST_SIGNED:
        text = text[:-1]
    return text.strip() or known.id


def person_of(settings: Settings, known: Known, day: str) -> Person | None:
    """Returns a person with the roles of these groups, or None if no office has one for any of them."""
    grants = {office: tuple(grant.text() for grant in settings.grants_of(office, known.groups)) for office in settings.roles}
    given = {office: texts for office, texts in grants.items() if texts}
    return Person(known.name, signed_text(known), known.groups, given, day) if given else None


class People:
    """The table of these people, in a file that root reads."""

    def __init__(self, path: Path) -> None:
        self.path = path
        self.kept: dict[str, Person] = {}
        self.digest = ""
        if path.is_file():
            self.read()

    def read(self) -> None:
        """Takes the table of before. One that is damaged begins anew: who signs in is in it again."""
        data = self.path.read_bytes()
        try:
            for name, it in json.loads(data).items():
                grants = {office: tuple(texts) for office, texts in it["grants"].items()}
                self.kept[name] = Person(it["name"], it["signs"], tuple(it["groups"]), grants, it["day"])
        except (ValueError, KeyError, TypeError, AttributeError) as error:
            report("office-sign-in", f"{self.path} is damaged, and begins anew: {error}")
            self.kept = {}
        self.digest = hashlib.sha256(data).hexdigest()

    def put(self, name: str, person: Person, oldest_day: str) -> bool:
        """Notes a person, and returns whether the gates have to learn something."""
        before = self.kept.pop(name, None)
        # a name that the directory gave to somebody else: what the one before signed must not be the same
        others = [other for other, it in self.kept.items() if it.signs.casefold() == person.signs.casefold()]
        for other in others:
            del self.kept[other]
        self.kept[name] = person
        is_new = before != person or bool(others)
        old = [other for other, it in self.kept.items() if it.day < oldest_day]
        if is_new or before is None or before.day != person.day:
            for other in old:
                del self.kept[other]
            self.write()
        return is_new

    def drop(self, name: str) -> None:
        """Forgets somebody who has no role any more."""
        if self.kept.pop(name, None) is not None:
            self.write()

    def write(self) -> None:
        data = json.dumps({name: asdict(person) for name, person in self.kept.items()}, ensure_ascii=False, indent=1).encode()
        files.write(self.path, data, 0o640)
        self.digest = hashlib.sha256(data).hexdigest()
