"""People of an office: a name that signs in, its roles, and the text that it signs with."""
import re
from dataclasses import dataclass

from office_common import toml_table
from office_common.toml_table import Table

PERSON = re.compile(r"\*|[^\s:#*\"\\\x00-\x1f\x7f]{1,64}")
LINE = re.compile(r"[^\x00-\x1f\x7f#\s][^\x00-\x1f\x7f#]*")
WORD = re.compile(r"[^\s#\x00-\x1f\x7f]+")
OWN_NAMES = ("monitor", "yearend")
"""names of services, which get their lines by themselves"""


@dataclass(frozen=True)
class Grant:
    """Roles of a person, in these classes or, without any, everywhere."""

    roles: tuple[str, ...]
    classes: tuple[str, ...]


@dataclass(frozen=True)
class Person:
    """A name that signs in, its roles, and the text that it signs with."""

    name: str
    grants: tuple[Grant, ...]
    signs: str | None


def grant_of(table: Table) -> Grant:
    roles = table.texts("is", WORD, "a role, or a list of roles")
    if not roles:
        table.refuse("is", "it is missing: write a role, or a list of roles")
    return Grant(roles, table.texts("in", WORD, "the code of a class, or a list of codes"))


def person_of(people: Table, name: str) -> Person:
    """Reads a person: a role, a list of roles, or tables with `is`, `in` and `signs`."""
    value = people.value(name)
    if not PERSON.fullmatch(name):
        people.refuse(name, "a name has no space, colon, quote or #")
    if name in OWN_NAMES:
        people.refuse(name, "this name belongs to a service, which gets it without a line")
    if isinstance(value, str) or isinstance(value, list) and not any(isinstance(entry, dict) for entry in value):
        table = Table(people.file, {"is": value}, f"{people.prefix}{name}.")
        return Person(name, (grant_of(table),), None)
    grants: list[Grant] = []
    signs: list[str] = []
    for entry in value if isinstance(value, list) else [value]:
        if not isinstance(entry, dict):
            people.refuse(name, f"{toml_table.shown(entry)} is no role, no list of roles, and no table with is, in, "
                          "signs")
        table = Table(people.file, entry, f"{people.prefix}{name}.")
        grants.append(grant_of(table))
        text = table.text("signs", LINE, "the text that certificates have for this name")
        signs += [] if text is None else [text]
        table.end()
    if len(signs) > 1:
        people.refuse(name, "it signs with one text")
    return Person(name, tuple(grants), signs[0] if signs else None)


def people_of(table: Table) -> tuple[Person, ...] | None:
    people = table.table("people")
    return None if people is None else tuple(person_of(people, name) for name in people.values)
