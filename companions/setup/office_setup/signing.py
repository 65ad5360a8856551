"""The table [sign_in] of an office: how people sign in, roles of groups, local names and programs.

What the offices of a machine share is that of each of them. office-sign-in, and not this module, judges it."""
import datetime
from collections.abc import Mapping
from dataclasses import dataclass

from office_common.toml_table import Table
from office_setup.people import Person, person_of

TABLE = "sign_in"
WAYS = {"directory": "reader-password", "provider": "secret"}
"""the tables that say by whom people sign in, each with the key of the file that has its secret"""
SECRETS = {"directory": "/etc/office-sign-in/reader", "provider": "/etc/office-sign-in/client"}
"""where these files are, if the table says nothing else"""
SHARED = ("realm", "zone", "day-ends", "hours", "idle-minutes", "groups-again-minutes", "mail", *WAYS)


@dataclass(frozen=True)
class Program:
    """A program that signs in by a token, and the last day of that."""

    person: Person
    ends: datetime.date


@dataclass(frozen=True)
class Signing:
    """How people sign in: what all offices of the machine share, and the groups, names and programs of this one."""

    shared: Mapping[str, object]
    groups: Mapping[str, object]
    local: tuple[Person, ...]
    programs: tuple[Program, ...]

    def named(self) -> dict[str, Person]:
        """Returns those whom the directory does not know, by the keys of the file."""
        programs = {f"{TABLE}.programs.{program.person.name}": program.person for program in self.programs}
        return {f"{TABLE}.local.{person.name}": person for person in self.local} | programs

    def secret_files(self) -> dict[str, str]:
        """Returns the files with the secrets of the directory or the provider, by the keys of the office's file."""
        named = {way: self.shared.get(way) for way in WAYS}
        return {f"{TABLE}.{way}.{WAYS[way]}": str(values[WAYS[way]]) for way, values in named.items()
                if isinstance(values, dict) and WAYS[way] in values}


def with_secret(way: str, value: object) -> object:
    """Adds the file of the secret to a table of a directory or a provider."""
    if not isinstance(value, dict) or WAYS[way] in value or way == "directory" and "reader" not in value:
        return value
    return {**value, WAYS[way]: SECRETS[way]}


def program_of(programs: Table, name: str) -> Program:
    """Reads a program: roles as those of a person, and `ends`."""
    one = programs.table(name) or Table(programs.file, {}, f"{programs.prefix}{name}.")
    ends = one.value("ends")
    if not isinstance(ends, datetime.date) or isinstance(ends, datetime.datetime):
        one.refuse("ends", "it is no day such as 2027-12-31, the last one of the token")
    rest = {key: value for key, value in one.values.items() if key != "ends"}
    return Program(person_of(Table(programs.file, {name: rest}, programs.prefix), name), ends)


def signing_of(table: Table, zone: str) -> Signing | None:
    """Reads the table, or returns None if people sign in by passwords."""
    own = table.table(TABLE)
    if own is None:
        return None
    shared = {key: own.value(key) for key in SHARED}
    shared = {key: with_secret(key, value) if key in WAYS else value for key, value in shared.items() if value is not None}
    tables = [own.table(key) or Table(own.file, {}, f"{own.prefix}{key}.") for key in ("groups", "local", "programs")]
    own.end()
    groups, local, programs = tables
    names = [name for name in (*local.values, *programs.values) if name == "*"]
    if names:
        local.refuse("*", "this is nobody's name")
    return Signing({"zone": zone, **shared}, groups.values, tuple(person_of(local, name) for name in local.values),
                   tuple(program_of(programs, name) for name in programs.values))
