"""Passwords of local names and tokens of programs: office-sign-in makes each once, and only what is needed to check it stays."""
import json
import re
import secrets
from collections.abc import Callable, Iterator, Sequence
from dataclasses import dataclass

from office_common import files
from office_common.errors import IMPOSSIBLE, Refused
from office_setup.declared import Office
from office_setup.machine import Machine, Owner
from office_setup.signing import TABLE, Program
from office_setup.things import Deed, Once, Thing

FOLDER = "/etc/office-sign-in"
FILE = f"{FOLDER}/secrets.json"
OWNER = Owner("root", "root", 0o600)
DIGEST = re.compile('^token = "([0-9a-f]{64})"$', re.M)
TOKEN = re.compile(r"shown once: (\S+)")
ANY_PASSWORD, ANY_TOKEN = f"scrypt:1:1:1:{'0' * 32}:{'0' * 64}", "0" * 64
"""what stands for a secret that is not there yet, as the settings are judged"""
Show = Callable[[str, str], None]
"""shows a name and its secret to whoever runs the command"""


def local_names(offices: Sequence[Office]) -> list[str]:
    return sorted({person.name for office in offices if office.signing for person in office.signing.local})


def programs(offices: Sequence[Office]) -> dict[str, Program]:
    return {program.person.name: program for office in offices if office.signing for program in office.signing.programs}


def check_names(offices: Sequence[Office]) -> None:
    """Refuses a program with two last days, and a name that is both a person's and a program's."""
    known, local = programs(offices), local_names(offices)
    for office in offices:
        for program in office.signing.programs if office.signing else ():
            name = program.person.name
            if program.ends != known[name].ends:
                raise office.refuse(f"{TABLE}.programs.{name}.ends", f"another file has {known[name].ends}: a program has one "
                                    "token on a machine")
            if name in local:
                raise office.refuse(f"{TABLE}.programs.{name}", "a local name is called so")


@dataclass(frozen=True)
class Kept:
    """What stays of each password and token."""

    local: dict[str, str]
    programs: dict[str, str]

    @classmethod
    def read(cls, machine: Machine) -> "Kept":
        """Reads what was made before."""
        file = machine.at(FILE)
        if not file.is_file():
            return cls({}, {})
        try:
            values = json.loads(file.read_bytes())
            return cls(dict(values["local"]), dict(values["programs"]))
        except (ValueError, KeyError, TypeError) as error:
            raise Refused(IMPOSSIBLE, f"{FILE} is damaged: put it back, or move it away, and each name gets another secret") \
                from error

    @classmethod
    def any_of(cls, offices: Sequence[Office]) -> "Kept":
        """Returns what stands for the secrets of all names."""
        return cls(dict.fromkeys(local_names(offices), ANY_PASSWORD), dict.fromkeys(programs(offices), ANY_TOKEN))

    def tables(self, offices: Sequence[Office]) -> dict[str, dict[str, object]]:
        """Returns the tables of the settings, with the names that have a secret."""
        own = programs(offices)
        return {"local": {name: self.local[name] for name in local_names(offices) if name in self.local},
                "programs": {name: {"token": self.programs[name], "ends": own[name].ends} for name in sorted(own)
                             if name in self.programs}}

    def write(self, machine: Machine) -> None:
        text = json.dumps({"local": self.local, "programs": self.programs}, indent=1, sort_keys=True)
        files.write(machine.at(FILE), f"{text}\n".encode(), OWNER.mode, machine.ids(OWNER))


def give(machine: Machine, name: str, is_program: bool) -> str:
    """Gives a local name another password or a program another token, and returns that."""
    kept = Kept.read(machine)
    if is_program:
        text = machine.must("office-sign-in", "token", name)
        digest, token = DIGEST.search(text), TOKEN.search(text)
        if digest is None or token is None:
            raise Refused(IMPOSSIBLE, f"office-sign-in made no token: {text}")
        kept.programs[name], shown = digest[1], token[1]
    else:
        shown = secrets.token_urlsafe(16)
        kept.local[name] = machine.must("office-sign-in", "password", "--stdin", text=f"{shown}\n")
    kept.write(machine)
    return shown


def things(machine: Machine, offices: Sequence[Office], show: Show) -> Iterator[Thing]:
    """Returns the secrets of all declared names, and the removal of those that are no longer declared."""
    def has(name: str, is_program: bool) -> bool:
        kept = Kept.read(machine)
        return name in (kept.programs if is_program else kept.local)

    def first(name: str, is_program: bool) -> Thing:
        def do() -> list[str]:
            show(name, give(machine, name, is_program))
            return []
        kind = "token" if is_program else "password"
        # a log of the upgrade is no place for a secret
        return Deed(f"{FILE}: {name} has no {kind}", lambda: has(name, is_program), do, waits=True)

    def gone(name: str, is_program: bool) -> Thing:
        def do() -> list[str]:
            kept = Kept.read(machine)
            del (kept.programs if is_program else kept.local)[name]
            kept.write(machine)
            return []
        return Deed(f"{FILE}: {name} has a secret, and is named by no office", lambda: not has(name, is_program), do)
    local, own, kept = local_names(offices), programs(offices), Kept.read(machine)
    yield from (first(name, False) for name in local)
    yield from (first(name, True) for name in sorted(own))
    yield from (gone(name, False) for name in sorted(kept.local) if name not in local)
    yield from (gone(name, True) for name in sorted(kept.programs) if name not in own)
    if local or own:
        yield Once(machine, FILE, str, OWNER)
