"""The settings of a gate: the statements of the city, and below them, but above `end`, those of the people who signed in.

Root makes them. The table of people is written by a service with fewer rights, so nothing of it counts but a name of the
directory, a role that the settings of sign-in give to some group in this office, and a text that a gate takes.
"""
import grp
import hashlib
import json
import os
import re
import subprocess
import tempfile
from collections.abc import Callable, Sequence
from pathlib import Path
from typing import Any, NamedTuple

from office_common import files
from office_common.command import report
from office_common.errors import IMPOSSIBLE, USAGE, Refused

from office_signin.people import MOST_SIGNED, NO_TEXT
from office_signin.settings import Settings

SIGNED = re.compile(r"\S(.*\S)?")
MARK = "# ---- who signed in, by office-sign-in: changes below this line are lost\n"
SECONDS = 60
GATES = "office-gate"
"""the group of the gates"""
Check = Callable[[str], bool]


class Statements(NamedTuple):
    """The lines of one person."""

    name: str
    lines: tuple[str, ...]

    def text(self) -> str:
        return "".join(f"{line}\n" for line in self.lines)


class Places(NamedTuple):
    """Where the settings of gates are, those of before without the people, and which commands are run."""

    gates: Path
    own: Path
    check: tuple[str, ...] = ("office-gate", "check")
    reload: tuple[str, ...] = ("systemctl", "try-reload-or-restart")


def statements_of(settings: Settings, office: str, name: str, entry: Any) -> Statements | None:
    """Returns the lines of a person in an office, or None if something is not as it must be, or there is no role."""
    allowed = {grant.text() for grant in settings.roles[office].values()}
    form = re.compile(rf"[A-Za-z0-9._-]{{1,47}}@{re.escape(settings.realm)}", re.ASCII)
    grants, signs = entry["grants"].get(office, []), entry["signs"]
    if not grants:
        return None
    is_right = bool(form.fullmatch(name)) and len(name) <= 64 and isinstance(signs, str) and set(grants) <= allowed \
        and bool(SIGNED.fullmatch(signs)) and NO_TEXT.sub(" ", signs) == signs and len(signs.encode()) <= MOST_SIGNED
    if not is_right:
        report("office-sign-in", f"what the table has of {name!r} for {office} is left out: it is not as sign-in writes it")
        return None
    return Statements(name, (*(f"name {name} is {text}" for text in grants), f"name {name} signs {signs}"))


def people_in(settings: Settings, office: str, data: bytes) -> list[Statements]:
    """Returns the lines of all people of a table."""
    try:
        table = json.loads(data)
        found = [statements_of(settings, office, str(name), entry) for name, entry in table.items()]
    except (ValueError, KeyError, TypeError, AttributeError) as error:
        raise Refused(IMPOSSIBLE, f"the table of people is damaged: {error}") from error
    return [one for one in found if one is not None]


def with_people(own: str, people: Sequence[Statements]) -> str:
    """Returns the city's statements with those of people: above the mark `end`, if they have it, else below all."""
    lines = own.splitlines(keepends=True)
    ends = [place for place, line in enumerate(lines) if line.split("#", 1)[0].split() == ["end"]]
    place = ends[-1] if ends else len(lines)
    return "".join([*lines[:place], MARK, *(one.text() for one in people), *lines[place:]])


def taken(own: str, people: Sequence[Statements], check: Check) -> list[Statements]:
    """Returns the people whom a gate takes beside the city's own statements. One whose text is another's has no rights."""
    accepted: list[Statements] = []

    def take(some: Sequence[Statements]) -> None:
        if not some or check(with_people(own, [*accepted, *some])):
            accepted.extend(some)
        elif len(some) == 1:
            report("office-sign-in", f"the gate does not take {some[0].name}: {'; '.join(some[0].lines)}")
        else:
            take(some[:len(some) // 2])
            take(some[len(some) // 2:])
    take(people)
    return accepted


def is_taken(command: Sequence[str], text: str) -> bool:
    """Asks the gate whether it takes settings."""
    with tempfile.NamedTemporaryFile("w", encoding="utf-8", suffix=".access") as file:
        file.write(text)
        file.flush()
        done = subprocess.run([*command, file.name], stdin=subprocess.DEVNULL, capture_output=True, timeout=SECONDS,
                              check=False)
    return done.returncode == 0


def own_of(settings: Settings, places: Places, office: str) -> str:
    """Returns the city's own statements, once the gate takes them, and none is about a name of the directory."""
    path = places.own / f"{office}.access"
    try:
        text = path.read_text(encoding="utf-8")
    except (OSError, UnicodeDecodeError) as error:
        raise Refused(USAGE, f"{path} is not read: {error}") from error
    for at, line in enumerate(text.splitlines(), 1):
        parts = line.split("#", 1)[0].split()
        if parts[:1] == ["name"] and len(parts) > 1 and parts[1].endswith(f"@{settings.realm}"):
            raise Refused(USAGE, f"{path}:{at}: {parts[1]} is a name of the directory: give its group a role")
    if not is_taken(places.check, text):
        raise Refused(USAGE, f"the gate does not take {path}: {' '.join(places.check)} {path}")
    return text if text.endswith("\n") else f"{text}\n"


def readers() -> int:
    """Returns the group of the gates, which read their settings, or this one if there is no such group."""
    try:
        return grp.getgrnam(GATES).gr_gid if os.geteuid() == 0 else os.getegid()
    except KeyError:
        return os.getegid()


def put(places: Places, office: str, text: str) -> None:
    """Puts the settings of a gate in place, and has the gate read them. If it does not, those of before are put back, so
    that the next call tries again."""
    path, owner = places.gates / f"{office}.access", (os.geteuid(), readers())
    before = path.read_bytes() if path.is_file() else None
    if before == text.encode():
        return
    files.write(path, text.encode(), 0o640, owner)
    done = subprocess.run([*places.reload, f"office-gate@{office}.service"], stdin=subprocess.DEVNULL, timeout=SECONDS,
                          check=False)
    if done.returncode:
        if before is None:
            path.unlink()
        else:
            files.write(path, before, 0o640, owner)
        raise Refused(IMPOSSIBLE, f"the gate of {office} does not read its settings: status {done.returncode}")


def text_for(settings: Settings, office: str, data: bytes, places: Places) -> str:
    """Returns the settings of the gate of an office, with the people of a table."""
    own = own_of(settings, places, office)
    people = taken(own, people_in(settings, office, data), lambda text: is_taken(places.check, text))
    return with_people(own, people)


def differing(settings: Settings, table: Path, places: Places) -> list[str]:
    """Returns the offices whose gates have other settings than those with the people of a table."""
    data = data_in(table)
    files_of = {office: places.gates / f"{office}.access" for office in settings.roles}
    return [office for office, file in files_of.items()
            if not file.is_file() or file.read_bytes() != text_for(settings, office, data, places).encode()]


def data_in(table: Path) -> bytes:
    """Returns the bytes of a table, that of nobody if there is none yet."""
    return table.read_bytes() if table.is_file() else b"{}"


def give(settings: Settings, data: bytes, places: Places) -> None:
    """Gives each gate the people of a table. What is wrong with one office keeps no other waiting."""
    wrong: list[Refused] = []
    for office in settings.roles:
        try:
            put(places, office, text_for(settings, office, data, places))
        except Refused as refused:
            wrong.append(refused)
    if wrong:
        raise Refused(max(refused.status for refused in wrong), "; ".join(map(str, wrong)))


def give_all(settings: Settings, table: Path, places: Places, done: Path) -> None:
    """Gives the gates the table, again if it changed meanwhile, and notes which one they have."""
    last: bytes | None = None
    while (data := data_in(table)) != last:
        give(settings, data, places)
        files.write(done, hashlib.sha256(data).hexdigest().encode(), 0o644)
        last = data
