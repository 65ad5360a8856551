"""Sign-in by the city's own names: the settings, secrets, journal and units of office-sign-in, which judges the settings."""
import re
import tempfile
from collections.abc import Iterator, Sequence
from pathlib import Path

from office_common.errors import USAGE, Refused
from office_setup import gate_settings, sign_in_secrets, toml_text
from office_setup.declared import Office
from office_setup.machine import OFFICES, Machine, Owner
from office_setup.made import Made
from office_setup.sign_in_secrets import FOLDER, Show
from office_setup.signing import TABLE
from office_setup.texts import of_all
from office_setup.things import Command, File, Folder, Log, Once, Thing, Unit, owner_difference

SETTINGS = f"{FOLDER}/settings.toml"
READABLE = Owner("root", "office-sign-in", 0o640)
GATE_SETTINGS = Owner("root", "office-gate", 0o640)
LOGS, JOURNAL = "/var/log/office-sign-in", "journal"
PEOPLE, GIVEN = "/var/lib/office-sign-in/people.json", "/run/office-sign-in-gates/given"
SERVICE, GATES = "office-sign-in.service", "office-sign-in-gates.service"
UNITS = (SERVICE, "office-sign-in-gates.path")
"""in this order: what the path unit looks at is in a folder that the service makes"""
MAILS = "office-sign-in-mail.path"
COMPLAINT = re.compile(r"office-sign-in: \S+/settings\.toml: ([^:]+): (.+)")
MADE_THERE = b"by office-sign-in"
"""what the settings of a gate have that office-sign-in made"""


def own_settings(name: str) -> str:
    """Returns the path of the city's own statements for the gate of an office."""
    return f"{FOLDER}/{name}.access"


# ---- the settings


def settings(offices: Sequence[Office], kept: sign_in_secrets.Kept) -> str:
    """Returns the settings of office-sign-in. A name without a secret is left out."""
    roles = {office.name: office.signing.groups for office in offices if office.signing}
    shared = offices[0].signing.shared if offices[0].signing else {}
    return of_all() + toml_text.text_of({"site": f"https://{offices[0].tls.site}", **shared, "roles": roles,
                                         **kept.tables(offices)}, depth=2)


def check(machine: Machine, offices: Sequence[Office]) -> None:
    """Refuses what office-sign-in does not take, and a secret of the directory that is not there."""
    if not offices or offices[0].signing is None:
        return
    sign_in_secrets.check_names(offices)
    with tempfile.TemporaryDirectory(prefix="office-setup-") as folder:
        file = Path(folder, "settings.toml")
        file.write_text(settings(offices, sign_in_secrets.Kept.any_of(offices)), encoding="utf-8")
        done = machine.run("office-sign-in", "check", "--settings", file)
    if done.status:
        complaint = COMPLAINT.search(done.text)
        if complaint is None:
            raise Refused(USAGE, f"office-sign-in does not take [{TABLE}] of {offices[0].file}: {done.text}")
        raise office_of(complaint[1], offices).refuse(key_of(complaint[1], offices), complaint[2])
    for key, path in offices[0].signing.secret_files().items():
        file = machine.at(path)
        if not file.is_file() or not file.read_bytes().strip():
            raise offices[0].refuse(key, f"{path} is not there, or is empty: write the secret into it")


def office_of(key: str, offices: Sequence[Office]) -> Office:
    """Returns the office whose file has a key of the settings."""
    parts = key.split(".")
    if parts[0] == "roles":
        return next((office for office in offices if parts[1:2] == [office.name]), offices[0])
    ours = (office for office in offices if office.signing and key_of(key, offices) in office.signing.named())
    return next(ours, offices[0])


def key_of(key: str, offices: Sequence[Office]) -> str:
    """Returns where a key of the settings is in an office's file."""
    top, _, rest = key.partition(".")
    if top == "site":
        return top
    if top == "roles":
        return f"{TABLE}.groups.{rest.partition('.')[2]}".rstrip(".")
    return f"{TABLE}.{key.removesuffix('.token')}"


# ---- its parts


class Gates(Thing):
    """The settings of the gates: the city's own statements with the people who signed in, by office-sign-in."""

    def __init__(self, machine: Machine, offices: Sequence[Office]) -> None:
        self.machine = machine
        self.restores = tuple(f"{OFFICES}/{office.name}.access" for office in offices)
        self.back = tuple(("systemctl", "try-reload-or-restart", f"office-gate@{office.name}.service") for office in offices)

    def difference(self) -> str | None:
        for path in self.restores:
            if not self.machine.at(path).is_file():
                return f"{path}: there is no such file"
            if difference := owner_difference(self.machine, path, GATE_SETTINGS):
                return difference
        at = self.machine.at
        done = self.machine.run("office-sign-in", "gates", "--compare", "--settings", at(SETTINGS), "--people", at(PEOPLE),
                                "--given", at(GIVEN), "--gates", at(OFFICES), "--own", at(FOLDER))
        return f"{SETTINGS}: {'; '.join(done.text.splitlines())}" if done.status else None

    def make(self, made: Made) -> list[str]:
        lines = []
        for path in self.restores:
            file = self.machine.at(path)
            aside = made.keep_aside(path) if file.is_file() and MADE_THERE not in file.read_bytes() else None
            lines += [f"{path}: somebody changed it, and it is kept as {aside}"] if aside else []
            made.forget(path)
        self.machine.must("systemctl", "start", GATES)
        for path in self.restores:
            self.machine.own(path, GATE_SETTINGS)
        return lines


def restored(file: File, *commands: Command) -> File:
    """Has a file put back if nginx refuses its own, with the commands that follow then."""
    assert file.path is not None
    file.restores, file.back = (file.path,), commands
    return file


def statements(machine: Machine, office: Office) -> Thing:
    """Returns the city's own statements for the gate of an office, which the gate takes."""
    text = gate_settings.text_of(office, machine)
    return restored(File(machine, own_settings(office.name), lambda: text, Owner("root", "root", 0o640)))


def journals(machine: Machine) -> Iterator[Thing]:
    """Returns the journal of sign-ins, and the older files that logrotate made of it."""
    yield Folder(machine, LOGS, Owner("office-sign-in", "www-data", 0o750))
    older = sorted(path.name for path in machine.at(LOGS).glob(f"{JOURNAL}-*") if re.search(r"-\d+$", path.name))
    for name in (JOURNAL, *older):
        yield Log(machine, f"{LOGS}/{name}", Owner("office-sign-in", "adm", 0o640))


def things(machine: Machine, offices: Sequence[Office], show: Show) -> Iterator[Thing]:
    """Returns what has to be there before a gate starts."""
    if offices[0].signing is None:
        return
    yield Folder(machine, FOLDER, Owner("root", "office-sign-in", 0o750))
    for path in offices[0].signing.secret_files().values():
        if Path(path).parent == Path(FOLDER):
            yield Once(machine, path, str, READABLE)
    yield from sign_in_secrets.things(machine, offices, show)
    restart = ("systemctl", "try-restart", SERVICE)
    yield restored(File(machine, SETTINGS, lambda: settings(offices, sign_in_secrets.Kept.read(machine)), READABLE,
                        (restart,)), restart)
    yield from (statements(machine, office) for office in offices)
    yield from journals(machine)
    yield Gates(machine, offices)


# ---- its units, and its end


class Gone(Thing):
    """A generated file that no office declares any more."""

    def __init__(self, machine: Machine, path: str) -> None:
        self.machine, self.path = machine, path

    def difference(self) -> str | None:
        assert self.path is not None
        return f"{self.path}: no office declares it any more" if self.machine.at(self.path).is_file() else None

    def make(self, made: Made) -> list[str]:
        assert self.path is not None
        aside = made.keep_aside(self.path)
        self.machine.at(self.path).unlink()
        made.forget(self.path)
        return [f"{self.path}: somebody changed it, and it is kept as {aside}"] if aside else []


def ending(machine: Machine, offices: Sequence[Office], made: Made) -> Iterator[Thing]:
    """Returns the units that must be on or off once nginx has its files, and removes files that nobody declares."""
    signing = offices[0].signing if offices else None
    is_ours = SETTINGS in made.digests
    if signing is not None:
        for name in UNITS:
            yield Unit(machine, name)
    elif is_ours:
        for name in reversed(UNITS):
            yield Unit(machine, name, is_on=False)
    if signing is not None and "mail" in signing.shared:
        yield Unit(machine, MAILS)
    elif is_ours:
        yield Unit(machine, MAILS, is_on=False)
    wanted = [SETTINGS, *(own_settings(office.name) for office in offices)] if signing is not None else []
    ours = [path for path in made.digests if path.startswith(f"{FOLDER}/") and path not in wanted]
    for path in sorted(ours):
        yield Gone(machine, path)
