"""Parts of one office, in the order in which they are created."""
import re
from collections.abc import Iterator, Sequence
from pathlib import Path

from office_common import program
from office_common.errors import USAGE, Refused
from office_setup import gate_settings, keys, ports, texts
from office_setup.declared import Office
from office_setup.machine import NGINX, OFFICES, Machine, Owner
from office_setup.things import Deed, File, Folder, Log, Thing, Unit

LIB = "/var/lib"
JOURNALS = "/var/log/office"
JOURNAL_OWNER = Owner("office-gate", "adm", 0o640)
ALWAYS = ("office@{}.service", "office-gate@{}.socket", "office-gate@{}.service", "office-catalogue@{}.timer",
          "office-backup@{}.timer", "office-scrub@{}.timer", "office-compact@{}.timer", "office-overdue@{}.timer",
          "office-journal-check@{}.timer")
OF_VAULT = ("office-vault@{}.service", "office-vault-sweep@{}.timer", "office-vault-check@{}.timer",
            "office-vault-mirror@{}.timer")
OF_SEALS = ("office-certificates@{}.timer", "office-renew@{}.timer")
OF_YEAREND = ("office-yearend@{}.timer",)
ALL = "office-all@{}.target"
"""what stops and starts all units of an office at once"""
DATA = ("office", "office-backups", "office-encrypted", "office-registers", "office-catalogues", "office-certificates",
        "office-seals", "office-vaults", "office-vault-backups", "office-gate", "office-yearend")
"""folders of /var/lib with a folder for each office, which `remove` leaves alone"""
TRACES = ("/var/lib/office-backups/{}", "/var/lib/office-gate/{}", "/var/log/office/{}.journal",
          "/var/lib/office-seals/{}")
"""paths that only an office in use fills"""


def file_of(office: Office) -> str:
    return f"{LIB}/office/{office.name}/office.db"


def units_of(name: str) -> list[str]:
    """Returns all units that an office may have on: the one that stops them all, then the first ones last."""
    return [unit.format(name) for unit in reversed([*ALWAYS, *OF_VAULT, *OF_SEALS, *OF_YEAREND, ALL])]


# ---- the first FILE


def has_more(path: Path) -> bool:
    """Returns whether a file has a byte, or a folder an entry."""
    return any(path.iterdir()) if path.is_dir() else path.is_file() and path.stat().st_size > 0


def trace_of(machine: Machine, office: Office) -> str | None:
    """Returns a trace of an earlier office of this name, or None."""
    paths = [*(trace.format(office.name) for trace in TRACES), f"{file_of(office)}-wal"]
    beside = machine.at(f"{LIB}/office/{office.name}").glob("office.db.before-*")
    paths += [f"{LIB}/office/{office.name}/{path.name}" for path in beside]
    return next((path for path in paths if has_more(machine.at(path))), None)


def check_first(machine: Machine, office: Office) -> None:
    """Refuses to create FILE if an office of this name was in use."""
    if not machine.at(file_of(office)).exists() and (trace := trace_of(machine, office)):
        raise Refused(USAGE, f"there is no {file_of(office)}, but {trace} is there: an office {office.name} was in "
                      "use. Restore a copy of it by office-restore, or move away what it left")


def first_file(machine: Machine, office: Office) -> Thing:
    """Returns FILE, which is created only if no office of this name was in use."""
    def make() -> list[str]:
        check_first(machine, office)
        machine.must_as("office", program.find(), "init", machine.at(file_of(office)))
        return []
    return Deed(f"{file_of(office)}: there is no office yet", machine.at(file_of(office)).exists, make)


# ---- its parts


def settings(machine: Machine, office: Office) -> Thing:
    """Returns the settings of the gate: generated, or without [people] the city's own, which the gate must accept."""
    path, owner = f"{OFFICES}/{office.name}.access", Owner("root", "office-gate", 0o640)
    reload = (("systemctl", "try-reload-or-restart", f"office-gate@{office.name}.service"),)
    if office.people is not None:
        text = gate_settings.text_of(office, machine)
        return File(machine, path, lambda: text, owner, reload)

    def check() -> list[str]:
        machine.own(path, owner)
        done = machine.run("office-gate", "check", machine.at(path))
        if done.status:
            raise office.refuse("people", f"it is missing, and the gate does not take {path}: {done.text}")
        return []

    def is_right() -> bool:
        return (machine.at(path).is_file() and machine.owner_of(path) == owner
                and machine.run("office-gate", "check", machine.at(path)).status == 0)
    if not machine.at(path).is_file():
        raise office.refuse("people", f"it is missing, and there is no {path}")
    return Deed(f"{path}: the gate cannot read it, or does not take it", is_right, check)


def journals(machine: Machine, office: Office) -> list[Thing]:
    """Returns the journal of the gate, and the older files that logrotate made of it."""
    older = machine.at(JOURNALS).glob(f"{office.name}.journal-*")
    names = [f"{office.name}.journal", *sorted(path.name for path in older if re.search(r"-\d+$", path.name))]
    return [Log(machine, f"{JOURNALS}/{name}", JOURNAL_OWNER) for name in names]


def vault(machine: Machine, office: Office) -> Iterator[Thing]:
    """Returns the vault of an office and its second one, on a disk that may be another."""
    for place, owner in (("office-vaults", Owner("office-vault", "www-data", 0o2750)),
                         ("office-vault-backups", Owner("office", "office", 0o700))):
        path = f"{LIB}/{place}/{office.name}"

        def make(path: str = path, user: str = owner.user) -> list[str]:
            machine.must_as(user, "office-vault", "make", machine.at(path))
            return []
        yield Folder(machine, f"{LIB}/{place}")
        yield Folder(machine, path, owner)
        yield Deed(f"{path}: there is no vault", machine.at(f"{path}/objects").is_dir, make)


def mails(machine: Machine, office: Office) -> list[Thing]:
    if not office.morning and not office.failed:
        return []
    return [File(machine, f"{OFFICES}/{office.name}.mail", lambda: texts.mail(office))]


def units(machine: Machine, office: Office) -> list[Thing]:
    """Returns the units that must be on, and those that must be off."""
    name = office.name
    kinds = [(ALWAYS, True), (OF_VAULT, office.has_vault), (OF_SEALS, office.has_seals)]
    # its lists are a matter of people: one that is on without a line here stays on
    kinds += [(OF_YEAREND, True)] if office.has_yearend else []
    things: list[Thing] = [Unit(machine, unit.format(name), is_on) for group, is_on in kinds for unit in group]
    on = [unit.format(name) for group, is_on in kinds if is_on for unit in group]
    return [*things, parts(machine, ALL.format(name), on), Unit(machine, ALL.format(name))]


def parts(machine: Machine, target: str, on: Sequence[str]) -> Thing:
    """Returns what a target starts. A unit that an earlier version of the package enabled is none of its parts yet."""
    def missing() -> list[str]:
        started = machine.run("systemctl", "show", "-p", "Wants", target).text.partition("=")[2].split()
        others = [unit for unit in on if unit not in started]
        # one that somebody disabled is not enabled here: an upgrade leaves that to a person
        return [unit for unit in others if machine.run("systemctl", "is-enabled", unit).text == "enabled"]

    def do() -> list[str]:
        for unit in missing():
            machine.must("systemctl", "reenable", unit)
        return []
    return Deed(f"{target}: does not start each unit of the office", lambda: not missing(), do)


def things_of(machine: Machine, office: Office, offices: Sequence[Office]) -> Iterator[Thing]:
    """Returns the things of an office."""
    name = office.name
    services = [f"{unit}@{name}.service" for unit in ("office", "office-gate", "office-vault")]
    restart = tuple(("systemctl", "try-restart", service) for service in services)
    port = ports.all_of(machine, offices)[name]
    yield File(machine, f"{OFFICES}/{name}.conf", lambda: texts.conf(office, port), then=restart)
    yield Folder(machine, f"{LIB}/office")
    yield Folder(machine, f"{LIB}/office/{name}", Owner("office", "office", 0o700))
    yield first_file(machine, office)
    yield Folder(machine, f"{LIB}/office-catalogues")
    yield Folder(machine, f"{LIB}/office-catalogues/{name}", Owner("office", "www-data", 0o2750))
    # office-sign-in makes those of an office with [sign_in]
    if office.signing is None:
        yield settings(machine, office)
    yield keys.token(machine, office)
    yield Folder(machine, JOURNALS)
    yield from journals(machine, office)
    if office.has_vault:
        yield from vault(machine, office)
    if office.has_seals:
        yield from keys.seal_key(machine, office)
    yield from mails(machine, office)
    if office.title is not None:
        yield Folder(machine, NGINX)
        yield File(machine, f"{NGINX}/{name}.name.json", lambda: texts.name_and_colour(office))
    yield from units(machine, office)
