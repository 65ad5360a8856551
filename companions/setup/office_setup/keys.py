"""Secrets, each generated once: tokens of the gates, keys of the seals, the key of the site, and passwords."""
import os
import secrets
from collections.abc import Callable, Sequence
from pathlib import Path

from office_common import files
from office_common.errors import IMPOSSIBLE, Refused
from office_setup.declared import Office
from office_setup.machine import NGINX, OFFICES, ROOT_OWNED, Machine, Owner
from office_setup.things import Deed, Once, Thing

PASSWORDS, MONITOR_PASSWORDS = f"{NGINX}/office.htpasswd", f"{NGINX}/monitor.htpasswd"
PASSWORDS_OWNER = Owner("root", "www-data", 0o640)
MONITOR = "monitor"
CERTIFICATE, KEY = f"{NGINX}/office.crt", f"{NGINX}/office.key"
CERTIFICATE_DAYS = "365"
Show = Callable[[str, str], None]
"""shows a name and its first password to whoever runs the command"""


def token(machine: Machine, office: Office) -> Thing:
    """Returns the token that authenticates nginx to the gate."""
    restart = (("systemctl", "try-restart", f"office-gate@{office.name}.service"),)
    return Once(machine, f"{OFFICES}/{office.name}.token", lambda: secrets.token_hex(32) + "\n",
                Owner("root", "office-gate", 0o640), restart)


# ---- seals


def seal_key(machine: Machine, office: Office) -> list[Thing]:
    """Returns the key that signs certificates, and its line in the list of signers."""
    key, public = f"{OFFICES}/{office.name}.key", f"{OFFICES}/{office.name}.key.pub"
    signers = machine.at(f"{OFFICES}/{office.name}.signers")

    def make() -> list[str]:
        if machine.at(f"/var/lib/office-seals/{office.name}/000001").exists():
            raise Refused(IMPOSSIBLE, f"there is no {key}, but there are seals: the key is lost. EVIDENCE.md says under "
                          "\"Keys\" how to go on with another one")
        machine.must("ssh-keygen", "-q", "-t", "ed25519", "-N", "", "-C", f"office {office.name}, first key", "-f",
                     machine.at(key))
        machine.own(public, ROOT_OWNED)
        fingerprint = machine.must("ssh-keygen", "-l", "-f", machine.at(public))
        return [f"{key}: give its fingerprint to the auditor: {fingerprint}"]

    def line() -> str:
        kind, text = machine.at(public).read_text(encoding="utf-8").split()[:2]
        return f'{office.name} namespaces="office-seal" {kind} {text}\n'

    def has_line() -> bool:
        return machine.at(public).is_file() and signers.is_file() and line() in signers.read_text(encoding="utf-8")

    def add_line() -> list[str]:
        text = signers.read_text(encoding="utf-8") if signers.is_file() else ""
        files.write(signers, (text + line()).encode(), 0o644, (0, 0))
        return []
    return [Deed(f"{key}: there is no key for the seals", machine.at(key).is_file, make),
            Deed(f"{OFFICES}/{office.name}.signers: the line of {public} is missing", has_line, add_line)]


# ---- the site


def site_key(machine: Machine, site: str) -> Thing:
    """Returns a self-signed certificate of the site, with its key."""
    def is_there() -> bool:
        return machine.at(CERTIFICATE).is_file() and machine.at(KEY).is_file()

    def make() -> list[str]:
        for path in (CERTIFICATE, KEY):
            if os.path.lexists(machine.at(path)):
                machine.at(path).rename(machine.at(f"{path}.before-setup"))
        machine.must("openssl", "req", "-x509", "-newkey", "ec", "-pkeyopt", "ec_paramgen_curve:P-256", "-nodes",
                     "-days", CERTIFICATE_DAYS, "-subj", f"/CN={site}", "-addext", f"subjectAltName=DNS:{site}",
                     "-keyout", machine.at(KEY), "-out", machine.at(CERTIFICATE))
        machine.own(KEY, Owner("root", "root", 0o600))
        machine.own(CERTIFICATE, Owner("root", "root", 0o644))
        return []
    return Deed(f"{CERTIFICATE}: there is no certificate with a key", is_there, make).for_nginx()


# ---- passwords


def lines_of(file: Path) -> list[str]:
    return file.read_text(encoding="utf-8").splitlines() if file.is_file() else []


def names_in(file: Path) -> list[str]:
    """Returns the names that have a password."""
    return [line.partition(":")[0] for line in lines_of(file) if ":" in line]


def write_lines(machine: Machine, path: str, lines: Sequence[str]) -> None:
    text = "".join(f"{line}\n" for line in lines)
    files.write(machine.at(path), text.encode(), PASSWORDS_OWNER.mode, machine.ids(PASSWORDS_OWNER))


def set_password(machine: Machine, path: str, name: str) -> str:
    """Gives a name a new password, and returns that."""
    password = secrets.token_urlsafe(16)
    others = [line for line in lines_of(machine.at(path)) if line.partition(":")[0] != name]
    digest = machine.must("openssl", "passwd", "-6", "-stdin", text=password + "\n")
    write_lines(machine, path, [*others, f"{name}:{digest}"])
    return password


def people_in(offices: Sequence[Office]) -> list[str]:
    """Returns the names of all people of these offices."""
    names = {person.name for office in offices for person in office.people or ()}
    return sorted(names - {"*"})


def are_all_named(offices: Sequence[Office]) -> bool:
    """Returns whether all who may sign in are declared: each office lists its people, without `*`."""
    names = [person.name for office in offices for person in office.people or ()]
    return "*" not in names and all(office.people is not None for office in offices)


def passwords(machine: Machine, offices: Sequence[Office], show: Show) -> list[Thing]:
    """Returns the passwords of all declared names, and the removal of those that are no longer declared."""
    def first(path: str, name: str) -> Thing:
        def give() -> list[str]:
            show(name, set_password(machine, path, name))
            return []
        # a log of the upgrade is no place for a password
        return Deed(f"{path}: {name} has no password", lambda: name in names_in(machine.at(path)), give, waits=True)

    def gone(name: str) -> Thing:
        def take() -> list[str]:
            lines = [line for line in lines_of(machine.at(PASSWORDS)) if line.partition(":")[0] != name]
            write_lines(machine, PASSWORDS, lines)
            return []
        return Deed(f"{PASSWORDS}: {name} has a password, and is named by no office",
                    lambda: name not in names_in(machine.at(PASSWORDS)), take)
    people = people_in(offices)
    things = [first(PASSWORDS, name) for name in people] + [first(MONITOR_PASSWORDS, MONITOR)]
    if are_all_named(offices):
        things += [gone(name) for name in names_in(machine.at(PASSWORDS)) if name not in people]
    # the files themselves, whose modes may differ
    return things + [Once(machine, path, str, PASSWORDS_OWNER) for path in (PASSWORDS, MONITOR_PASSWORDS)]
