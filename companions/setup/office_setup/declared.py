"""Offices as /etc/office/NAME.toml declares them. The gate, not this module, judges names, roles and rules."""
import re
from dataclasses import dataclass
from pathlib import Path

from office_common import toml_table
from office_common.errors import USAGE, Refused
from office_common.facts import LIMITS
from office_common.toml_table import Table
from office_setup.people import LINE, WORD, Person, people_of
from office_setup.signing import TABLE, Signing, signing_of

NAME = re.compile("[a-z0-9][a-z0-9-]{0,31}")
NAME_RULE = "small letters, digits and hyphens, 32 at most, as city"
HOST = re.compile(r"[A-Za-z0-9]([A-Za-z0-9.-]{0,251}[A-Za-z0-9])?")
PATH = re.compile(r"/[A-Za-z0-9._/@+-]+")
MAIL = re.compile(r"[A-Za-z0-9._%+=-]+@[A-Za-z0-9.-]+")
COLOUR = re.compile("#[0-9A-Fa-f]{6}")
DISK = re.compile("any|powersafe")
MOST_DAYS, MOST_BYTES = 36_500, 1 << 50

NUMBERS: tuple[tuple[str, str, str, int, int, int | None], ...] = (
    ("service", "confirm-days", "CONFIRM_DAYS", 0, LIMITS["confirm-days"], 30),
    ("service", "stop-seconds", "STOP_SECONDS", 1, 600, 60),
    ("service", "pause-seconds", "OFFICE_PAUSE", 1, 3600, 60),
    ("service", "vault-reserve", "VAULT_RESERVE", 0, MOST_BYTES, None),
    ("service", "vault-at-once", "VAULT_AT_ONCE", 1, 1000, None),
    ("service", "vault-unnamed", "VAULT_UNNAMED", 0, MOST_BYTES, None),
    ("backup", "days", "BACKUP_DAYS", 1, MOST_DAYS, 30),
    ("backup", "copies", "BACKUP_COPIES", 1, 1000, 7),
    ("backup", "before-days", "BEFORE_DAYS", 1, MOST_DAYS, 30),
    ("backup", "encrypted-days", "ENCRYPTED_DAYS", 1, MOST_DAYS, None),
)
"""settings that are numbers: table, key, line of NAME.conf, bounds, default (None writes no line)"""
LIMIT_STATEMENTS = {"requests": "limit requests", "lists": "limit lists", "journal-bytes": "limit journal-bytes",
                    "contents-days": "keep contents", "free-megabytes": "keep free"}
"""the keys of [limits], each with the statement of the gate's settings that it changes"""


@dataclass(frozen=True)
class Tls:
    """The site of the machine, its certificate and key if there are some, and whether it answers other names."""

    site: str
    certificate: str | None
    key: str | None
    is_default_server: bool


@dataclass(frozen=True)
class Office:
    """An office of the machine, as its file declares it."""

    name: str
    file: Path
    tls: Tls
    zone: str
    title: str | None
    colour: str
    conf: tuple[tuple[str, str], ...]
    people: tuple[Person, ...] | None
    signing: Signing | None
    rules: tuple[tuple[str, str | None], ...]
    limits: tuple[tuple[str, str], ...]
    settings: tuple[str, ...]
    has_vault: bool
    has_seals: bool
    has_yearend: bool
    copies_go_elsewhere: bool
    morning: tuple[str, ...]
    failed: tuple[str, ...]

    @property
    def has_own_settings(self) -> bool:
        """Whether the city writes the settings of the gate by itself."""
        return self.people is None and self.signing is None

    def named(self) -> dict[str, Person]:
        """Returns the names that have a line in the settings of the gate, by the keys of the file."""
        people = {f"people.{person.name}": person for person in self.people or ()}
        return people | (self.signing.named() if self.signing else {})

    def refuse(self, key: str, text: str) -> Refused:
        """Returns the end of the command over a key of the file."""
        return Refused(USAGE, f"{self.file}: {key}: {text}")


def tls_of(table: Table) -> Tls:
    site = table.needed("site", HOST, "the name of this machine in a browser, as records.city.example")
    certificate = table.text("certificate", PATH, "the path of a file")
    key = table.text("key", PATH, "the path of a file")
    if (certificate is None) != (key is None):
        missing = "key" if key is None else "certificate"
        table.refuse(missing, "it is missing: a certificate and its key belong together")
    return Tls(site, certificate, key, table.flag("default-server", True))


def rule_of(rules: Table, name: str) -> str | None:
    """Reads a rule: None if it is switched off, or the text that follows its name in the settings."""
    value = rules.value(name)
    if not WORD.fullmatch(name):
        rules.refuse(name, "this is no name of a rule")
    if isinstance(value, bool):
        return "" if value else None
    if isinstance(value, int):
        return str(value)
    return " ".join(rules.texts(name, WORD, "true, false, a number of days, or a list of acts"))


def rules_of(table: Table) -> tuple[tuple[str, str | None], ...]:
    rules = table.table("rules")
    return () if rules is None else tuple((name, rule_of(rules, name)) for name in rules.values)


def limits_of(table: Table) -> tuple[tuple[str, str], ...]:
    """Reads the limits of the gate, as pairs of a key and a value."""
    limits = table.table("limits")
    if limits is None:
        return ()
    numbers = ((key, limits.number(key, 0, MOST_BYTES)) for key in LIMIT_STATEMENTS)
    own = [(key, str(number)) for key, number in numbers if number is not None]
    if limits.value("readings") is not None:
        own.append(("readings", "readings" if limits.flag("readings", True) else "acts"))
    limits.end()
    return tuple(own)


def conf_of(service: Table, backup: Table) -> tuple[tuple[str, str], ...]:
    """Reads the lines of NAME.conf but for the port."""
    lines = [("OFFICE_DISK", service.text("disk", DISK, "any or powersafe") or "any")]
    for place, key, line, least, most, default in NUMBERS:
        number = (service if place == "service" else backup).number(key, least, most)
        if number is not None or default is not None:
            lines.append((line, str(default if number is None else number)))
    return tuple(lines)


def addresses_of(table: Table) -> tuple[tuple[str, ...], tuple[str, ...]]:
    mail = table.table("mail") or Table(table.file, {}, "mail.")
    lists = tuple(mail.texts(key, MAIL, "an address, or a list of addresses") for key in ("morning", "failed"))
    mail.end()
    return lists[0], lists[1]


def office_of(name: str, table: Table) -> Office:
    """Reads the office of a file."""
    service = table.table("service") or Table(table.file, {}, "service.")
    backup = table.table("backup") or Table(table.file, {}, "backup.")
    morning, failed = addresses_of(table)
    tls, zone = tls_of(table), table.needed("zone", LINE, "a time zone, as Europe/Berlin")
    office = Office(
        name, table.file, tls, zone, table.text("title", LINE, "a text of one line"),
        table.text("colour", COLOUR, "a colour of six digits, as #1f4d7a") or "#1f4d7a",
        conf_of(service, backup), people_of(table), signing_of(table, zone), rules_of(table), limits_of(table),
        table.texts("settings", LINE, "a line of the gate's settings"), table.flag("vault", True),
        table.flag("seals", True), table.flag("yearend", False), backup.flag("elsewhere", False), morning, failed)
    for part in (service, backup, table):
        part.end()
    if office.has_own_settings and (office.rules or office.limits or office.settings):
        raise office.refuse("people", "it is missing: without it the office has settings of its own, which rules, "
                            "limits and settings do not change")
    if office.people is not None and office.signing is not None:
        raise office.refuse("people", f"people sign in by [{TABLE}], which gives roles to groups and to names of this "
                            "machine: leave [people] out")
    return office


def read(file: Path) -> Office:
    """Reads the file of an office. Refused names the key that is wrong."""
    if not NAME.fullmatch(file.stem):
        raise Refused(USAGE, f"{file}: the name of an office has {NAME_RULE}")
    return office_of(file.stem, toml_table.read(file))


def all_in(folder: Path) -> list[Office]:
    """Reads the offices of the machine."""
    return together([read(file) for file in sorted(folder.glob("*.toml"))])


def together(offices: list[Office]) -> list[Office]:
    """Checks that the offices of a machine agree on its site and on how people sign in, and returns them."""
    for office in offices[1:]:
        first = offices[0]
        for key in ("site", "certificate", "key"):
            own, other = getattr(office.tls, key), getattr(first.tls, key)
            if own != other:
                raise office.refuse(key, f"{own or 'nothing'} is not what {first.file} has, {other or 'nothing'}: the "
                                    "offices of a machine have one site")
        if office.tls.is_default_server != first.tls.is_default_server:
            raise office.refuse("default-server", f"it is not what {first.file} has: the offices of a machine have "
                                "one site")
        check_signing(office, first)
    return offices


def check_signing(office: Office, first: Office) -> None:
    """Refuses two ways to sign in at one site."""
    if office.signing is None or first.signing is None:
        if office.signing is not first.signing:
            raise office.refuse(TABLE, f"{first.file} has {'no' if first.signing is None else 'such a'} table: the "
                                "offices of a machine have one site")
        return
    for key in {**first.signing.shared, **office.signing.shared}:
        if office.signing.shared.get(key) != first.signing.shared.get(key):
            raise office.refuse(f"{TABLE}.{key}", f"it is not what {first.file} has: the offices of a machine have one "
                                "sign-in")
