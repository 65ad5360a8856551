"""The settings of office-sign-in, /etc/office/sign-in.toml. An error names the file and the key."""
import datetime
import re
import urllib.parse
from collections.abc import Mapping
from dataclasses import dataclass
from pathlib import Path
from typing import NamedTuple
from zoneinfo import ZoneInfo, ZoneInfoNotFoundError

from office_common import toml_table
from office_common.client import is_loopback
from office_common.errors import USAGE, Refused
from office_common.toml_table import Table, shown

SITE = re.compile(r"https://[A-Za-z0-9.\[\]:-]+", re.ASCII)
OFFICE = re.compile("[a-z0-9][a-z0-9-]{0,31}")
LOCAL = re.compile(r"[A-Za-z0-9._-]{1,64}", re.ASCII)
"""a name of this site: it has no @, so no name of a directory is one"""
REALM = re.compile("[a-z][a-z0-9-]{0,15}", re.ASCII)
PATH = re.compile(r"/[A-Za-z0-9._/@+-]+")
TIME = re.compile("([01][0-9]|2[0-3]):[0-5][0-9]", re.ASCII)
WORD = re.compile(r"[A-Za-z0-9._:-]+", re.ASCII)
LINE = re.compile(r"[^\x00-\x1f\x7f]+")
ROLE = re.compile(r"[a-z0-9-]{1,32}", re.ASCII)
CLASS = re.compile(r"[A-Za-z0-9-]+\*?|\*", re.ASCII)
DIGEST = re.compile("[0-9a-f]{64}", re.ASCII)
HASH = re.compile(r"scrypt:[0-9]{1,2}:[0-9]{1,3}:[0-9]{1,3}:[0-9a-f]{32}:[0-9a-f]{64}", re.ASCII)
MAIL = re.compile(r"[A-Za-z0-9][A-Za-z0-9._%+=-]*@[A-Za-z0-9.-]+", re.ASCII)
DIRECTORY, PROVIDER = "directory", "provider"


class Grant(NamedTuple):
    """Roles of a group at the gate of an office, in these classes or, without any, everywhere."""

    roles: tuple[str, ...]
    classes: tuple[str, ...]

    def text(self) -> str:
        """Returns the grant as the settings of a gate have it."""
        return " ".join(self.roles) + (f" in {' '.join(self.classes)}" if self.classes else "")


class Program(NamedTuple):
    """A program that signs in by a token: the SHA-256 of the token, and its last day."""

    name: str
    digest: str
    ends: datetime.date


@dataclass(frozen=True)
class Directory:
    """An LDAP directory: where it is, as whom it is asked, and what its entries are called."""

    url: str
    has_start_tls: bool
    authority: Path | None
    reader: str | None
    reader_password: Path | None
    people: str
    person: str
    id: str
    name: str
    signs: str
    groups: str
    group: str
    group_name: str


@dataclass(frozen=True)
class Provider:
    """An OpenID Connect provider: who it is, as whom it knows this site, and what its claims are called."""

    issuer: str
    client: str
    secret: Path
    authority: Path | None
    scope: str
    id: str
    name: str
    groups: str


@dataclass(frozen=True)
class Times:
    """When a session ends, and how often groups are asked again."""

    zone: ZoneInfo
    day_ends: datetime.time
    most_seconds: int
    idle_seconds: int
    again_seconds: int


@dataclass(frozen=True)
class Settings:
    """All settings of a site."""

    file: Path
    site: str
    realm: str
    times: Times
    directory: Directory | None
    provider: Provider | None
    roles: Mapping[str, Mapping[str, Grant]]
    local: Mapping[str, str]
    programs: Mapping[str, Program]
    mail: tuple[str, ...]

    def grants_of(self, office: str, groups: tuple[str, ...]) -> tuple[Grant, ...]:
        """Returns the roles that groups have in an office, in the order of the settings."""
        return tuple(grant for group, grant in self.roles[office].items() if group in groups)


def path_of(table: Table, key: str) -> Path | None:
    text = table.text(key, PATH, "the path of a file")
    return None if text is None else Path(text)


def url_of(table: Table, key: str, schemes: tuple[str, ...]) -> urllib.parse.SplitResult:
    """Reads the address of a server: one of these schemes, and nothing but a host, a port and a path."""
    text = table.needed(key, LINE, f"an address such as {schemes[0]}://HOST")
    try:
        url = urllib.parse.urlsplit(text)
        is_right = url.scheme in schemes and bool(url.hostname) and "@" not in url.netloc and not url.query \
            and not url.fragment and (url.port is None or url.port > 0)
    except ValueError:
        is_right = False
    if not is_right:
        table.refuse(key, f"{shown(text)} is no address such as {schemes[0]}://HOST")
    return url


def directory_of(table: Table) -> Directory:
    """Reads the directory. Passwords go to it, so it has TLS unless it is this machine."""
    url, has_start_tls = url_of(table, "url", ("ldaps", "ldap")), table.flag("start-tls", False)
    if url.scheme == "ldap" and not has_start_tls and not is_loopback(url.hostname or ""):
        table.refuse("url", "everybody on the way would read the passwords: write ldaps, or start-tls = true")
    if url.scheme == "ldaps" and has_start_tls:
        table.refuse("start-tls", "ldaps has TLS from its beginning: leave this out")
    reader, password = table.text("reader", LINE, "the DN of an entry"), path_of(table, "reader-password")
    if (reader is None) != (password is None):
        table.refuse("reader", "a reader and the file of its password belong together")
    found = Directory(
        url.geturl(), has_start_tls, path_of(table, "authority"), reader, password,
        table.needed("people", LINE, "the DN below which people are"),
        filter_of(table, "person", "(uid={})"), table.text("id", WORD, "an attribute") or "entryUUID",
        table.text("name", WORD, "an attribute") or "uid", table.text("signs", WORD, "an attribute") or "uid",
        table.needed("groups", LINE, "the DN below which groups are"),
        filter_of(table, "group", "(member={})"), table.text("group-name", WORD, "an attribute") or "cn")
    table.end()
    return found


def filter_of(table: Table, key: str, default: str) -> str:
    """Reads a filter with one {} in it, for a name or a DN."""
    text = table.text(key, LINE, "a filter") or default
    if text.count("{}") != 1 or text.replace("{}", "").count("{") or not (text.startswith("(") and text.endswith(")")):
        table.refuse(key, f"{shown(text)} is no filter with one {{}} in it, as {default}")
    return text


def provider_of(table: Table) -> Provider:
    """Reads the provider. A code is worth a session, so it has TLS unless it is this machine."""
    url = url_of(table, "issuer", ("https", "http"))
    if url.scheme == "http" and not is_loopback(url.hostname or ""):
        table.refuse("issuer", "a provider has https")
    secret = path_of(table, "secret")
    if secret is None:
        table.refuse("secret", "it is missing: write the path of a file with the secret of this client")
    found = Provider(
        table.needed("issuer", LINE, "an address"), table.needed("client", LINE, "the name of this client"), secret,
        path_of(table, "authority"), table.text("scope", LINE, "scopes") or "openid profile",
        table.text("id", WORD, "a claim") or "sub", table.text("name", WORD, "a claim") or "preferred_username",
        table.text("groups", WORD, "a claim") or "groups")
    table.end()
    return found


def grant_of(groups: Table, name: str) -> Grant:
    """Reads the roles of a group: a role, a list of roles, or a table with `is` and `in`."""
    value = groups.value(name)
    table = Table(groups.file, value if isinstance(value, dict) else {"is": value}, f"{groups.prefix}{name}.")
    grant = Grant(table.texts("is", ROLE, "a role, or a list of roles"), table.texts("in", CLASS, "the code of a class"))
    if not grant.roles:
        table.refuse("is", "it is missing: write a role, or a list of roles")
    table.end()
    return grant


def roles_of(table: Table) -> dict[str, dict[str, Grant]]:
    """Reads [roles.OFFICE]: the roles of each group in each office."""
    roles = table.table("roles") or Table(table.file, {}, "roles.")
    found: dict[str, dict[str, Grant]] = {}
    for office in roles.values:
        groups = roles.table(office)
        if groups is None or not OFFICE.fullmatch(office):
            roles.refuse(office, "this is no name of an office")
        found[office] = {name: grant_of(groups, name) for name in groups.values}
    return found


def local_of(table: Table) -> dict[str, str]:
    """Reads [local]: the names for the day on which the directory is away, each with the hash of its password."""
    local = table.table("local") or Table(table.file, {}, "local.")
    for name in local.values:
        if not LOCAL.fullmatch(name):
            local.refuse(name, "a name of this site has letters, digits and . _ -, and no @")
    return {name: local.needed(name, HASH, "what `office-sign-in password` prints") for name in local.values}


def programs_of(table: Table) -> dict[str, Program]:
    """Reads [programs]: the names of programs, each with the SHA-256 of its token and the token's last day."""
    programs = table.table("programs") or Table(table.file, {}, "programs.")
    found: dict[str, Program] = {}
    for name in programs.values:
        one = programs.table(name)
        if one is None or not LOCAL.fullmatch(name):
            programs.refuse(name, "the name of a program has letters, digits and . _ -, and no @")
        digest = one.needed("token", DIGEST, "the SHA-256 that `office-sign-in token` prints")
        ends = one.value("ends")
        if not isinstance(ends, datetime.date) or isinstance(ends, datetime.datetime):
            one.refuse("ends", "it is no day such as 2027-01-31, the last one of the token")
        one.end()
        found[name] = Program(name, digest, ends)
    return found


def times_of(table: Table) -> Times:
    """Reads when sessions end, by the clock and the zone of the offices."""
    zone = table.needed("zone", LINE, "a time zone, as Europe/Berlin")
    try:
        place = ZoneInfo(zone)
    except (ZoneInfoNotFoundError, ValueError, OSError):
        table.refuse("zone", f"{shown(zone)} is no time zone such as Europe/Berlin")
    day_ends = table.text("day-ends", TIME, "a time of day, as \"20:00\"") or "20:00"
    hours, idle = table.number("hours", 1, 24) or 10, table.number("idle-minutes", 1, 1440) or 60
    again = table.number("groups-again-minutes", 1, 1440) or 15
    return Times(place, datetime.time.fromisoformat(day_ends), hours * 3600, idle * 60, again * 60)


def settings_of(table: Table) -> Settings:
    """Reads all settings."""
    directory, provider = table.table(DIRECTORY), table.table(PROVIDER)
    settings = Settings(
        table.file, table.needed("site", SITE, "the address of the site, as https://records.city.example"),
        table.text("realm", REALM, "a short name in small letters") or DIRECTORY, times_of(table),
        directory_of(directory) if directory else None, provider_of(provider) if provider else None, roles_of(table),
        local_of(table), programs_of(table), table.texts("mail", MAIL, "an address, or a list of addresses"))
    table.end()
    if directory and provider:
        table.refuse(PROVIDER, "people sign in by the directory or by a provider, not by both")
    for name in settings.local.keys() & settings.programs.keys():
        table.refuse(f"programs.{name}", "a person has this name in [local]")
    if settings.local and not settings.mail:
        table.refuse("mail", "it is missing: somebody has to learn that a local name was used")
    return settings


def read(file: Path) -> Settings:
    """Reads a file of settings. Refused names the key that is wrong."""
    return settings_of(toml_table.read(file))


def secret_in(path: Path) -> str:
    """Reads a password from its file."""
    try:
        text = path.read_text(encoding="utf-8").rstrip("\r\n")
    except (OSError, UnicodeDecodeError) as error:
        raise Refused(USAGE, f"{path} is not read: {error}") from error
    if not text:
        raise Refused(USAGE, f"{path} is empty")
    return text
