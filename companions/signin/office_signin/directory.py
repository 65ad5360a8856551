"""An LDAP directory, as OpenLDAP or Active Directory: whose password it is, and in which groups somebody is."""
import importlib
import re
import ssl
import uuid
from typing import Any, NamedTuple

from office_common.errors import USAGE, Refused

from office_signin.settings import Directory, secret_in

SECONDS = 5
MOST_GROUPS = 1_000
LONGEST_NAME, LONGEST_PASSWORD = 256, 1_024
ID = re.compile("[A-Za-z0-9._-]{1,47}", re.ASCII)
"""a stable id: with @ and a realm it is a name at the gate"""
SUCCESS, WRONG_PASSWORD = 0, 49
SIZE_EXCEEDED = 4


class Away(Exception):
    """The directory gives no answer, or one that decides nothing."""


class Known(NamedTuple):
    """Somebody whom the directory knows: the stable id, the name as the directory spells it, and the groups."""

    id: str
    name: str
    signs: str
    groups: tuple[str, ...]


class Entry(NamedTuple):
    """An entry of a person."""

    dn: str
    id: str
    name: str
    signs: str


def library(name: str, package: str) -> Any:
    """Returns a library of Debian that only some settings need."""
    try:
        return importlib.import_module(name)
    except ModuleNotFoundError as error:
        raise Refused(USAGE, f"there is no {error.name}: apt-get install {package}") from error


def text_in(entry: Any, attribute: str) -> str:
    """Returns the one value of an attribute. Active Directory's objectGUID is bytes, and shown as its tools show it."""
    values = {key.lower(): value for key, value in entry["raw_attributes"].items()}.get(attribute.lower(), [])
    if len(values) != 1:
        raise Away(f"an entry has {len(values)} values of {attribute}, and not one")
    if attribute.lower() == "objectguid":
        return str(uuid.UUID(bytes_le=bytes(values[0])))
    try:
        return bytes(values[0]).decode()
    except UnicodeDecodeError as error:
        raise Away(f"{attribute} of an entry is no text") from error


class Ldap:
    """The directory of the settings. Each question has a connection of its own, and ends within seconds."""

    def __init__(self, settings: Directory) -> None:
        self.settings = settings
        self.ldap = library("ldap3", "python3-ldap3")
        self.escape = library("ldap3.utils.conv", "python3-ldap3").escape_filter_chars
        self.errors = library("ldap3.core.exceptions", "python3-ldap3").LDAPException
        authority = settings.authority
        self.tls = self.ldap.Tls(validate=ssl.CERT_REQUIRED, ca_certs_file=str(authority) if authority else None,
                                 version=ssl.PROTOCOL_TLS_CLIENT)
        if not authority:
            self.tls.ca_certs_path = ssl.get_default_verify_paths().capath

    def server(self) -> Any:
        """Returns the server anew: one that was not reached once is not tried again for minutes."""
        return self.ldap.Server(self.settings.url, tls=self.tls, connect_timeout=SECONDS, get_info=self.ldap.NONE)

    def bound(self, dn: str | None, password: str | None) -> Any:
        """Returns a connection as this entry, or None if the password is not its own. It follows no referral, since a
        password would go along."""
        link = self.ldap.Connection(self.server(), dn, password, receive_timeout=SECONDS, auto_referrals=False,
                                    raise_exceptions=False, check_names=False)
        try:
            link.open()
            if self.settings.has_start_tls and not link.start_tls():
                raise Away(f"the directory does not begin TLS: {link.result['description']}")
            if not link.bind():
                code, description = link.result["result"], link.result["description"]
                link.unbind()
                if code == WRONG_PASSWORD:
                    return None
                raise Away(f"the directory does not take {dn}: {description}")
        except (self.errors, OSError) as error:
            raise Away(f"{type(error).__name__}: {error}") from error
        return link

    def reading(self) -> Any:
        """Returns a connection as the reader of the settings, or as nobody."""
        reader, password = self.settings.reader, self.settings.reader_password
        link = self.bound(reader, secret_in(password) if password else None)
        if link is None:
            raise Away(f"the directory does not take the password of {reader}")
        return link

    def search(self, link: Any, base: str, query: str, attributes: list[str], most: int) -> list[Any]:
        """Returns the entries of a question, no more than so many."""
        try:
            link.search(base, query, self.ldap.SUBTREE, attributes=attributes, size_limit=most, time_limit=SECONDS)
        except (self.errors, OSError) as error:
            raise Away(f"{type(error).__name__}: {error}") from error
        if link.result["result"] not in (SUCCESS, SIZE_EXCEEDED):
            raise Away(f"the directory does not answer {query}: {link.result['description']}")
        entries = [entry for entry in link.response or [] if entry.get("type") == "searchResEntry"]
        if link.result["result"] == SIZE_EXCEEDED and most > 2:
            raise Away(f"there are more than {most} entries of {query}")
        return entries

    def person(self, link: Any, query: str) -> Entry | None:
        """Returns the one person of a question, or None if there is none, or more than one."""
        names = [self.settings.id, self.settings.name, self.settings.signs]
        found = self.search(link, self.settings.people, query, names, 2)
        if len(found) != 1:
            return None
        id_, name, signs = (text_in(found[0], attribute) for attribute in names)
        if not ID.fullmatch(id_):
            raise Away(f"'{id_}' in {self.settings.id} is no stable id: letters, digits and . _ -, 47 at most")
        return Entry(str(found[0]["dn"]), id_, name, signs)

    def groups(self, link: Any, dn: str) -> tuple[str, ...]:
        """Returns the names of the groups that an entry is in."""
        query = self.settings.group.replace("{}", self.escape(dn))
        found = self.search(link, self.settings.groups, query, [self.settings.group_name], MOST_GROUPS)
        return tuple(sorted({text_in(entry, self.settings.group_name) for entry in found}))

    def sign_in(self, name: str, password: str) -> Known | None:
        """Returns whom the directory knows by a name and a password. An empty password would be nobody's sign-in, which
        directories take."""
        if not 0 < len(name) <= LONGEST_NAME or not 0 < len(password) <= LONGEST_PASSWORD or "\0" in name + password:
            return None
        link = self.reading()
        try:
            entry = self.person(link, self.settings.person.replace("{}", self.escape(name)))
            if entry is None:
                return None
            own = self.bound(entry.dn, password)
            if own is None:
                return None
            own.unbind()
            return Known(entry.id, entry.name, entry.signs, self.groups(link, entry.dn))
        finally:
            link.unbind()

    def again(self, name: str, id_: str) -> Known | None:
        """Returns what the directory says now of somebody who signed in, or None if that person is no longer there."""
        link = self.reading()
        try:
            entry = self.person(link, self.settings.person.replace("{}", self.escape(name)))
            if entry is None or entry.id != id_:
                return None
            return Known(entry.id, entry.name, entry.signs, self.groups(link, entry.dn))
        finally:
            link.unbind()
