"""Health checks: HTTPS as clients use it, copies, the certificate, the clock, journals and seals."""
import datetime
import http.client
import os
import re
import shutil
import socket
import ssl
import tempfile
import time
from collections.abc import Iterator
from pathlib import Path
from typing import NamedTuple

from office_common.client import Client, Reply
from office_common.errors import Away, NoAnswer
from office_common.files import copies_in
from office_setup import append_only, keys, ports, sign_in
from office_setup.declared import Office
from office_setup.machine import Machine
from office_setup.office_things import JOURNALS, LIB, file_of

HTTPS = 443
SECONDS = 20
COPY_HOURS = 26
CERTIFICATE_DAYS = 30
SEAL_HOURS = 24
BLOCK = 65_536
ROOM = 3
"""so many times FILE should be free on its disk"""
SIGN_IN = "office-sign-in: "
"""how a message of it begins"""
NUMBER = re.compile(r"certificate-(\d+)\.txt")


class Finding(NamedTuple):
    """A result of a check, and its description."""

    is_well: bool
    text: str


class Look(NamedTuple):
    """A check with what it found, about an office or, without one, about the machine."""

    check: str
    office: str
    finding: Finding

    def text(self) -> str:
        return f"{self.office}: {self.finding.text}" if self.office else self.finding.text


class Here(http.client.HTTPSConnection):
    """A connection to the site at this machine itself, whatever its name leads to."""

    def __init__(self, site: str, port: int, context: ssl.SSLContext) -> None:
        super().__init__(site, port, timeout=SECONDS, context=context)
        self.own_context = context

    def connect(self) -> None:
        plain = socket.create_connection(("127.0.0.1", self.port), SECONDS)
        self.sock = self.own_context.wrap_socket(plain, server_hostname=self.host)


class Site(Client):
    """A client of the site behind nginx, which trusts the certificate that nginx has."""

    def __init__(self, site: str, certificate: Path, port: int) -> None:
        super().__init__(f"https://{site}", SECONDS)
        self.context = ssl.create_default_context()
        self.context.load_verify_locations(certificate)
        self.https = port

    def connection(self) -> http.client.HTTPConnection:
        link = Here(self.host, self.https, self.context)
        try:
            link.connect()
        except OSError as error:
            raise Away(str(error)) from error
        return link


def asked(machine: Machine, office: Office, port: int, path: str) -> Reply:
    """Asks the site of an office for a path, as nobody."""
    return Site(office.tls.site, machine.at(keys.CERTIFICATE), port).ask("GET", path)


# ---- the office


def https(machine: Machine, office: Office, port: int) -> Finding:
    """Requests a record without a password, which must be refused."""
    try:
        status = asked(machine, office, port, f"/{office.name}/records/1").status
    except (NoAnswer, OSError) as error:
        return Finding(False, f"HTTPS does not answer: {error}")
    return Finding(status == 401, f"HTTPS answers {status} to a request without a name")


def closed_port(machine: Machine, office: Office) -> Finding:
    """Connects to the port of the office as root, which the rules of nftables must refuse."""
    port = ports.taken(machine).get(office.name)
    if port is None:
        return Finding(False, "it has no port")
    try:
        socket.create_connection(("127.0.0.1", port), 3).close()
    except OSError:
        return Finding(True, f"nobody but the gate reaches the port {port}")
    return Finding(False, f"root reaches the port {port}: the rules of nftables are not loaded")


def age_of(copy: Path) -> float:
    """Returns the seconds since the moment in the name of a copy."""
    moment = datetime.datetime.strptime(copy.name[:16], "%Y%m%dT%H%M%SZ").replace(tzinfo=datetime.timezone.utc)
    return (datetime.datetime.now(datetime.timezone.utc) - moment).total_seconds()


def copies(machine: Machine, office: Office) -> Iterator[Finding]:
    """Checks the age of the newest copy, and whether it is on another disk than FILE."""
    folder = machine.at(f"{LIB}/office-backups/{office.name}")
    newest = copies_in(folder)[-1:] if folder.is_dir() else []
    if not newest:
        yield Finding(False, "there is no copy")
        return
    hours = age_of(newest[0]) / 3600
    yield Finding(0 <= hours < COPY_HOURS, f"the newest copy is {hours:.0f} hours old")
    file = machine.at(file_of(office))
    is_apart = file.is_file() and file.stat().st_dev != newest[0].stat().st_dev
    if not office.copies_go_elsewhere:
        yield Finding(is_apart, "copies are on another disk than the office" if is_apart else
                      "copies are on the disk of the office: put them on another one, or on another machine "
                      "(`elsewhere = true` under [backup] says that this is done)")


def appended(machine: Machine, folder: str, name: str) -> Finding:
    """Checks that nobody can rewrite a journal."""
    logs = [file for file in sorted(machine.at(folder).glob(f"{name}*")) if re.fullmatch(rf"{name}(-\d+)?", file.name)]
    rewritable = [file.name for file in logs if not append_only.is_set(file)]
    if not logs or rewritable:
        return Finding(False, f"the journal can be rewritten: {', '.join(rewritable) or 'it is not there'}")
    return Finding(True, "nobody rewrites the journal")


def chained(machine: Machine, file: str) -> Finding:
    """Has office-journal check the chain of a journal."""
    done = machine.run("office-journal", "check", machine.at(file))
    last = done.text.splitlines()[-1:] or [""]
    return Finding(done.status == 0, f"the journal: {last[0]}")


def room(machine: Machine, office: Office) -> Finding:
    """Writes a block beside FILE, and compares the free room with FILE, which a compaction and a backup write anew."""
    file = machine.at(file_of(office))
    try:
        with tempfile.TemporaryFile(dir=file.parent) as probe:
            probe.write(bytes(BLOCK))
            probe.flush()
            os.fsync(probe.fileno())
        free, size = shutil.disk_usage(file.parent).free, file.stat().st_size
    except OSError as error:
        return Finding(False, f"FILE cannot be written: {error}")
    return Finding(free >= ROOM * size, f"{free >> 20} MB are free for a FILE of {size >> 20} MB" + (
        "" if free >= ROOM * size else f": {ROOM} times as much should be"))


def journals(machine: Machine, office: Office) -> Finding:
    return appended(machine, JOURNALS, f"{office.name}.journal")


def head(machine: Machine, office: Office) -> Finding:
    return chained(machine, f"{JOURNALS}/{office.name}.journal")


def numbers_in(folder: Path, pattern: str, hours: float = 0) -> set[int]:
    """Returns the numbers of the certificates in a folder that are at least `hours` old."""
    since = time.time() - hours * 3600
    names = [file.name for file in folder.glob(pattern) if file.stat().st_mtime <= since] if folder.is_dir() else []
    return {int(match[1]) for name in names if (match := NUMBER.fullmatch(name))}


def unsealed(machine: Machine, office: Office) -> list[int]:
    """Returns the certificates that should have a seal by now and have none."""
    certificates = numbers_in(machine.at(f"{LIB}/office-certificates/{office.name}"), "certificate-*.txt", SEAL_HOURS)
    return sorted(certificates - numbers_in(machine.at(f"{LIB}/office-seals/{office.name}"), "*/certificate-*.txt"))


def seals(machine: Machine, office: Office) -> Finding:
    missing = unsealed(machine, office)
    return Finding(not missing, f"certificates without a seal: {', '.join(map(str, missing))}" if missing else
                   "each certificate of yesterday and before has a seal")


def failed_units(machine: Machine, pattern: str) -> Finding:
    """Looks for failed units whose names have a pattern."""
    done = machine.run("systemctl", "list-units", "--failed", "--no-legend", "--plain", pattern)
    names = [line.split()[0] for line in done.text.splitlines() if line.strip()]
    if done.status or names:
        return Finding(False, f"failed: {', '.join(names) or done.text}")
    return Finding(True, "no unit has failed")


def failed_of_office(machine: Machine, office: Office) -> Finding:
    return failed_units(machine, f"office*@{office.name}.*")


# ---- sign-in


def form(machine: Machine, office: Office, port: int) -> Finding:
    """Requests the form of sign-in."""
    try:
        status = asked(machine, office, port, "/sign-in").status
    except (NoAnswer, OSError) as error:
        return Finding(False, f"the form does not answer: {error}")
    return Finding(status == 200, f"the form answers {status}")


def known_people(machine: Machine) -> Iterator[Finding]:
    """Has office-sign-in ask the directory or the provider, and look at the tokens of programs."""
    done = machine.run("office-sign-in", "check", "--ask", "--settings", machine.at(sign_in.SETTINGS))
    lines = done.text.splitlines() or [""]
    if done.status:
        # the message may stand above what was printed
        errors = [line for line in lines if line.startswith(SIGN_IN)] or lines
        yield Finding(False, f"nobody signs in: {errors[-1].removeprefix(SIGN_IN)}")
        return
    yield Finding(True, lines[0])
    yield from (Finding(False, line) for line in lines[1:])


def signing(machine: Machine, offices: list[Office], port: int) -> Iterator[tuple[str, Finding]]:
    """Runs the checks of sign-in, if there is one."""
    if offices[0].signing is None:
        return
    yield "form", form(machine, offices[0], port)
    for number, finding in enumerate(known_people(machine)):
        yield "token" if number else "people", finding
    yield "append", appended(machine, sign_in.LOGS, sign_in.JOURNAL)
    yield "journal", chained(machine, f"{sign_in.LOGS}/{sign_in.JOURNAL}")
    yield "units", failed_units(machine, "office-sign-in*")


# ---- the machine


def certificate(machine: Machine) -> Finding:
    done = machine.run("openssl", "x509", "-checkend", str(CERTIFICATE_DAYS * 86_400), "-noout", "-in",
                       machine.at(keys.CERTIFICATE))
    if done.status == 0:
        return Finding(True, f"the certificate of the site lasts {CERTIFICATE_DAYS} days and more")
    reason = done.text.splitlines()[:1]
    return Finding(False, f"the certificate of the site: {' '.join(reason) or 'openssl says nothing'}")


def clock(machine: Machine) -> Finding:
    is_kept = machine.run("timedatectl", "show", "-P", "NTPSynchronized").text == "yes"
    return Finding(is_kept, "the clock is kept right" if is_kept else "nothing keeps the clock right: apt-get install "
                   "systemd-timesyncd")


def of_office(machine: Machine, office: Office, port: int) -> Iterator[tuple[str, Finding]]:
    """Runs all checks of an office, each with its name."""
    yield "https", https(machine, office, port)
    yield "port", closed_port(machine, office)
    yield "append", journals(machine, office)
    yield "journal", head(machine, office)
    yield "units", failed_of_office(machine, office)
    yield "room", room(machine, office)
    for name, finding in zip(("copy", "apart"), copies(machine, office), strict=False):
        yield name, finding
    if office.has_seals:
        yield "seals", seals(machine, office)


def looks(machine: Machine, offices: list[Office], port: int) -> Iterator[Look]:
    """Runs all checks of these offices, and those of the machine."""
    for office in offices:
        yield from (Look(name, office.name, finding) for name, finding in of_office(machine, office, port))
    yield from (Look(f"sign-in-{name}", "", Finding(finding.is_well, f"sign-in: {finding.text}"))
                for name, finding in signing(machine, offices, port))
    yield Look("certificate", "", certificate(machine))
    yield Look("clock", "", clock(machine))
