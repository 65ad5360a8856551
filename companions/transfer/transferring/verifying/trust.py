"""What an auditor trusts about time stamps: authorities, what they revoked, and digests that are weak since a day."""
from __future__ import annotations

import datetime
import functools
import re
from dataclasses import dataclass
from pathlib import Path

from transferring.verifying.tools import Untried, moment_in, tool

PEM = re.compile("-----BEGIN CERTIFICATE-----\n.+?-----END CERTIFICATE-----\n", re.DOTALL)
ENTRY = re.compile(r"^ +Serial Number: ([0-9A-F]+)\n((?:^ {8}.*\n?)*)", re.MULTILINE)
# after a revocation for one of these reasons what was stamped before stays good (RFC 3161, section 4)
HARMLESS = ("Unspecified", "Affiliation Changed", "Superseded", "Cessation Of Operation")


@dataclass(frozen=True)
class Certificate:
    """A certificate: whose it is, who issued it under which number, and its last moment."""

    subject: str
    issuer: str
    serial: str
    end: datetime.datetime | None


@dataclass(frozen=True)
class Revocation:
    """When a certificate was revoked, and whether it lost what it had signed before."""

    moment: datetime.datetime
    is_harmless: bool


@dataclass(frozen=True)
class Trust:
    """The authorities' certificates, the moment of the trial, revocations by issuer and number, and weak digests."""

    authority: Path
    now: datetime.datetime
    revoked: dict[tuple[str, str], Revocation]
    weak: dict[str, datetime.datetime]


@functools.cache
def certificate(pem: str) -> Certificate:
    """Reads a certificate."""
    text = tool("openssl", "x509", "-noout", "-subject", "-issuer", "-serial", "-enddate", "-nameopt", "RFC2253",
                data=pem.encode())[1]
    fields = dict(line.split("=", 1) for line in text.splitlines() if "=" in line)
    return Certificate(fields.get("subject", ""), fields.get("issuer", ""), fields.get("serial", ""),
                       moment_in(fields.get("notAfter", "")))


def certificates_in(text: str) -> list[Certificate]:
    """Returns the certificates of a text in PEM."""
    return [certificate(pem) for pem in PEM.findall(text + "\n")]


def revocations(lists: list[Path], authority: Path) -> dict[tuple[str, str], Revocation]:
    """Returns what the authorities revoked, by issuer and number: the lists must be signed by their certificates."""
    revoked = {}
    for file in lists:
        output = tool("openssl", "crl", "-in", str(file), "-noout", "-CAfile", str(authority))[1]
        if "verify OK" not in output:
            raise Untried(f"{file} is no list of revoked certificates that a certificate in {authority} signed: {output}")
        text = tool("openssl", "crl", "-in", str(file), "-noout", "-issuer", "-text", "-nameopt", "RFC2253")[1]
        issuer = re.findall("^issuer=(.*)$", text, re.MULTILINE)[0]
        for serial, entry in ENTRY.findall(text.partition("Revoked Certificates:\n")[2]):
            moment = moment_in(entry)
            if moment is None:
                raise Untried(f"{file} does not say when {serial} was revoked")
            reason = re.search(r"Reason Code: *\n +(.+)$", entry, re.MULTILINE)
            revoked[issuer, serial] = Revocation(moment, reason is not None and reason[1] in HARMLESS)
    return revoked
