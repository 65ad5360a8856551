"""A time stamp (RFC 3161): whether it was good at its own moment, and how long it proves that moment by itself."""
from __future__ import annotations

import datetime
import re
import tempfile
from collections.abc import Iterator
from dataclasses import dataclass
from pathlib import Path

from transferring.verifying.report import FORGED
from transferring.verifying.tools import SECOND, moment_in, tool
from transferring.verifying.trust import Certificate, Trust, certificates_in

FOREVER = datetime.datetime.max


@dataclass(frozen=True)
class Token:
    """A time stamp: its file, the file that it stamps, and what that one is called."""

    file: Path
    stamped: Path
    called: str


@dataclass(frozen=True)
class Verdict:
    """The moment of a time stamp, until when it proves that moment by itself, and what ended the proof."""

    moment: datetime.datetime
    end: datetime.datetime
    cause: str


class Bad(Exception):
    """A time stamp is not good, with the word for its seal."""

    def __init__(self, why: str, word: str = "") -> None:
        super().__init__(why)
        self.word = word


def judge(token: Token, trust: Trust) -> Verdict:
    """Judges a time stamp at its own moment, and then at each moment at which its proof may have ended."""
    # the text of the token alone: the rest of a reply is not signed
    text = tool("openssl", "ts", "-reply", "-in", str(token.file), "-token_out", "-text")[1]
    moment = moment_in("".join(re.findall("^Time stamp: .*$", text, re.MULTILINE)[:1]))
    is_good, why = verified(token, moment, trust) if moment else (False, "it has no moment")
    if moment is None or not is_good:
        # a stamp that is whole may be of an authority that the auditor does not know
        raise Bad(f"the time stamp is not of this {token.called}, or of another authority: {why}",
                  "" if "certificate verify error" in why else FORGED)
    ends = [*certificate_end(token, moment, trust), *revocation_end(token, moment, trust), *digest_end(token, text, trust)]
    end, cause = min(ends, default=(FOREVER, ""))
    return Verdict(moment, end, cause and f"{cause} {end:%Y-%m-%d}")


def verified(token: Token, moment: datetime.datetime, trust: Trust) -> tuple[bool, str]:
    """Returns whether a time stamp verifies for one who looks at a moment, and what openssl says of it."""
    seconds = int(moment.replace(tzinfo=datetime.timezone.utc).timestamp())
    is_good, output = tool("openssl", "ts", "-verify", "-data", str(token.stamped), "-in", str(token.file), "-CAfile",
                           str(trust.authority), "-attime", str(seconds))
    why = [line for line in output.splitlines() if "error" in line] or output.splitlines()
    return is_good, why[-1] if why else ""


def unpacked(token: Token, *args: str) -> str:
    """Returns what openssl prints of the signed message in a time stamp."""
    with tempfile.TemporaryDirectory() as folder:
        file = str(Path(folder) / "token")
        tool("openssl", "ts", "-reply", "-in", str(token.file), "-token_out", "-out", file)
        return tool("openssl", *args, "-inform", "DER", "-in", file)[1]


def certificate_end(token: Token, moment: datetime.datetime, trust: Trust) -> Iterator[tuple[datetime.datetime, str]]:
    """Finds when a time stamp ceased to verify because a certificate of its chain ended.

    A certificate that ended before the moment of the stamp is that of an authority before this one.
    """
    is_current, why = verified(token, trust.now, trust)
    if is_current:
        return
    text = f"{unpacked(token, 'pkcs7', '-print_certs')}\n{trust.authority.read_text(errors='replace')}"
    ends = {certificate.end for certificate in certificates_in(text)}
    for end in sorted(end for end in ends if end is not None and moment <= end < trust.now):
        if not verified(token, end + SECOND, trust)[0]:
            yield end, "the authority's certificate ended on"
            return
    raise Bad(f"the time stamp does not verify: {why}")


def revocation_end(token: Token, moment: datetime.datetime, trust: Trust) -> Iterator[tuple[datetime.datetime, str]]:
    """Finds when a certificate of a time stamp's chain was revoked."""
    for certificate in chain_of(token, trust) if trust.revoked else []:
        revocation = trust.revoked.get((certificate.issuer, certificate.serial))
        if revocation is None or revocation.moment > trust.now:
            continue
        if revocation.moment <= moment:
            raise Bad(f"the authority was revoked on {revocation.moment:%Y-%m-%d}, before it gave this time stamp")
        if not revocation.is_harmless:
            yield revocation.moment, "the authority was revoked on"


def chain_of(token: Token, trust: Trust) -> list[Certificate]:
    """Returns the certificates in a time stamp, and those of the auditor's file that issued one of them."""
    chain = certificates_in(unpacked(token, "pkcs7", "-print_certs"))
    others = certificates_in(trust.authority.read_text(errors="replace"))
    for certificate in chain:
        chain += [other for other in others if other.subject == certificate.issuer and other not in chain]
    return chain


def digest_end(token: Token, text: str, trust: Trust) -> Iterator[tuple[datetime.datetime, str]]:
    """Finds since when a digest is weak that a time stamp rests on: that of the bytes, or that of its signature."""
    if not trust.weak:
        return
    signed = unpacked(token, "cms", "-cmsout", "-print", "-noout").partition("signerInfos:")[2]
    names = {*re.findall(r"^Hash Algorithm: (\S+)", text, re.MULTILINE),
             *re.findall(r"digestAlgorithm: *\n +algorithm: (\S+)", signed)}
    for name in names & set(trust.weak):
        if trust.weak[name] <= trust.now:
            yield trust.weak[name], f"{name} is weak since"
