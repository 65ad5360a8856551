"""Asks a time-stamping authority (RFC 3161) for a stamp of each signature."""
import http.client
import pathlib
import tempfile
import urllib.error
import urllib.request
from dataclasses import dataclass

from office_common import files
from office_common.errors import IMPOSSIBLE, USAGE, Refused

from office_seal import chain
from office_seal.tool import tool

SECONDS = 60
LONGEST = 1 << 20


@dataclass(frozen=True)
class Authority:
    """A time-stamping authority: its address, the file of certificates that verify its stamps, and the digest to send."""

    url: str
    certificates: pathlib.Path | None
    digest: str


def stamp(seals: pathlib.Path, office: str, authority: Authority) -> int:
    """Stamps each signature that has no stamp: how many. One that the authority refuses stays for the next time."""
    with files.locked(seals):
        new = 0
        for seal in chain.read(seals, office):
            for signature, stamped in chain.signatures_in(seal):
                if not stamped.exists():
                    need(authority)
                    files.write(stamped, stamp_of(signature, authority))
                    new += 1
        return new


def need(authority: Authority) -> None:
    """Refuses an authority whose stamps nobody could verify."""
    if authority.certificates is None or not authority.certificates.is_file():
        raise Refused(USAGE, f"nothing is stamped: STAMP_CA names no file ({authority.certificates}); it must be "
                             "the authority's certificate, by which each stamp is verified. Seals are made "
                             "without a stamp meanwhile (EVIDENCE.md, A time-stamping authority)")


def stamp_of(file: pathlib.Path, authority: Authority) -> bytes:
    """Returns a stamp of a file by the authority, which must be one of this very query, signed by that authority."""
    query = tool("openssl", "ts", "-query", "-data", str(file), f"-{authority.digest}", "-cert")
    request = urllib.request.Request(authority.url, query, {"Content-Type": "application/timestamp-query"})
    try:
        with urllib.request.urlopen(request, timeout=SECONDS) as reply:
            data = reply.read(LONGEST)
    except (urllib.error.URLError, OSError, http.client.HTTPException, ValueError) as why:
        raise Refused(IMPOSSIBLE, f"{authority.url} gives no stamp: {why}") from why
    with tempfile.TemporaryDirectory() as name:
        question, given = pathlib.Path(name) / "query", pathlib.Path(name) / "reply"
        question.write_bytes(query)
        given.write_bytes(data)
        try:
            # the nonce, the imprint and the signature
            tool("openssl", "ts", "-verify", "-queryfile", str(question), "-in", str(given), "-CAfile",
                 str(authority.certificates))
        except Refused as why:
            raise Refused(IMPOSSIBLE, f"the answer of {authority.url} is no stamp of {file.name} by the authority of "
                                      f"{authority.certificates}, and is not kept: {why}") from why
    return data
