"""A time stamp as its office looks at it: whether it is good by its authority, until when, and by which digest."""
import datetime
import functools
import pathlib
import re
import tempfile
from dataclasses import dataclass

from office_common.errors import IMPOSSIBLE, Refused

from office_seal.tool import tool

DIGESTS = ("sha256", "sha384", "sha512")
"""digests for time stamps, the weakest first"""
PEM = re.compile("-----BEGIN CERTIFICATE-----\n.+?-----END CERTIFICATE-----\n", re.DOTALL)


@dataclass(frozen=True)
class Token:
    """A time stamp: its moment, the moment at which the first certificate of its chain ends, and its digest."""

    moment: datetime.datetime
    end: datetime.datetime
    digest: str

    def is_weaker(self, digest: str) -> bool:
        """Returns whether the stamp is of a weaker digest than this one."""
        return self.digest not in DIGESTS or DIGESTS.index(self.digest) < DIGESTS.index(digest)


def moment_in(text: str) -> datetime.datetime:
    """Reads a moment as openssl prints it, in GMT."""
    match = re.search(r"([A-Z][a-z]{2}) +([0-9]{1,2}) ([0-9:]{8})(?:\.[0-9]+)? ([0-9]{4}) GMT", text)
    if match is None:
        raise Refused(IMPOSSIBLE, f"openssl prints no moment: {text.strip()}")
    return datetime.datetime.strptime(" ".join(match.groups()), "%b %d %H:%M:%S %Y")


@functools.cache
def end_of(certificate: str) -> datetime.datetime:
    """Returns the last moment of a certificate."""
    return moment_in(tool("openssl", "x509", "-noout", "-enddate", data=certificate.encode()).decode(errors="replace"))


def read(stamp: pathlib.Path, stamped: pathlib.Path, certificates: pathlib.Path) -> Token:
    """Reads a time stamp of a file. It must verify at its own moment by these certificates."""
    text = tool("openssl", "ts", "-reply", "-in", str(stamp), "-token_out", "-text").decode(errors="replace")
    moment = moment_in("".join(re.findall("^Time stamp: .*$", text, re.MULTILINE)[:1]))
    verify(stamp, stamped, certificates, moment)
    pems = PEM.findall(certificates_in(stamp) + certificates.read_text(errors="replace") + "\n")
    # the first certificate without which it does not verify
    for end in sorted({end for pem in pems if (end := end_of(pem)) >= moment}):
        try:
            verify(stamp, stamped, certificates, end + datetime.timedelta(seconds=1))
        except Refused:
            break
    return Token(moment, end, "".join(re.findall(r"^Hash Algorithm: (\S+)", text, re.MULTILINE)[:1]))


def verify(stamp: pathlib.Path, stamped: pathlib.Path, certificates: pathlib.Path, moment: datetime.datetime) -> None:
    """Refuses a time stamp that does not verify for one who looks at a moment."""
    seconds = int(moment.replace(tzinfo=datetime.timezone.utc).timestamp())
    tool("openssl", "ts", "-verify", "-data", str(stamped), "-in", str(stamp), "-CAfile", str(certificates), "-attime",
         str(seconds))


def certificates_in(stamp: pathlib.Path) -> str:
    """Returns the certificates in a time stamp."""
    with tempfile.TemporaryDirectory() as folder:
        token = str(pathlib.Path(folder) / "token")
        tool("openssl", "ts", "-reply", "-in", str(stamp), "-token_out", "-out", token)
        return tool("openssl", "pkcs7", "-inform", "DER", "-in", token, "-print_certs").decode(errors="replace") + "\n"
