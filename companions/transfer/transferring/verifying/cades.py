"""A signature of a seal and its certificate by openssl (CAdES), beside the certificates of the office's keys."""
from __future__ import annotations

import datetime
import ssl
import tempfile
from pathlib import Path

from transferring.verifying.report import FORGED, WITHDRAWN
from transferring.verifying.seal import Seal
from transferring.verifying.tools import data_of, tool
from transferring.verifying.trust import PEM, certificate

FILE, STAMP = "sealed.p7s", "sealed.p7s.tsr"


class Cades:
    """The CAdES signature of the bytes of a seal, followed by those of its certificate."""

    file, stamp, text_digest = FILE, STAMP, "sha512"

    def __init__(self, seal: Seal, certificates: Path) -> None:
        self.seal, self.certificates = seal, certificates
        self.signer = ""

    def key(self) -> str:
        """Returns the fingerprint of the key that signed the seal; empty if its file is more than a signature of it."""
        if not is_one_object(data_of(self.seal.folder / FILE) or b""):
            return ""
        is_good, _ = self.verified("-noverify")
        return fingerprint(self.signer) if is_good else ""

    def verified(self, *args: str) -> tuple[bool, str]:
        """Returns whether the signature verifies, and what openssl says of it; the certificate of the signer is read."""
        with tempfile.TemporaryDirectory() as name:
            sealed, signer = Path(name) / "sealed", Path(name) / "signer"
            text = data_of(self.seal.folder / f"certificate-{self.seal.certificate}.txt") or b""
            sealed.write_bytes((self.seal.folder / "seal.txt").read_bytes() + text)
            is_good, output = tool("openssl", "cms", "-verify", "-binary", "-inform", "DER", "-in",
                                   str(self.seal.folder / FILE), "-content", str(sealed), "-signer", str(signer), "-out",
                                   "/dev/null", *args)
            self.signer = signer.read_text(errors="replace") if signer.is_file() else ""
        why = [line.rpartition("error:")[2] for line in output.splitlines() if "error" in line] or output.splitlines()
        return is_good, why[-1] if why else ""

    def may_sign(self, moment: datetime.datetime) -> tuple[bool, str]:
        """Returns whether a key of the office signed within the days of its certificate, and what openssl says of it."""
        seconds = int(moment.replace(tzinfo=datetime.timezone.utc).timestamp())
        is_good, why = self.verified("-cades", "-CAfile", str(self.certificates), "-partial_chain", "-purpose", "any",
                                     "-attime", str(seconds))
        if is_good and not self.is_own():
            return False, f"its certificate is not in {self.certificates}"
        return is_good, why

    def is_own(self) -> bool:
        """Returns whether the certificate of the signer is one that the auditor has."""
        own = {ssl.PEM_cert_to_DER_cert(pem) for pem in PEM.findall(self.certificates.read_text(errors="replace") + "\n")}
        return own >= {ssl.PEM_cert_to_DER_cert(pem) for pem in PEM.findall(self.signer)} > set()

    def has_ended(self, moment: datetime.datetime) -> bool:
        """Returns whether the certificate of the signer is the office's own, and ended before a moment."""
        self.verified("-noverify")
        end = certificate(self.signer).end if self.signer and self.is_own() else None
        return end is not None and end < moment

    def word(self, moment: datetime.datetime, office: str) -> str:
        """Returns the word for a seal whose key may not sign at a moment."""
        return WITHDRAWN if self.has_ended(moment) else FORGED


def is_one_object(data: bytes) -> bool:
    """Returns whether bytes are one object in DER by their length, and nothing after it."""
    if len(data) < 2 or data[0] != 0x30:
        return False
    count = data[1] & 0x7F if data[1] & 0x80 else 0
    length = int.from_bytes(data[2:2 + count], "big") if count else data[1]
    return data[1] != 0x80 and 2 + count + length == len(data)


def fingerprint(pem: str) -> str:
    """Returns the fingerprint of a certificate's key, as ssh-keygen has it; that of the certificate if it knows no such key."""
    with tempfile.TemporaryDirectory() as name:
        file = Path(name) / "key"
        file.write_text(tool("openssl", "x509", "-noout", "-pubkey", data=pem.encode())[1] + "\n")
        is_known, line = tool("ssh-keygen", "-i", "-m", "PKCS8", "-f", str(file))
        file.write_text(line + "\n")
        output = tool("ssh-keygen", "-l", "-f", str(file))[1] if is_known else ""
    own = tool("openssl", "x509", "-noout", "-fingerprint", "-sha256", data=pem.encode())[1]
    return next((part for part in output.split() if part.startswith("SHA256:")), own)
