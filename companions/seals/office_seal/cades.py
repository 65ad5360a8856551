"""Signatures by openssl (CAdES, baseline B), of a seal and its certificate, and containers of them (ASiC-S).

A signature `sealed.p7s` is of the bytes of seal.txt, followed by those of the certificate. The container has these bytes as
its one document, which a reader shows as it is.
"""
import pathlib
import re
import tempfile
import zipfile
from dataclasses import dataclass

from office_common import files
from office_common.errors import USAGE, Refused

from office_seal import chain, ssh
from office_seal.chain import Seal
from office_seal.tool import tool

FILE = "sealed.p7s"
KIND = "application/vnd.etsi.asic-s+zip"
PEM = re.compile("-----BEGIN CERTIFICATE-----\n.+?-----END CERTIFICATE-----\n", re.DOTALL)
LONG_AGO = (1980, 1, 1, 0, 0, 0)
"""the moment of each file in a container: two of one certificate are alike"""


def signed_bytes(folder: pathlib.Path, certificate: int) -> bytes:
    """Returns the bytes that a signature is of: the seal, and the certificate after it."""
    return (folder / "seal.txt").read_bytes() + (folder / f"certificate-{certificate}.txt").read_bytes()


@dataclass(frozen=True)
class Cades:
    """A key that signs by openssl, and the file of its certificate, with those above it."""

    key: pathlib.Path
    certificates: pathlib.Path | None

    def sign(self, folder: pathlib.Path, certificate: int) -> None:
        """Signs the seal and the certificate in a folder."""
        own, *above = self.chain()
        with tempfile.TemporaryDirectory() as name:
            place = pathlib.Path(name)
            (place / "own").write_text(own)
            (place / "above").write_text("".join(above))
            chained = ["-certfile", str(place / "above")] if above else []
            signature = tool("openssl", "cms", "-sign", "-cades", "-binary", "-md", "sha512", "-outform", "DER", "-signer",
                             str(place / "own"), "-inkey", str(self.key), *chained, data=signed_bytes(folder, certificate))
        files.write(folder / FILE, signature)

    def chain(self) -> list[str]:
        """Returns the certificate of the key, and those above it."""
        text = self.certificates.read_text() if self.certificates and self.certificates.is_file() else ""
        if not (pems := PEM.findall(text)):
            raise Refused(USAGE, f"there is no certificate of the key for CAdES in {self.certificates}: EVIDENCE.md, Forms")
        return pems


def signer(seal: Seal) -> str:
    """Returns the fingerprint of the key that signed a seal, as ssh-keygen has it."""
    with tempfile.TemporaryDirectory() as name:
        place = pathlib.Path(name)
        (place / "sealed").write_bytes(signed_bytes(seal.folder, seal.certificate))
        tool("openssl", "cms", "-verify", "-noverify", "-binary", "-inform", "DER", "-in", str(seal.folder / FILE), "-content",
             str(place / "sealed"), "-signer", str(place / "own"), "-out", str(place / "read"))
        (place / "key").write_bytes(tool("openssl", "x509", "-in", str(place / "own"), "-noout", "-pubkey"))
        (place / "line").write_bytes(tool("ssh-keygen", "-i", "-m", "PKCS8", "-f", str(place / "key")))
        return ssh.fingerprint(tool("ssh-keygen", "-l", "-f", str(place / "line")))


def pack(seals: pathlib.Path, office: str, certificate: int, container: pathlib.Path) -> None:
    """Writes a container of the last seal of a certificate that has such a signature."""
    sealed = [seal for seal in chain.read(seals, office)
              if seal.certificate == certificate and (seal.folder / FILE).is_file()]
    if not sealed:
        raise Refused(USAGE, f"no seal of certificate {certificate} has a CAdES signature: EVIDENCE.md, Forms")
    if container.exists():
        raise Refused(USAGE, f"{container} is there already")
    folder = sealed[-1].folder
    with tempfile.TemporaryDirectory() as name:
        file = pathlib.Path(name) / "container"
        with zipfile.ZipFile(file, "w") as packed:
            # by the standard the first one, as it is
            packed.writestr(zipfile.ZipInfo("mimetype", LONG_AGO), KIND)
            for entry, data in ((f"{office}-certificate-{certificate}.txt", signed_bytes(folder, certificate)),
                                ("META-INF/signature.p7s", (folder / FILE).read_bytes())):
                packed.writestr(zipfile.ZipInfo(entry, LONG_AGO), data, zipfile.ZIP_DEFLATED)
        files.write(container, file.read_bytes())
