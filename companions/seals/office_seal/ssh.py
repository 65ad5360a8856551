"""Signatures by ssh-keygen (SSHSIG), of the text of a seal."""
import pathlib
from dataclasses import dataclass

from office_common import files

from office_seal.chain import Seal
from office_seal.tool import tool

FILE = "seal.txt.sig"
# what ssh-keygen writes into a signature, so that it counts for nothing else
SPACE = "office-seal"


def fingerprint(line: bytes) -> str:
    """Returns the fingerprint in a line that ssh-keygen prints."""
    return next((part for part in line.decode(errors="replace").split() if part.startswith("SHA256:")), "")


def signer(seal: Seal) -> str:
    """Returns the fingerprint of the key that signed a seal."""
    signed = (seal.folder / "seal.txt").read_bytes()
    return fingerprint(tool("ssh-keygen", "-Y", "check-novalidate", "-n", SPACE, "-s", str(seal.folder / FILE), data=signed))


def keys_in(file: pathlib.Path | None) -> set[str]:
    """Returns the fingerprints of the public keys in a file."""
    if file is None:
        return set()
    return {fingerprint(line) for line in tool("ssh-keygen", "-l", "-f", str(file)).splitlines()} - {""}


@dataclass(frozen=True)
class Ssh:
    """A key that signs by ssh-keygen."""

    key: pathlib.Path

    def sign(self, folder: pathlib.Path, certificate: int) -> None:
        """Signs the seal in a folder."""
        tool("ssh-keygen", "-q", "-Y", "sign", "-f", str(self.key), "-n", SPACE, str(folder / "seal.txt"))
        # read back as ssh-keygen wrote it, and then on the disk
        files.write(folder / FILE, (folder / FILE).read_bytes())
