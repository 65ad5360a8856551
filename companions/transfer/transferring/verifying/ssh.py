"""A signature of a seal by ssh-keygen (SSHSIG), beside the list of keys that may sign."""
from __future__ import annotations

import datetime
import re
from pathlib import Path

from transferring.verifying.report import FOREIGN, FORGED, WITHDRAWN
from transferring.verifying.seal import Seal
from transferring.verifying.tools import SECOND, data_of, tool

FILE, STAMP = "seal.txt.sig", "seal.txt.tsr"
SPACE = "office-seal"
ARMOUR = re.compile(rb"-----BEGIN SSH SIGNATURE-----\n(?:[A-Za-z0-9+/]+=*\n)+-----END SSH SIGNATURE-----\n")
# the last moment of a key, in a line of the signers
ENDS = re.compile(r'valid-before="?([0-9]{14}|[0-9]{12}|[0-9]{8})(?![0-9])')


class Ssh:
    """The SSHSIG of a seal. Its text names the certificate by SHA-256 alone."""

    file, stamp, text_digest = FILE, STAMP, "sha256"

    def __init__(self, seal: Seal, signers: Path) -> None:
        self.seal, self.signers = seal, signers
        self.signature = str(seal.folder / FILE)

    def key(self) -> str:
        """Returns the fingerprint of the key that signed the seal; empty if its file is more than a signature of it."""
        if not ARMOUR.fullmatch(data_of(self.seal.folder / FILE) or b""):
            return ""
        is_good, output = tool("ssh-keygen", "-Y", "check-novalidate", "-n", SPACE, "-s", self.signature, data=self.text())
        return next((part for part in output.split() if part.startswith("SHA256:")), "") if is_good else ""

    def text(self) -> bytes:
        return (self.seal.folder / "seal.txt").read_bytes()

    def may_sign(self, moment: datetime.datetime) -> tuple[bool, str]:
        """Returns whether one of the signers signed the seal and may do so at a moment, and what ssh-keygen says of it."""
        return tool("ssh-keygen", "-Y", "verify", "-f", str(self.signers), "-I", self.seal.office, "-n", SPACE, "-O",
                    f"verify-time={moment:%Y%m%d%H%M%S}", "-s", self.signature, data=self.text())

    def has_ended(self, moment: datetime.datetime) -> bool:
        """Returns whether the key that signed the seal might do so until a moment before this one."""
        if self.may_sign(moment)[0]:
            return False
        ends = {last_moment(text) for text in ENDS.findall(self.signers.read_text(errors="replace"))}
        return any(self.may_sign(end - SECOND)[0] for end in ends if end is not None and end <= moment)

    def word(self, moment: datetime.datetime, office: str) -> str:
        """Returns the word for a seal in the chain of an office whose key may not sign at a moment."""
        if self.has_ended(moment):
            return WITHDRAWN
        is_listed, output = tool("ssh-keygen", "-Y", "find-principals", "-f", str(self.signers), "-O",
                                f"verify-time={moment:%Y%m%d%H%M%S}", "-s", self.signature)
        others = set(re.split(r"[,\s]+", output)) - {self.seal.office} if is_listed else set()
        return FOREIGN if others or self.seal.office != office else FORGED


def last_moment(text: str) -> datetime.datetime | None:
    """Returns the moment of a line of signers; None if no calendar has it."""
    try:
        return datetime.datetime.strptime(text.ljust(14, "0"), "%Y%m%d%H%M%S")
    except ValueError:
        return None
