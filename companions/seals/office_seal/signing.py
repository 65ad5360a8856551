"""Signs a certificate, as one more seal of the chain."""
import os
import pathlib
import re
import shutil
import time
from dataclasses import dataclass

from office_common import files
from office_common.errors import IMPOSSIBLE, USAGE, WRONG, Refused

from office_seal import cades, chain, fetching, ssh
from office_seal.cades import Cades
from office_seal.chain import Seal
from office_seal.ssh import Ssh

FORMS = {"ssh": (Ssh,), "cades": (Cades,), "both": (Ssh, Cades)}
"""which signatures a seal has"""
NEW = ".new"
# what the unit office-seal@ gives for a key if root's file of it is not there
LOST = b"lost"


def signers(seal: Seal) -> set[str]:
    """Returns the fingerprints of the keys that signed a seal."""
    modules = [module for module in (ssh, cades) if (seal.folder / module.FILE).exists()]
    return {module.signer(seal) for module in modules}


@dataclass(frozen=True)
class Sealer:
    """An office that seals: the folder of its seals, its name, its keys, and whether it may go on after a wrong clock."""

    seals: pathlib.Path
    office: str
    keys: tuple[Ssh | Cades, ...]
    was_clock_wrong: bool = False
    # a file with the head of the gate's journal
    journal: pathlib.Path | None = None

    def chain(self) -> list[Seal]:
        """Returns the seals that are there. An office that has a seal had a key."""
        there = chain.read(self.seals, self.office)
        if not all(key.key.is_file() and key.key.read_bytes().strip() != LOST for key in self.keys):
            lost = f"the key is lost, and nothing follows seal {there[-1].number}" if there else "there is no key"
            raise Refused(USAGE, f"{lost}: EVIDENCE.md, Keys")
        return there

    def moment(self, there: list[Seal]) -> str:
        """Returns the moment of the next seal, which is not before that of the last one."""
        now = time.strftime("%Y-%m-%dT%H:%M:%SZ", time.gmtime())
        if there and now < there[-1].at and not self.was_clock_wrong:
            raise Refused(IMPOSSIBLE, f"the clock of this machine is at {now}, and seal {there[-1].number} at "
                                      f"{there[-1].at}: set the clock. If it was wrong then, --clock-was-wrong seals all "
                                      "the same, and office-verify reports the place")
        return now

    def head(self) -> str:
        """Returns the last head of the gate's journal that was checked, LINE:SHA256; empty if there is none."""
        text = self.journal.read_text(errors="replace").strip() if self.journal and self.journal.is_file() else ""
        return text if re.fullmatch("[1-9][0-9]{0,14}:[0-9a-f]{64}", text) else ""

    def add(self, there: list[Seal], body: bytes, number: int, why: str) -> None:
        """Makes the next seal in a folder of its own, and puts it in its place by one rename."""
        at, moment = len(there) + 1, self.moment(there)
        folder = self.seals / NEW
        shutil.rmtree(folder, ignore_errors=True)
        folder.mkdir()
        files.write(folder / f"certificate-{number}.txt", body)
        before = there[-1].own if there else chain.FIRST
        text = chain.text(at, self.office, number, chain.digest(body), before, moment, why, self.head())
        files.write(folder / "seal.txt", text)
        for key in self.keys:
            key.sign(folder, number)
        done = self.seals / f"{at:06}"
        os.rename(folder, done)
        files.sync(self.seals)
        there.append(Seal(done, at, self.office, number, chain.digest(body), before, moment, chain.digest(text)))


def sign(certificates: pathlib.Path, sealer: Sealer, is_restored: bool) -> int:
    """Seals each certificate that has no seal: how many. A second text of one number needs the word for a restore."""
    with files.locked(sealer.seals):
        there, new = sealer.chain(), 0
        sealed: dict[int, set[str]] = {}
        for seal in there:
            sealed.setdefault(seal.certificate, set()).add(seal.digest)
        for number, file in fetching.kept(certificates).items():
            body = file.read_bytes()
            texts = sealed.get(number, set())
            if chain.digest(body) in texts:
                continue
            if texts and not is_restored:
                raise Refused(WRONG, f"certificate {number} is sealed with another text than {file}: {fetching.ADVICE}")
            sealer.add(there, body, number, "restored" if texts else "closed")
            new += 1
        return new


def sign_anew(certificates: pathlib.Path, sealer: Sealer, withdrawn: pathlib.Path) -> int:
    """Seals again each certificate that is kept and that only keys in a file have signed: how many.

    A text that is in the seals alone is not signed again: whoever has such a key may have put it there.
    """
    with files.locked(sealer.seals):
        there, gone, new = sealer.chain(), ssh.keys_in(withdrawn), 0
        good = {(it.certificate, it.digest) for it in there if not signers(it) & gone}
        sealed = {(it.certificate, it.digest) for it in there}
        for number, file in fetching.kept(certificates).items():
            body = file.read_bytes()
            text = (number, chain.digest(body))
            if text in sealed and text not in good:
                sealer.add(there, body, number, "key")
                new += 1
        return new
