"""The seals in a folder, each in a folder of its own, and each of the text of a certificate and of the seal before.

    000003/certificate-2.txt  the certificate      000003/seal.txt      its SHA-256, and that of the seal before
    000003/seal.txt.sig       a signature of it    000003/seal.txt.tsr  a time stamp of the signature, if there is one
    000003/sealed.p7s         one of both texts    000003/sealed.p7s.tsr  a time stamp of that one

It has the first signature, the second or both.
"""
import hashlib
import pathlib
import re
from dataclasses import dataclass

from office_common.errors import WRONG, Refused

FIRST = "0" * 64
SIGNATURES = {"seal.txt.sig": "seal.txt.tsr", "sealed.p7s": "sealed.p7s.tsr"}
"""the file of each signature, and of its time stamp"""
FORM = re.compile(r"SEAL ([1-9][0-9]*)\nOFFICE ([A-Za-z0-9._-]+)\nCERTIFICATE ([1-9][0-9]*)\nSHA256 ([0-9a-f]{64})\n"
                  r"PREVIOUS ([0-9a-f]{64})\nAT ([0-9T:Z-]{20})\nWHY (closed|restored|key)\n"
                  r"(?:JOURNAL [1-9][0-9]{0,14}:[0-9a-f]{64}\n)?")


@dataclass(frozen=True)
class Seal:
    """A seal: its folder, its number, and what it says."""

    folder: pathlib.Path
    number: int
    office: str
    certificate: int
    digest: str
    previous: str
    at: str
    own: str


def digest(data: bytes) -> str:
    return hashlib.sha256(data).hexdigest()


def text(number: int, office: str, certificate: int, sealed: str, previous: str, at: str, why: str, head: str) -> bytes:
    """Returns the text of a seal, which is signed. If the head of the gate's journal is known, it has that."""
    journal = f"JOURNAL {head}\n" if head else ""
    return (f"SEAL {number}\nOFFICE {office}\nCERTIFICATE {certificate}\nSHA256 {sealed}\nPREVIOUS {previous}\n"
            f"AT {at}\nWHY {why}\n{journal}").encode()


def read(seals: pathlib.Path, office: str) -> list[Seal]:
    """Reads all seals of a folder, which must be one chain of this office."""
    chain: list[Seal] = []
    for at, folder in enumerate(sorted(it for it in seals.iterdir() if re.fullmatch("[0-9]{6}", it.name)), 1):
        try:
            data = (folder / "seal.txt").read_bytes()
        except OSError as why:
            raise Refused(WRONG, f"{folder} has no seal: {why.strerror}") from why
        match = FORM.fullmatch(data.decode(errors="replace"))
        before = chain[-1].own if chain else FIRST
        if match is None or (int(match[1]), folder.name, match[5]) != (at, f"{at:06}", before):
            raise Refused(WRONG, f"the chain of seals is broken at {folder}: bring the folder back from its copy")
        if match[2] != office:
            raise Refused(WRONG, f"{folder} is of the office {match[2]}, and not of {office}")
        chain.append(Seal(folder, at, match[2], int(match[3]), match[4], match[5], match[6], digest(data)))
    return chain


def signatures_in(seal: Seal) -> list[tuple[pathlib.Path, pathlib.Path]]:
    """Returns the files of a seal's signatures, each with that of its time stamp, which may be missing."""
    return [(seal.folder / signature, seal.folder / stamp) for signature, stamp in SIGNATURES.items()
            if (seal.folder / signature).exists()]
