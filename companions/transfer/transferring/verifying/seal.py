"""One seal of a chain: the seven or eight lines that it says, its place, and the certificate beside it."""
from __future__ import annotations

import datetime
import re
from dataclasses import dataclass
from pathlib import Path

from transferring.verifying.report import FORGED, Report
from transferring.verifying.tools import UTC, data_of, digest

FORM = re.compile(rb"SEAL ([0-9]{1,10})\nOFFICE ([A-Za-z0-9._-]+)\nCERTIFICATE ([0-9]{1,10})\nSHA256 ([0-9a-f]{64})\n"
                  rb"PREVIOUS ([0-9a-f]{64})\nAT ([0-9]{4}-[0-9]{2}-[0-9]{2}T[0-9]{2}:[0-9]{2}:[0-9]{2}Z)\n"
                  rb"WHY (closed|restored|key)\n(?:JOURNAL ([1-9][0-9]{0,14}):([0-9a-f]{64})\n)?")


@dataclass(frozen=True)
class Seal:
    """What a seal says, and its folder."""

    folder: Path
    number: int
    office: str
    certificate: int
    digest: str
    previous: str
    at: str
    why: str
    # the last line of the gate's journal by then, and its SHA-256; 0 if the seal does not say
    line: int = 0
    head: str = ""

    def moment(self) -> datetime.datetime:
        return datetime.datetime.strptime(self.at, UTC)


def seal_in(folder: Path, at: int, before: str, report: Report) -> Seal | None:
    """Reads a seal that must be the one at this place; None if the chain is broken here."""
    data = data_of(folder / "seal.txt")
    match = FORM.fullmatch(data or b"")
    if match is None:
        report.refuse(folder.name, "there is no seal of a known form", FORGED if data is not None else "")
        return None
    fields = [(group or b"").decode() for group in match.groups()]
    seal = Seal(folder, int(fields[0]), fields[1], int(fields[2]), fields[3], fields[4], fields[5], fields[6],
                int(fields[7] or 0), fields[8])
    try:
        seal.moment()
    except ValueError:
        report.refuse(folder.name, f"AT {seal.at} is no moment", FORGED)
        return None
    if (seal.number, folder.name) != (at, f"{at:06}"):
        report.wrong.append(f"{folder.name}: the chain is broken: seal {at} is missing")
        return None
    if seal.previous != before:
        report.refuse(folder.name, "the chain is broken: it does not follow the seal before it", FORGED)
        return None
    return seal


def is_text_good(seal: Seal, report: Report) -> bool:
    """Returns whether the certificate beside a seal is the sealed one, and the one that its own last line seals."""
    name, word = f"certificate-{seal.certificate}.txt", ""
    text = data_of(seal.folder / name)
    body, last = (text or b"")[:-72], (text or b"")[-72:]
    if text is None:
        why = "is missing"
    elif digest(text) != seal.digest:
        why, word = "was changed after it was sealed", FORGED
    elif not text.startswith(f"CERTIFICATE {seal.certificate}\n".encode()) or last != f"SHA256 {digest(body)}\n".encode():
        why = "is no certificate with this number"
    else:
        return True
    report.refuse(seal.folder.name, f"{name} {why}", word)
    return False
