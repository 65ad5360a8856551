"""The time stamp of a seal: its moment, and whether the stamp or a renewal proves it today."""
from __future__ import annotations

import datetime
from dataclasses import dataclass
from typing import Union

from transferring.verifying import renewal, token
from transferring.verifying.cades import Cades
from transferring.verifying.renewal import Renewal
from transferring.verifying.report import Report
from transferring.verifying.ssh import Ssh
from transferring.verifying.token import FOREVER, Bad, Token, Verdict
from transferring.verifying.tools import UTC, data_of
from transferring.verifying.trust import Trust


@dataclass(frozen=True)
class Stamp:
    """The moment of a time stamp, and whether it is proved today."""

    moment: datetime.datetime
    is_proved: bool


def stamp_of(signature: Union[Ssh, Cades], trust: Trust, renewals: list[Renewal], report: Report) -> Stamp | None:
    """Returns the stamp that the authority gave a signature, judged at its own moment; None if it is no good one."""
    folder = signature.seal.folder
    name, file = folder.name, folder / signature.stamp
    if data_of(file) is None:
        report.wrong.append(f"{name}: there is no time stamp")
        return None
    try:
        verdict = token.judge(Token(file, folder / signature.file, "signature"), trust)
    except Bad as bad:
        report.refuse(name, str(bad), bad.word)
        return None
    report.notes.append(f"{name}: stamped {verdict.moment:{UTC}}")
    is_proved = is_proved_by(signature, with_text(signature, verdict, trust), renewals, report)
    report.stamps += is_proved
    report.expired += not is_proved
    return Stamp(verdict.moment, is_proved)


def with_text(signature: Union[Ssh, Cades], verdict: Verdict, trust: Trust) -> Verdict:
    """Returns the verdict with the end of the digest by which what is signed names the text of the certificate."""
    name = signature.text_digest
    end = trust.weak.get(name, FOREVER)
    return Verdict(verdict.moment, end, f"{name} is weak since {end:%Y-%m-%d}") if end < min(verdict.end, trust.now) else verdict


def is_proved_by(signature: Union[Ssh, Cades], verdict: Verdict, renewals: list[Renewal], report: Report) -> bool:
    """Returns whether a stamp is good today or a renewal covers it in time, and reports since when it proves nothing."""
    if verdict.end == FOREVER:
        return True
    name = signature.seal.folder.name
    files = {f"{name}/{file}" for file in (f"certificate-{signature.seal.certificate}.txt", "seal.txt", signature.file,
                                           signature.stamp)}
    cover = renewal.best(files, verdict.end, renewals)
    if cover is not None and cover.until == FOREVER:
        report.notes.append(f"{name}: {verdict.cause}; {cover.name} had renewed it by then")
        return True
    until = f"{max(verdict.end, cover.until if cover else verdict.end):%Y-%m-%d}"
    unless = f"; {cover.name} had renewed it, and is unproved since {until}" if cover else "; unproved from then on unless renewed"
    report.notes.append(f"{name}: {verdict.cause}{unless}")
    report.unproved[name] = min(until, report.unproved.get(name, until))
    return False
