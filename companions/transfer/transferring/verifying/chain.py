"""All seals of a folder, in their order, and what only all of them together show."""
from __future__ import annotations

import argparse
import datetime

from transferring.verifying import renewal, stamp
from transferring.verifying.report import FOREIGN, WITHDRAWN, Report
from transferring.verifying.seal import Seal, is_text_good, seal_in
from transferring.verifying.signature import Signature, is_signed, signatures_of
from transferring.verifying.stamp import Stamp
from transferring.verifying.tools import DAY, UTC, digest

WHYS = {"restored": "sealed again with another text after a backup was restored",
        "key": "sealed again because a key was withdrawn"}


def look(options: argparse.Namespace) -> Report:
    """Looks at each seal in turn, to the first break of the chain."""
    report, before = Report(office=options.office_name or ""), "0" * 64
    renewals = renewal.judged(options.seals, options.trust, report)
    folders = sorted(folder for folder in options.seals.iterdir()
                     if not folder.name.startswith(".") and folder.name != renewal.FOLDER)
    for at, folder in enumerate(folders, 1):
        seal = seal_in(folder, at, before, report)
        if seal is None:
            break
        report.count, before = at, digest((folder / "seal.txt").read_bytes())
        report.last = f"{at}, SHA-256 {before}"
        report.office = report.office or seal.office
        signatures = signatures_of(seal, options, report)
        is_good = is_in_order(seal, signatures, options, report) & is_text_good(seal, report) & bool(signatures)
        for signature in signatures:
            stamped = stamp.stamp_of(signature, options.trust, renewals, report) if options.trust is not None else None
            is_good &= is_near(seal, stamped, options, report) & is_signed(signature, stamped, options, report)
        texts = report.texts.setdefault(seal.certificate, [])
        if seal.digest not in texts:
            texts.append(seal.digest)
        if is_good:
            report.good.add((seal.certificate, seal.digest))
        if seal.why in WHYS:
            report.notes.append(f"{folder.name}: certificate {seal.certificate} is {WHYS[seal.why]}")
    return report


def is_in_order(seal: Seal, signatures: list[Signature], options: argparse.Namespace, report: Report) -> bool:
    """Returns whether a seal is of the office of its chain, no earlier than the seal before it, and not of tomorrow."""
    wrong, name = len(report.wrong), seal.folder.name
    if seal.office != report.office:
        report.refuse(name, f"the seal is of the office {seal.office}, and not of {report.office}", FOREIGN)
    if seal.at < report.at:
        # it was made after the seal before it, whatever it says, and before now
        made = min(datetime.datetime.strptime(report.at, UTC), options.now)
        is_over = any(signature.has_ended(made) for signature in signatures)
        report.refuse(name, f"AT {seal.at} is before {report.at}, which the seal before it has", WITHDRAWN if is_over else "")
    if options.trust is None and seal.moment() > options.now + DAY:
        report.wrong.append(f"{name}: AT {seal.at} has not come yet")
    compare_heads(seal, report)
    report.at = seal.at
    return wrong == len(report.wrong)


def compare_heads(seal: Seal, report: Report) -> None:
    """Compares the line of the gate's journal that a seal names with the one that a seal before named."""
    line, head, before = report.journal
    if seal.line and line and (seal.line < line or (seal.line == line and seal.head != head)):
        report.wrong.append(f"{seal.folder.name}: the gate's journal ended with line {seal.line} then, and with "
                            f"{'line ' + str(line) if seal.line < line else 'another such line'} at seal {before}")
    if seal.line:
        report.journal = (seal.line, seal.head, seal.folder.name)


def is_near(seal: Seal, stamped: Stamp | None, options: argparse.Namespace, report: Report) -> bool:
    """Returns whether AT is within a day of the stamp, or the auditor knows that the stamp came late."""
    gap = stamped.moment - seal.moment() if stamped else datetime.timedelta(0)
    is_good = abs(gap) <= DAY or (gap > DAY and seal.number in options.late)
    if stamped and not is_good:
        report.wrong.append(f"{seal.folder.name}: AT {seal.at} is more than a day from its stamp, {stamped.moment:{UTC}}")
    return is_good


def conclude(report: Report, restored: list[int]) -> None:
    """Reports what only all seals together show: keys that were withdrawn, numbers that lack, two texts of one number."""
    for text, sentences in report.withdrawn.items():
        for seal, sentence in sentences:
            # a later seal by another key makes up for it
            if text in report.good:
                report.notes.append(f"{seal}: {sentence}")
            else:
                report.refuse(seal, sentence, WITHDRAWN)
    for before, number in zip([0, *sorted(report.texts)], sorted(report.texts)):
        if number > before + 1:
            to = f" to {number - 1}" if number > before + 2 else ""
            report.wrong.append(f"certificate {before + 1}{to} has no seal")
    for number, texts in report.texts.items():
        if len(texts) > 1:
            sentence = f"certificate {number} has {len(texts)} texts, the last is {texts[-1]}: ask why"
            (report.notes if number in restored else report.wrong).append(sentence)
    if report.journal[0]:
        line, head, seal = report.journal
        report.notes.append(f"{seal}: line {line} of the gate's journal is {line}:{head}")
    if report.unread:
        report.notes.append(f"{report.unread} CAdES signatures were not verified: give --certificates")
    if not report.count:
        report.wrong.append("there is no seal")
