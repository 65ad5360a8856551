"""Who signed a seal: a key of the office's own, on a day of that key, and none that was withdrawn."""
from __future__ import annotations

import argparse
from typing import Union

from transferring.verifying.cades import Cades
from transferring.verifying.report import FORGED, WITHDRAWN, Report
from transferring.verifying.seal import Seal
from transferring.verifying.ssh import Ssh
from transferring.verifying.stamp import Stamp
from transferring.verifying.tools import UTC

Signature = Union[Ssh, Cades]


def signatures_of(seal: Seal, options: argparse.Namespace, report: Report) -> list[Signature]:
    """Returns the signatures of a seal that can be verified. There is one by ssh-keygen if there is no other."""
    has_cades = (seal.folder / Cades.file).exists()
    # a certificate that is missing is reported as such
    has_text = (seal.folder / f"certificate-{seal.certificate}.txt").exists()
    signatures: list[Signature] = []
    if (seal.folder / Ssh.file).exists() or not has_cades:
        signatures.append(Ssh(seal, options.signers))
    if has_cades and has_text and options.certificates is not None:
        signatures.append(Cades(seal, options.certificates))
    report.unread += has_cades and options.certificates is None
    if not signatures and options.certificates is None:
        report.wrong.append(f"{seal.folder.name}: its one signature is CAdES: give --certificates")
    return signatures


def is_signed(signature: Signature, stamp: Stamp | None, options: argparse.Namespace, report: Report) -> bool:
    """Returns whether one of the signers signed a seal, on a day of that key, and the key was not withdrawn.

    The stamp says which day it was. Without one that proves it AT does, and the order of the chain: a key that has
    ended does not come again after another key's seal.
    """
    seal, key = signature.seal, signature.key()
    name = seal.folder.name
    if not key:
        report.refuse(name, "the signature is not of this seal", FORGED)
        return False
    if key in options.gone:
        sentence = f"certificate {seal.certificate} is signed by a key that was withdrawn: {key}"
        report.withdrawn.setdefault((seal.certificate, seal.digest), []).append((name, sentence))
        return False
    is_late = seal.number in options.late
    moment = seal.moment() if stamp is None or is_late else stamp.moment
    is_known, output = signature.may_sign(moment)
    if not is_known:
        report.refuse(name, f"the key {key} may not sign for {seal.office} at {moment:{UTC}}: "
                            f"{output.splitlines()[0] if output else 'unknown'}", signature.word(moment, report.office))
        return False
    keys = report.keys.setdefault(signature.file, [])
    is_back = key in keys[:-1] and key != keys[-1]
    is_proved = stamp is not None and stamp.is_proved and not is_late
    if is_back and not is_proved and not signature.may_sign(options.now)[0]:
        report.refuse(name, f"the key {key} has ended, and signs again after a seal of another key", WITHDRAWN)
        return False
    if not keys or keys[-1] != key:
        keys.append(key)
    return True
