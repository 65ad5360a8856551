"""The certificates that an office gives today, beside those that are sealed."""
from __future__ import annotations

import argparse
import base64
import ssl
import urllib.error
import urllib.request

from transferring.verifying.report import Report
from transferring.verifying.tools import Untried, digest

SECONDS = 300


def compare(options: argparse.Namespace, report: Report) -> None:
    """Compares each certificate of the office with the last text that was sealed of its number."""
    number = 1
    while (text := certificate_of(options, number)) is not None:
        texts = report.texts.get(number)
        if texts is None:
            report.wrong.append(f"certificate {number} of the office is not sealed")
        elif digest(text) != texts[-1]:
            report.wrong.append(f"certificate {number} of the office is not the sealed one")
        number += 1
    for beyond in sorted(other for other in report.texts if other >= number):
        report.wrong.append(f"certificate {beyond} is sealed, and the office has none of this number")


def certificate_of(options: argparse.Namespace, number: int) -> bytes | None:
    """Asks the office for a certificate; None if it has none of this number."""
    address = f"{options.office.rstrip('/')}/certificates/{number}"
    request = urllib.request.Request(address)
    if options.login is not None:
        name = options.login.read_text().strip().encode()
        request.add_header("Authorization", "Basic " + base64.b64encode(name).decode())
    trusted = ssl.create_default_context(cafile=options.cacert) if address.startswith("https:") else None
    try:
        with urllib.request.urlopen(request, timeout=SECONDS, context=trusted) as answer:
            return bytes(answer.read())
    except urllib.error.HTTPError as why:
        if why.code == 404 and why.read(200) == b'{"error":"certificate"}':
            return None
        raise Untried(f"{address} answers {why.code}") from why
    except (OSError, ValueError) as why:
        raise Untried(f"{address} does not answer: {why}") from why
