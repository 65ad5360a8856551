"""The records that a run sent to an archive, as its certificate lists them."""
import re

ENTRY = re.compile(rb"^ENTRY\t([1-9][0-9]{0,9})\tsent\t", re.MULTILINE)


def records_sent(certificate: bytes) -> frozenset[int]:
    return frozenset(int(it) for it in ENTRY.findall(certificate))
