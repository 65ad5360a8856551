"""What a run sent, as the office answers it: each record with its content, and those whose content is gone."""
from __future__ import annotations

from collections.abc import Iterator
from dataclasses import dataclass

from transferring import certificate
from transferring.certificate import Certificate, Entry
from office_common.errors import IMPOSSIBLE, WRONG, Refused
from transferring.office import Office


@dataclass(frozen=True)
class Record:
    """A record that a run sent: its entry in the certificate, and what the office reports of it now."""

    entry: Entry
    title: str
    originated: str
    added: str
    aggregation: int
    # why the content is gone; empty if it is there
    gone: str


def certificate_of(office: Office, run: int) -> Certificate:
    """Asks for the certificate of a run."""
    text = office.get(f"certificates/{run}")
    if text is None:
        raise Refused(WRONG, f"the office has no certificate of run {run}: it is not closed, or there is no such run")
    return certificate.read(text, run)


def sent(office: Office, of: Certificate) -> Iterator[tuple[Record, bytes]]:
    """Asks for each record that the run sent, with its content; the content is empty if it is gone."""
    for entry in of.entries:
        if entry.outcome == "sent":
            # the content first: if a run ends the record in between, the office says so of the record
            content = office.get(f"records/{entry.record}/content")
            if content is not None and len(content) != entry.length:
                raise Refused(WRONG, f"record {entry.record} has {len(content)} bytes and not the {entry.length} of the "
                                     "certificate")
            yield record_of(office, entry, content is None), content or b""


def record_of(office: Office, entry: Entry, is_gone: bool) -> Record:
    answer = office.json(f"records/{entry.record}")
    try:
        if answer["ref"] != entry.ref or answer["digest"] != entry.digest:
            raise Refused(WRONG, f"record {entry.record} of the office is not that of the certificate: was a backup "
                                 "restored?")
        ended = answer["ended"]
        if is_gone and ended is None:
            raise Refused(IMPOSSIBLE, f"record {entry.record} is not ended, and the office gives no content of it")
        gone = f"{ended['outcome']} by run {ended['run']}" if is_gone else ""
        return Record(entry, answer["title"], answer["originated"], answer["added"], int(answer["aggregation"]), gone)
    except (KeyError, TypeError, ValueError) as why:
        raise Refused(IMPOSSIBLE, f"what the office answers of record {entry.record} has another form: {why!r}") from why
