"""The payload of a transfer: each content under a name that people can read, and what is said of it in tables."""
from __future__ import annotations

import csv
import io
from dataclasses import dataclass, field

from office_common.manifest import Named, read

from transferring import large
from transferring.catalogue import Aggregation, Aggregations
from transferring.certificate import Certificate
from office_common.errors import IMPOSSIBLE, WRONG, Refused
from transferring.folder import File, Folder
from transferring.kinds import FIRST, Kind, kind_of
from transferring.names import file_name, record_name, stem
from transferring.office import Office
from transferring.sent import Record, sent

RECORDS = ("record,ref,title,originated,added,aggregation,aggregation_ref,aggregation_title,class,schedule,due,"
           "confirmed_by,sha256,length,path").split(",")
FILES = "record,ref,file,sha256,length,place,path".split(",")
LACKING = "record,ref,file,sha256,why".split(",")
CSV, PLAIN = "text/csv", "text/plain"


@dataclass
class Payload:
    """The rows of the tables, and the files of each record."""

    records: list[list[object]] = field(default_factory=list)
    files: list[list[object]] = field(default_factory=list)
    lacking: list[list[object]] = field(default_factory=list)
    # the label of each record with its files, for a package
    groups: list[tuple[str, list[File]]] = field(default_factory=list)


@dataclass(frozen=True)
class Sources:
    """Who is asked: the office, its vault, and its catalogue, which may be missing."""

    office: Office
    vault: Office
    aggregations: Aggregations | None


def fill(folder: Folder, sources: Sources, of: Certificate, base: str) -> Payload:
    """Writes all that the run sent and is still there below `base`; what is gone is a row of what is lacking."""
    payload = Payload()
    for record, content in sent(sources.office, of):
        if record.gone:
            entry = record.entry
            payload.lacking.append([entry.record, entry.ref, 0, entry.digest, record.gone])
        else:
            put_record(folder, sources, record, content, base, payload)
    if not payload.records:
        why = "".join(f"; record {it[0]}, {it[1]}: {it[4]}" for it in payload.lacking[:20])
        raise Refused(WRONG, f"run {of.run} sent nothing that is still there{why}")
    return payload


def put_record(folder: Folder, sources: Sources, record: Record, content: bytes, base: str, payload: Payload) -> None:
    """Writes one content. A manifest gets a folder, together with the files that it names."""
    entry = record.entry
    larges = read(content) or []
    kind = Kind(".txt", PLAIN) if larges else kind_of(content, entry.ref, record.title)
    own = f"{base}/{stem(entry.record, entry.ref, record.title)}"
    name = f"{own}/manifest.txt" if larges else f"{base}/{record_name(entry.record, entry.ref, record.title, kind)}"
    file = folder.put(name, [content], kind.media)
    if file.digest != entry.digest:
        raise Refused(WRONG, f"the content of record {entry.record} is not the one of the certificate")
    payload.records.append([entry.record, entry.ref, record.title, record.originated, record.added, record.aggregation,
                            *aggregation_of(sources, record), entry.class_code, entry.schedule, entry.due,
                            entry.confirmed_by, file.digest, file.length, file.name])
    files = [file]
    for at, named in enumerate(larges, 1):
        put = put_large(folder, sources, record, at, named, own)
        name = put.name if put else ""
        payload.files.append([entry.record, entry.ref, at, named.digest, named.length, named.place, name])
        if put is None:
            payload.lacking.append([entry.record, entry.ref, at, named.digest, f"the vault lacks it: {named.place}"])
        else:
            files.append(put)
    payload.groups.append((f"{entry.ref}: {record.title}", files))


def put_large(folder: Folder, sources: Sources, record: Record, at: int, named: Named, own: str) -> File | None:
    """Writes a large file from the vault; None if the vault lacks it."""
    parts = large.fetched(sources.vault, record.entry.record, at)
    if parts is None:
        return None
    first = next(parts, b"")
    kind = kind_of(first[:FIRST], named.place)
    file = folder.put(f"{own}/{file_name(at, named.place, kind)}", (part for rest in ([first], parts) for part in rest),
                      kind.media)
    if file.digest != named.digest or file.length != named.length:
        raise Refused(WRONG, f"file {at} of record {record.entry.record} is not the one of its manifest: the vault has "
                             "it damaged")
    return file


def aggregation_of(sources: Sources, record: Record) -> list[object]:
    """Returns the ref and the title of a record's aggregation; empty if the caller goes without a catalogue."""
    if sources.aggregations is None:
        return ["", ""]
    aggregation: Aggregation | None = sources.aggregations.get(record.aggregation)
    if aggregation is None:
        raise Refused(IMPOSSIBLE, f"the catalogue lacks aggregation {record.aggregation}: is it older, or of another "
                                  "office?")
    return [aggregation.ref, aggregation.title]


def table(columns: list[str], rows: list[list[object]]) -> bytes:
    out = io.StringIO()
    csv.writer(out, lineterminator="\n").writerows([columns, *rows])
    return out.getvalue().encode()


def tables(payload: Payload) -> dict[str, bytes]:
    """Returns the tables of a transfer, by their names: files and what is lacking only if there are any."""
    every = {"records.csv": (RECORDS, payload.records), "files.csv": (FILES, payload.files),
             "lacking.csv": (LACKING, payload.lacking)}
    return {name: table(columns, rows) for name, (columns, rows) in every.items() if rows}
