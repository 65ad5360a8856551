"""Writes an office into a bag: its lines, its contents, the files of its vault, certificates, and what lies beside it."""
import hashlib
import json
from collections.abc import Iterator
from typing import NamedTuple

from office_common import manifest
from office_common.errors import WRONG, Refused

from office_exchange import bag, kinds, readme
from office_exchange.bag import Sink
from office_exchange.sources import Source, foreign, is_plain
from office_exchange.tables import COUNTED, LACKING, NAME, OFFICE, TABLES, VERSION, Table, WrongLine, line_from, line_of

HERE = "FROM records WHERE status <> 'ended'"
CONTENTS = f"SELECT num, digest, size {HERE} ORDER BY digest, num"
CONTENT = "SELECT bytes FROM contents WHERE record = ?"
NAMED = """CREATE TEMP TABLE named(digest TEXT, record INTEGER, is_sure INTEGER, PRIMARY KEY (digest, record)) WITHOUT ROWID;
CREATE TEMP TABLE lacks(record INTEGER, digest TEXT, what TEXT, PRIMARY KEY (record, what, digest)) WITHOUT ROWID"""
FILES = "SELECT digest, max(is_sure) FROM temp.named GROUP BY digest ORDER BY digest"
LACKS = "INSERT INTO temp.lacks SELECT record, digest, 'file' FROM temp.named WHERE digest = ? AND is_sure"


class Outcome(NamedTuple):
    """What came of an export: how many there are of each, and a sentence for each thing that is not in the bag."""

    counts: dict[str, int]
    lacking: list[str]
    total: int
    """the things that are not in the bag, also those without a sentence"""
    lacks_files: bool


class Export:
    """An export of an office: what it has counted, and what it could not take."""

    MOST_NAMED = 1000
    """the sentences that are kept; the others are counted"""

    def __init__(self, source: Source, sink: Sink) -> None:
        self.source, self.tables, self.sink = source, source.tables, sink
        self.counts = dict.fromkeys(COUNTED, 0)
        self.lacking: list[str] = []
        self.total = 0
        self.tables.executescript(NAMED)

    def lack(self, sentence: str) -> None:
        """Notes a thing that is not in the bag."""
        self.total += 1
        if len(self.lacking) < self.MOST_NAMED:
            self.lacking.append(sentence)

    # ---- lines

    def rows(self, form: Table) -> Iterator[bytes]:
        """Writes the lines of a table."""
        for row in self.tables.execute(form.query()):
            self.counts[form.name] += 1
            try:
                yield line_from(form, row)
            except WrongLine as error:
                raise Refused(WRONG, f"{form.name}, row {self.counts[form.name]}: {error}: office init says more") from error

    def put_lines(self) -> None:
        for form in TABLES:
            self.sink.put(f"data/{form.name}.jsonl", self.rows(form))

    # ---- contents and files

    def put_contents(self) -> None:
        """Puts each content into the bag once, and notes what its manifest names."""
        last = ""
        for record, digest, size in self.tables.execute(CONTENTS):
            row = self.tables.execute(CONTENT, (record,)).fetchone()
            data = b"" if row is None else row[0]
            if row is None or len(data) != size or hashlib.sha256(data).hexdigest() != digest:
                self.tables.execute("INSERT INTO temp.lacks VALUES (?, ?, 'content')", (record, digest))
                self.lack(f"record {record}: its content is damaged")
                continue
            if digest != last:
                self.sink.put(f"data/contents/{digest[:2]}/{digest}", [data])
                self.counts["contents"] += 1
                last = digest
            self.note(record, data)

    def note(self, record: int, data: bytes) -> None:
        """Notes the objects of the vault that a content names."""
        kept = manifest.keeps(data)
        self.tables.executemany("INSERT OR IGNORE INTO temp.named VALUES (?, ?, ?)",
                                ((digest, record, kept.is_sound) for digest, _ in kept.names))
        if not kept.is_sound:
            self.lack(f"record {record}: its content begins as a manifest and is none; office-vault check says more")

    def put_files(self) -> None:
        """Puts the objects of the vault that contents name into the bag."""
        for digest, is_sure in self.tables.execute(FILES):
            path = self.source.object_of(digest)
            if path is None or bag.digest_of(path) != digest:
                if is_sure:
                    self.tables.execute(LACKS, (digest,))
                    self.lack(f"the file {digest} of the vault is {'missing' if path is None else 'damaged'}")
                continue
            with path.open("rb") as file:
                written = self.sink.put(f"data/files/{digest[:2]}/{digest}", bag.parts_of(file))
            if written != digest:
                raise Refused(WRONG, f"the file {digest} of the vault changed while it was read")
            self.counts["files"] += 1

    def put_lacking(self) -> None:
        def lines() -> Iterator[bytes]:
            for row in self.tables.execute("SELECT record, digest, what FROM temp.lacks ORDER BY record, what, digest"):
                self.counts["lacking"] += 1
                yield line_from(LACKING, row)
        self.sink.put("data/lacking.jsonl", lines())

    # ---- certificates, and what lies beside the office

    def put_certificates(self) -> None:
        for run, in self.tables.execute("SELECT run FROM certificates ORDER BY run"):
            with self.tables.blobopen("certificates", "body", run, readonly=True) as body:
                self.sink.put(f"data/certificates/{run}.txt", bag.parts_of(body))
            self.counts["certificates"] += 1

    def put_attached(self) -> None:
        for name, path in self.source.attached:
            if not is_plain(name):
                self.lack(f"{path.parent}: a name in it cannot be in a manifest: {name!r}")
                continue
            with path.open("rb") as file:
                self.sink.put(f"data/{name}", bag.parts_of(file))

    def put_office(self, day: str) -> None:
        value = {"form": NAME, "version": VERSION, "day": day, "counts": self.counts}
        self.sink.put("data/office.json", [line_of(value)])


def export(source: Source, sink: Sink) -> Outcome:
    """Exports an office. The same office gives the same bytes, at any time and on any machine."""
    work = Export(source, sink)
    day = kinds.day_of(source.tables.execute("SELECT day FROM office").fetchone()[0])
    if not kinds.is_day(day):
        raise Refused(WRONG, f"the office's day is {day}: office init says more")
    for step in (work.put_lines, work.put_contents, work.put_files, work.put_lacking, work.put_certificates,
                 work.put_attached):
        step()
    work.put_office(str(day))
    bag.finish(sink, [("External-Description", f"A whole records disposal office, {NAME} {VERSION}"),
                      ("Bagging-Date", str(day))],
               [("README.txt", readme.TEXT.encode()), ("schema.json", schemas())])
    for name in foreign(source.tables):
        work.lack(f"{name} is no part of an office")
    lacks_files = source.tables.execute("SELECT count(*) FROM temp.lacks WHERE what = 'file'").fetchone() != (0,)
    return Outcome(work.counts, work.lacking, work.total, lacks_files)


def schemas() -> bytes:
    """Writes the JSON Schemas of all lines, by the names of their files."""
    lines = {f"data/{form.name}.jsonl": form.schema() for form in (*TABLES, LACKING)}
    whole = {"$schema": "https://json-schema.org/draft/2020-12/schema", "data/office.json": OFFICE, **lines}
    return (json.dumps(whole, ensure_ascii=False, indent=1, sort_keys=True) + "\n").encode()

