"""Makes an office of a bag: row for row, opened by the program, exported again, and only then with its name."""
import contextlib
import sqlite3
import subprocess
from collections.abc import Iterator
from hashlib import sha256
from pathlib import Path
from typing import Any

from office_common import files, program
from office_common.errors import IMPOSSIBLE, WRONG, Refused

from office_exchange import bag, certificates, kinds, seals, sources
from office_exchange.bag import Comparer
from office_exchange.exporting import export
from office_exchange.sources import Source, object_in
from office_exchange.tables import COUNTED, LACKING, NAME, TABLES, VERSION, Table, WrongLine, row_from, value_of

LONGEST_LINE = 1 << 16
"""bytes; no line of the form is longer"""
FAST = "PRAGMA journal_mode = OFF; PRAGMA synchronous = OFF; BEGIN"
"""the file is thrown away unless it is whole"""
CERTIFICATE = "INSERT INTO certificates VALUES (?, CAST(zeroblob(?) AS TEXT))"


def read_lines(folder: Path, name: str) -> Iterator[bytes]:
    """Reads the lines of a file of a bag."""
    try:
        with (folder / name).open("rb") as file:
            yield from iter(lambda: file.readline(LONGEST_LINE), b"")
    except FileNotFoundError:
        raise bag.differs(f"the bag has no {name}") from None


def read_office(folder: Path) -> dict[str, Any]:
    """Reads the line of the office. Refused says that the bag is of another form."""
    line = b"".join(read_lines(folder, "data/office.json"))
    try:
        value = value_of(line)
    except WrongLine as error:
        raise bag.differs(f"data/office.json: {error}") from error
    if (value.get("form"), value.get("version")) != (NAME, VERSION):
        raise bag.differs(f"the bag is of the form {value.get('form')} {value.get('version')}, and not {NAME} {VERSION}")
    counts = value.get("counts")
    if set(value) != {"form", "version", "day", "counts"} or not kinds.is_day(value["day"]) or \
            not isinstance(counts, dict) or set(counts) != set(COUNTED):
        raise bag.differs("data/office.json has other members")
    return value


def rows(folder: Path, form: Table) -> Iterator[list[Any]]:
    """Reads the rows of a table."""
    for number, line in enumerate(read_lines(folder, f"data/{form.name}.jsonl"), 1):
        try:
            yield row_from(form, line)
        except WrongLine as error:
            raise bag.differs(f"data/{form.name}.jsonl, line {number}: {error}") from error


def contents(folder: Path, tables: sqlite3.Connection) -> Iterator[tuple[int, bytes]]:
    """Reads the content of each record that is not ended."""
    query = "SELECT num, digest, size FROM records WHERE status <> 'ended' ORDER BY num"
    for record, digest, size in tables.execute(query):
        path = object_in(folder / "data/contents", digest)
        data = b"" if path is None else path.read_bytes()
        if path is None or len(data) != size or sha256(data).hexdigest() != digest:
            raise bag.differs(f"the bag has not the content of record {record}: no office is made without it")
        yield record, data


def check_whole(folder: Path) -> None:
    """Refuses a bag that lacks a content."""
    lacking = [record for record, _, what in rows(folder, LACKING) if what == "content"]
    if lacking:
        shown = ", ".join(map(str, lacking[:5])) + (", .." if len(lacking) > 5 else "")
        raise bag.differs(f"contents that were damaged at the export: {len(lacking)}, of records {shown}: no office is "
                          "made without them")


def fill(file: Path, folder: Path, day: str) -> None:
    """Puts the rows of a bag into an empty office."""
    with contextlib.closing(sqlite3.connect(file, isolation_level=None)) as tables:
        tables.executescript(FAST)
        try:
            tables.execute("UPDATE office SET day = ?", (kinds.number_of(day),))
            for form in TABLES:
                tables.executemany(form.insertion(), rows(folder, form))
            tables.executemany("INSERT INTO contents VALUES (?, ?)", contents(folder, tables))
            put_certificates(tables, folder)
        except (sqlite3.IntegrityError, OverflowError) as error:
            raise bag.differs(f"the lines are those of no office: {error}") from error
        tables.execute("COMMIT")
        tables.execute("PRAGMA journal_mode = WAL")


def put_certificates(tables: sqlite3.Connection, folder: Path) -> None:
    """Puts the certificates into their table, part by part: one may have an entry for each record."""
    place = folder / "data/certificates"
    for path in sorted(place.iterdir()) if place.is_dir() else []:
        if not path.stem.isascii() or not path.stem.isdigit():
            raise bag.differs(f"data/certificates/{path.name} is no certificate")
        tables.execute(CERTIFICATE, (int(path.stem), path.stat().st_size))
        with path.open("rb") as file, tables.blobopen("certificates", "body", int(path.stem)) as body:
            for part in bag.parts_of(file):
                body.write(part)


def init(path: str, file: Path) -> str:
    """Has the program open a file, and make it if it is missing. Returns what the program says if it does not."""
    done = subprocess.run([path, "init", str(file)], stdin=subprocess.DEVNULL, stdout=subprocess.DEVNULL,
                          stderr=subprocess.PIPE, text=True, errors="replace", check=False)
    if not done.returncode:
        return ""
    return " ".join(done.stderr.split()) or f"status {done.returncode}"


def opened(path: str, file: Path) -> None:
    """Has the program open a file. Refused has the program's message if the file is no office."""
    if message := init(path, file):
        raise Refused(WRONG, f"the lines are those of no office: {path}: {message}")
    if files.has_acts(files.log_of(file)):
        raise Refused(IMPOSSIBLE, f"{path} did not close the new office: is the disk full?")


def compare(file: Path, folder: Path) -> None:
    """Compares the certificates with the entries of the new office. Then exports that, and compares each byte with the
    bag."""
    with sources.opened(file) as tables:
        for sentence in certificates.faults(folder, tables):
            raise bag.differs(sentence)
        source = Source(tables, lambda digest: object_in(folder / "data/files", digest), sources.attached_in(folder))
        export(source, Comparer(folder))


def make(folder: Path, file: Path, signers: Path | None) -> list[str]:
    """Makes the office of a bag in a new file, and returns what the bag does not prove."""
    path = program.find()
    bag.verify(folder).close()
    office = read_office(folder)
    check_whole(folder)
    notes = seals.compare(folder, signers)
    if message := init(path, file):
        raise Refused(IMPOSSIBLE, f"{path} makes no office in {file.parent}: {message}")
    fill(file, folder, office["day"])
    opened(path, file)
    compare(file, folder)
    files.sync(file)
    return notes
