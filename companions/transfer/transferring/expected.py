"""What an archive must confirm of a bag or package: each content, and each large file of its manifest."""
from __future__ import annotations

import csv
import hashlib
import io
from dataclasses import dataclass, replace
from pathlib import Path

from transferring import bag, package
from office_common.errors import USAGE, WRONG, Refused

# where the tables are in a bag, and in a package
PLACES = ("metadata", "metadata/descriptive")


@dataclass(frozen=True)
class Part:
    """A file of a record: its path in the bag, which is empty if the bag lacks it, its digest, and the sum in the list.

    The list has the digest, or what answers a challenge; then it has nothing of a file that the bag lacks.
    """

    path: str
    digest: str
    answer: str


@dataclass(frozen=True)
class Sent:
    """A record of the bag: the first of its parts is its content, of which a receipt names the digest."""

    number: int
    ref: str
    parts: tuple[Part, ...]


def read(at: Path) -> list[Sent]:
    """Reads the tables of a bag or package, which must be those that its manifests seal."""
    base = next((at / it for it in PLACES if (at / it / "records.csv").is_file()), None)
    if base is None:
        raise Refused(USAGE, f"{at} is no bag or package of office-transfer: it lacks records.csv")
    sealed = sealed_in(at)
    larges: dict[int, list[Part]] = {}
    if (base / "files.csv").is_file():
        for row in rows(at, base / "files.csv", sealed):
            larges.setdefault(int(row["record"]), []).append(part_in(row))
    records = [Sent(int(row["record"]), row["ref"],
                    (part_in(row), *larges.get(int(row["record"]), [])))
               for row in rows(at, base / "records.csv", sealed)]
    if not records:
        raise Refused(WRONG, f"{at} has no records")
    return records


def part_in(row: dict[str, str]) -> Part:
    return Part(row["path"], row["sha256"], row["sha256"])


def proved(at: Path, sent: list[Sent], challenge: str) -> list[Sent]:
    """Returns what was sent with the answers to a challenge, which the files of the bag give."""
    return [replace(record, parts=tuple(replace(it, answer=answer_of(at, it, challenge)) for it in record.parts))
            for record in sent]


def answer_of(at: Path, part: Part, challenge: str) -> str:
    """Returns the SHA-256 of a challenge followed by a file, which has to be the one that was sent."""
    if not part.path:
        return ""
    plain, answer = hashlib.sha256(), hashlib.sha256(challenge.encode())
    try:
        with (at / part.path).open("rb") as file:
            while block := file.read(1 << 20):
                plain.update(block)
                answer.update(block)
    except OSError as why:
        raise Refused(WRONG, f"{at / part.path} cannot be read: the answer to the challenge is compared with the files: "
                             f"{why}") from why
    if plain.hexdigest() != part.digest:
        raise Refused(WRONG, f"{at / part.path} was changed after it was written")
    return answer.hexdigest()


def sealed_in(at: Path) -> dict[str, str]:
    """Returns the digests of the files of metadata."""
    try:
        return bag.listed(at, bag.MANIFESTS[1]) if (at / "bagit.txt").is_file() else package.metadata(at)
    except (OSError, ValueError, SyntaxError) as why:
        raise Refused(WRONG, f"the manifests of {at} cannot be read: {why}") from why


def rows(at: Path, file: Path, sealed: dict[str, str]) -> list[dict[str, str]]:
    data = file.read_bytes()
    if hashlib.sha256(data).hexdigest() != sealed.get(file.relative_to(at).as_posix()):
        raise Refused(WRONG, f"{file} was changed after it was written")
    try:
        return list(csv.DictReader(io.StringIO(data.decode(), newline="")))
    except (UnicodeDecodeError, csv.Error) as why:
        raise Refused(WRONG, f"{file} cannot be read: {why}") from why
