"""Whose files of the vault a content may name: those that its name put in itself, or may read in a record.

Who knows the digest of a file does not have the file. The vault reports an upload once its bytes are there and have
their digest, so the journal's line `stored` shows that the name had them. The line `put` is written before the first
byte, and shows nothing.
"""
import asyncio
import sqlite3
import time
from dataclasses import dataclass

from office_common import manifest

from office_gate.access import Person
from office_gate.body import Json
from office_gate.contents import decoded
from office_gate.errors import Answered
from office_gate.scopes import Asking

GRACE = 86_400.0
"""seconds after a PUT within which a record has to name the file: the grace of the sweeps"""
SWEPT = 1.5 * GRACE
"""seconds after which a file that no record names is gone"""
MOST_RECORDS, MOST_ASKED = 8, 64
"""the records that are asked for one file, and for one list of acts; whoever needs more puts the file in again"""
TABLES = """
CREATE TABLE IF NOT EXISTS stored (digest TEXT, name TEXT, at REAL, bytes INTEGER, PRIMARY KEY (digest, name));
CREATE INDEX IF NOT EXISTS stored_by ON stored(name, at);
CREATE INDEX IF NOT EXISTS stored_at ON stored(at);
CREATE TABLE IF NOT EXISTS named (digest TEXT, record INTEGER, PRIMARY KEY (digest, record)) WITHOUT ROWID;
"""
UNNAMED = """
SELECT coalesce(sum(bytes), 0) FROM stored WHERE name = ? AND at > ?
  AND NOT EXISTS (SELECT 1 FROM named WHERE named.digest = stored.digest)"""


@dataclass(frozen=True)
class Naming:
    """The digests that the content of one act names."""

    place: int
    digests: list[str]


def named_in(acts: list[Json]) -> list[Naming]:
    """Lists what the contents of acts name, as the vault's own reading of a manifest has it, slips included."""
    namings = []
    for place, act in enumerate(acts):
        data = decoded(act.get("content")) if act["act"] == "add-record" else None
        if data and (names := manifest.keeps(data).names):
            namings.append(Naming(place, [digest for digest, _ in names]))
    return namings


class Files:
    """The tables of files, among the facts: who put which file in, and which records name it."""

    def __init__(self, db: sqlite3.Connection) -> None:
        self.db = db
        self.is_new = not db.execute("SELECT 1 FROM sqlite_schema WHERE name = 'stored'").fetchone()
        db.executescript(TABLES)

    def forget(self) -> None:
        self.db.execute("DELETE FROM stored")
        self.db.execute("DELETE FROM named")

    def store(self, name: str, digest: str, length: int, at: float) -> None:
        """Notes that a name put a file in. What the sweeps removed meanwhile is forgotten."""
        self.db.execute("DELETE FROM stored WHERE at < ?", (time.time() - SWEPT,))
        self.db.execute("INSERT OR REPLACE INTO stored VALUES (?, ?, ?, ?)", (digest, name, at, length))

    def take(self, entry: Json, at: float) -> None:
        """Takes a line `stored` of the journal."""
        if at > time.time() - SWEPT:
            self.store(str(entry["name"]), str(entry["request"])[-64:], int(entry["bytes"]), at)

    def fold(self, request: Json, answers: object) -> None:
        """Notes which records name the files of a request, of its line and its answers."""
        for file in request.get("files") or []:
            answer = answers[file["place"]] if isinstance(answers, list) and file["place"] < len(answers) else None
            if isinstance(answer, dict) and type(answer.get("number")) is int:
                self.db.executemany("INSERT OR IGNORE INTO named VALUES (?, ?)",
                                    [(digest, answer["number"]) for digest in file["sha256"]])

    def unnamed(self, name: str) -> int:
        """Returns how many bytes a name has in the vault that no record names, as far as the journal says."""
        count: int = self.db.execute(UNNAMED, (name, time.time() - SWEPT)).fetchone()[0]
        return count

    def has(self, name: str, digest: str) -> bool:
        """Returns whether a name put a file in within the grace."""
        query = "SELECT 1 FROM stored WHERE digest = ? AND name = ? AND at > ?"
        return self.db.execute(query, (digest, name, time.time() - GRACE)).fetchone() is not None

    def records(self, digest: str) -> list[int]:
        """Lists records that named a file, the newest first."""
        query = "SELECT record FROM named WHERE digest = ? ORDER BY record DESC LIMIT ?"
        return [number for (number,) in self.db.execute(query, (digest, MOST_RECORDS))]


class Possession:
    """The rule for one list of acts of one name."""

    def __init__(self, files: Files, person: Person, asking: Asking) -> None:
        self.files, self.person, self.asking = files, person, asking
        self.readable: dict[int, bool] = {}

    async def judge(self, acts: list[Json]) -> list[Json]:
        """Refuses a content that names a file which is not the name's. Returns what the journal has of the files."""
        if all(act["act"] != "add-record" for act in acts):
            return []
        namings = await asyncio.to_thread(named_in, acts)
        for naming in namings:
            for digest in naming.digests:
                if not self.files.has(self.person.name, digest) and not await self.may_read(digest):
                    raise Answered(403, "file", place=naming.place, sha256=digest)
        return [{"place": naming.place, "sha256": naming.digests} for naming in namings]

    async def may_read(self, digest: str) -> bool:
        """Returns whether the name may read a file in some record that has its content."""
        if not self.person.may("read contents"):
            return False
        for number in self.files.records(digest):
            if await self.may_read_in(number):
                return True
        return False

    async def may_read_in(self, number: int) -> bool:
        if number not in self.readable:
            if len(self.readable) >= MOST_ASKED:
                return False
            record = await self.asking(number)
            self.readable[number] = record is not None and record["status"] != "ended" and \
                self.person.may_in("read contents", record["class"], record["status"])
        return self.readable[number]
