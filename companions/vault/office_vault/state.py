"""What a vault remembers from sweep to sweep, in an SQLite file of its own beside the objects.

Digests and lengths of files that a record named stay after the record ended, as the office keeps its residue. So a
report can say why an object went. The places, which may say more, are not kept.
"""
import sqlite3
from collections.abc import Iterable, Iterator
from pathlib import Path

from office_common.manifest import Reading

from office_vault.objects import Stamp
from office_vault.offices import Metadata

TABLES = """
CREATE TABLE IF NOT EXISTS sweeps(number INTEGER PRIMARY KEY, began REAL NOT NULL, named INTEGER NOT NULL,
  waiting INTEGER NOT NULL) STRICT;
CREATE TABLE IF NOT EXISTS known(record INTEGER PRIMARY KEY, digest BLOB NOT NULL) STRICT;
CREATE TABLE IF NOT EXISTS naming(record INTEGER PRIMARY KEY, ref TEXT NOT NULL, run INTEGER, outcome TEXT,
  class TEXT) STRICT;
CREATE TABLE IF NOT EXISTS names(digest BLOB, record INTEGER, length INTEGER, PRIMARY KEY (digest, record)) STRICT,
  WITHOUT ROWID;
CREATE INDEX IF NOT EXISTS names_of_a_record ON names(record);
CREATE TABLE IF NOT EXISTS seen(digest BLOB PRIMARY KEY, inode INTEGER NOT NULL, put INTEGER NOT NULL,
  since REAL NOT NULL) STRICT, WITHOUT ROWID;
CREATE TABLE IF NOT EXISTS kept(sweep INTEGER, digest BLOB, record INTEGER, by INTEGER NOT NULL,
  PRIMARY KEY (sweep, digest, record)) STRICT, WITHOUT ROWID;
CREATE TABLE IF NOT EXISTS gone(sweep INTEGER, digest BLOB, length INTEGER NOT NULL, at REAL,
  PRIMARY KEY (sweep, digest)) STRICT, WITHOUT ROWID;
CREATE TABLE IF NOT EXISTS shared(digest BLOB, classes TEXT, sweep INTEGER NOT NULL, PRIMARY KEY (digest, classes))
  STRICT, WITHOUT ROWID;
CREATE TEMP TABLE listed(digest BLOB PRIMARY KEY, inode INTEGER NOT NULL, put INTEGER NOT NULL) STRICT, WITHOUT ROWID;
CREATE TEMP TABLE named(digest BLOB PRIMARY KEY) STRICT, WITHOUT ROWID;
"""
KEPT = """
INSERT INTO kept SELECT ?1, digest, ?2, (SELECT min(other.record) FROM names AS other JOIN naming USING (record)
  WHERE other.digest = names.digest AND run IS NULL) AS by FROM names WHERE record = ?2 AND by IS NOT NULL"""
SEE = """
CREATE TEMP TABLE now_seen AS SELECT listed.digest, listed.inode, listed.put,
  CASE WHEN (listed.inode, listed.put) IS (seen.inode, seen.put) THEN since ELSE ?1 END AS since
  FROM listed LEFT JOIN seen USING (digest) WHERE listed.digest NOT IN (SELECT digest FROM named)"""
SHARED = """
SELECT digest, group_concat(class, ' ') AS classes FROM (SELECT DISTINCT digest, class FROM names JOIN naming
  USING (record) WHERE run IS NULL AND class IS NOT NULL ORDER BY digest, class) GROUP BY digest HAVING count(*) > 1"""
DUE = "SELECT digest, inode, put FROM seen WHERE since <= ? AND since < ? ORDER BY digest"


class State:
    """The tables; `with state:` is one transaction."""

    def __init__(self, folder: Path) -> None:
        self.tables = sqlite3.connect(folder / "state.db", isolation_level=None)
        self.tables.execute("PRAGMA synchronous = FULL")
        self.tables.executescript(TABLES)
        if "class" not in {name for _, name, *_ in self.rows("PRAGMA table_info(naming)")}:
            # a vault that was swept before classes were noted
            self.tables.execute("ALTER TABLE naming ADD COLUMN class TEXT")

    def __enter__(self) -> "State":
        self.tables.execute("BEGIN IMMEDIATE")
        return self

    def __exit__(self, kind: object, *_: object) -> None:
        self.tables.execute("ROLLBACK" if kind else "COMMIT")

    def close(self) -> None:
        self.tables.close()

    def rows(self, query: str, *values: object) -> list[tuple]:
        return self.tables.execute(query, values).fetchall()

    # ---- sweeps

    def last(self) -> tuple[int, float]:
        """Returns the last sweep: its number, and when it began."""
        return self.rows("SELECT coalesce(max(number), 0), coalesce(max(began), 0) FROM sweeps")[0]

    def listed(self, stamps: Iterable[tuple[str, Stamp]]) -> None:
        """Notes which objects are there."""
        self.tables.executemany("INSERT INTO listed VALUES (?, ?, ?)",
                                ((bytes.fromhex(it), stamp.inode, stamp.put) for it, stamp in stamps))

    # ---- what the office says

    def forget(self) -> None:
        """Forgets the office, and what was seen unnamed; what went stays on record."""
        for table in ("known", "naming", "names", "seen"):
            self.tables.execute(f"DELETE FROM {table}")

    def last_record(self) -> int:
        """Returns the number of the last record that was read."""
        return self.rows("SELECT coalesce(max(record), 0) FROM known")[0][0]

    def last_ones(self) -> list[tuple[int, str, bool]]:
        """Returns the last record that was read, and the one that ended last: an office that went back lost these."""
        query = "SELECT record, digest, run IS NOT NULL FROM known LEFT JOIN naming USING (record) ORDER BY "
        rows = self.rows(query + "record DESC LIMIT 1") + self.rows(query + "run DESC NULLS LAST, record DESC LIMIT 1")
        return [(number, digest.hex(), bool(ended)) for number, digest, ended in rows]

    def known(self) -> Iterator[tuple[int, str, bool]]:
        """Lists the records that were read, each with its digest and whether it is known to have ended."""
        query = "SELECT record, digest, run IS NOT NULL FROM known LEFT JOIN naming USING (record) ORDER BY record"
        return ((number, digest.hex(), bool(ended)) for number, digest, ended in self.tables.execute(query))

    def learn(self, number: int, metadata: Metadata, reading: Reading | None) -> None:
        """Notes a record that was read, and what it names."""
        self.tables.execute("INSERT INTO known VALUES (?, ?)", [number, bytes.fromhex(metadata.digest)])
        if reading and reading.names:
            self.tables.execute("INSERT INTO naming VALUES (?, ?, NULL, NULL, ?)",
                                [number, metadata.ref, metadata.code])
            self.tables.executemany("INSERT INTO names VALUES (?, ?, ?)",
                                    [(bytes.fromhex(digest), number, length) for digest, length in reading.names])

    def naming(self) -> list[tuple[int, str]]:
        """Lists the records that name something and were not known to have ended, each with its digest."""
        query = "SELECT record, digest FROM naming JOIN known USING (record) WHERE run IS NULL ORDER BY record"
        return [(number, digest.hex()) for number, digest in self.rows(query)]

    def ended(self, ends: dict[int, Metadata]) -> None:
        """Notes how records ended, and what they named that another record keeps."""
        self.tables.executemany("UPDATE naming SET run = ?, outcome = ? WHERE record = ?",
                                [(it.run, it.outcome, number) for number, it in ends.items()])
        self.tables.executemany(KEPT, [(self.last()[0] + 1, number) for number in ends])

    def compare_classes(self, codes: dict[int, str]) -> None:
        """Notes the classes of records, and the files that records of several classes name since this sweep."""
        self.tables.executemany("UPDATE naming SET class = ? WHERE record = ?",
                                [(code, number) for number, code in codes.items()])
        self.tables.execute(f"DELETE FROM shared WHERE (digest, classes) NOT IN ({SHARED})")
        self.tables.execute(f"INSERT OR IGNORE INTO shared SELECT digest, classes, ? FROM ({SHARED})", [self.last()[0] + 1])

    def name_all(self) -> None:
        """Notes which digests the records with content name."""
        self.tables.execute("INSERT INTO named SELECT DISTINCT digest FROM names JOIN naming USING (record) "
                            "WHERE run IS NULL")

    def name(self, digests: Iterable[str]) -> None:
        """Notes that these digests are named."""
        self.tables.executemany("INSERT OR IGNORE INTO named VALUES (?)", ([bytes.fromhex(it)] for it in digests))

    # ---- objects that nobody names

    def see(self, began: float) -> None:
        """Notes which objects are unnamed now. What was seen with the same stamp before keeps its earlier time."""
        self.tables.execute(SEE, [began])
        self.tables.execute("DELETE FROM seen")
        self.tables.execute("INSERT INTO seen SELECT digest, inode, put, since FROM now_seen")

    def due(self, began: float, grace: float) -> list[tuple[str, Stamp]]:
        """Lists the objects that were seen unnamed, with the same stamp, a grace ago."""
        rows = self.rows(DUE, began - grace, began)
        return [(digest.hex(), Stamp(inode, put)) for digest, inode, put in rows]

    def counts(self) -> tuple[int, int]:
        """Counts the objects that are there, and those of them that are unnamed."""
        return self.rows("SELECT (SELECT count(*) FROM listed), (SELECT count(*) FROM seen)")[0]
