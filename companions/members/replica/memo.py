"""What a member remembers beside FILE: which log, at which position FILE is, and the last answers.

One SQLite file, work/memo.db. `settled` says whether FILE is surely at the position: it is reset on the disk before the
office opens FILE or gets an entry, and set once nothing is under way and FILE is synced.
"""
from __future__ import annotations

import contextlib
import pathlib
import sqlite3
import threading
from typing import Iterator, Sequence

NEWEST = 200
SCHEMA = """
CREATE TABLE meta (epoch TEXT, position INTEGER, chain TEXT, settled INTEGER);
CREATE TABLE answers (position INTEGER PRIMARY KEY, key TEXT, answer BLOB);
"""


class Memo:
    """The memo in a file that is there, for any number of threads."""

    def __init__(self, file: pathlib.Path) -> None:
        """Opens it: sqlite3.Error where there is none, or it is damaged."""
        self.lock = threading.RLock()
        self.rows = sqlite3.connect(f"file:{file}?mode=rw", uri=True, isolation_level=None,
                                    check_same_thread=False)
        try:
            self.rows.execute("PRAGMA journal_mode=WAL").fetchall()
            self.rows.execute("PRAGMA synchronous=NORMAL")
            meta = self.rows.execute(
                "SELECT epoch, position, chain, settled FROM meta").fetchone()
            if meta is None:
                raise sqlite3.DatabaseError("the memo has no row")
        except sqlite3.Error:
            self.rows.close()
            raise
        self.epoch: str = meta[0]
        self.position: int = meta[1]
        self.chain: str = meta[2]
        self.settled = bool(meta[3])
        self.newest: dict[int, tuple[str, bytes]] = {}
        """keys and answers of the last entries, so that few are looked for in the file"""

    @staticmethod
    def make(file: pathlib.Path, epoch: str) -> None:
        """The memo of a log of which nothing was done yet."""
        with contextlib.closing(sqlite3.connect(file)) as rows:
            rows.executescript(SCHEMA)
            rows.execute("INSERT INTO meta VALUES (?, 0, '', 0)", (epoch,))
            rows.commit()

    def settle(self, is_settled: bool) -> None:
        """Afterwards the disk has it."""
        with self.lock:
            if self.settled != is_settled:
                self.rows.execute("PRAGMA synchronous=FULL")
                self.rows.execute("UPDATE meta SET settled=?", (int(is_settled),))
                self.rows.execute("PRAGMA synchronous=NORMAL")
                self.settled = is_settled

    def advance(self, answers: Sequence[tuple[int, str, bytes]], chain: str) -> None:
        """The entries at these positions, with these keys, have these answers. All of it is there afterwards, or
        nothing. `chain` is the hash after the last one."""
        position = answers[-1][0]
        with self.lock:
            try:
                self.rows.execute("BEGIN")
                self.rows.executemany("INSERT INTO answers VALUES (?, ?, ?)", answers)
                self.rows.execute("UPDATE meta SET position=?, chain=?", (position, chain))
                self.rows.execute("COMMIT")
            except sqlite3.Error:
                if self.rows.in_transaction:
                    self.rows.execute("ROLLBACK")
                raise
            self.position, self.chain = position, chain
        if len(self.newest) > NEWEST:
            self.newest = {}
        self.newest.update((place, (key, answer)) for place, key, answer in answers)

    def newest_answer(self, position: int, key: str) -> bytes | None:
        """What the entry with this key at this position was answered, if it is one of the last."""
        newest = self.newest.get(position)
        return None if newest is None or newest[0] != key else newest[1]

    def answer(self, position: int, key: str) -> bytes | None:
        """What the entry with this key at this position was answered, if that is remembered."""
        with self.lock:
            row = self.rows.execute("SELECT answer FROM answers WHERE position=? AND key=?",
                                    (position, key)).fetchone()
        return None if row is None else bytes(row[0])

    def answer_at(self, position: int) -> bytes | None:
        """What the entry at a position was answered, if that is remembered."""
        with self.lock:
            row = self.rows.execute("SELECT answer FROM answers WHERE position=?", (position,)).fetchone()
        return None if row is None else bytes(row[0])

    def oldest(self, until: int, limit: int) -> list[tuple[int, str]]:
        """Positions and keys of the oldest answers up to a position."""
        with self.lock:
            return self.rows.execute(
                "SELECT position, key FROM answers WHERE position<=? ORDER BY position LIMIT ?",
                (until, limit)).fetchall()

    def forget(self, until: int) -> None:
        """Takes the answers up to a position away."""
        with self.lock:
            self.rows.execute("DELETE FROM answers WHERE position<=?", (until,))

    @contextlib.contextmanager
    def at_rest(self) -> Iterator[None]:
        """Within it the file alone has the memo, nobody changes it, and it says unsettled."""
        with self.lock:
            self.settle(False)
            self.rows.execute("PRAGMA wal_checkpoint(TRUNCATE)").fetchall()
            yield

    def close(self) -> None:
        with self.lock:
            self.rows.close()
