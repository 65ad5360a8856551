"""The files of a bag by their names: a table that goes to the disk if it is large, so that memory stays bounded."""
import contextlib
import sqlite3
from collections.abc import Iterator

MADE = "CREATE TABLE files(name TEXT PRIMARY KEY, digest TEXT NOT NULL, length INTEGER NOT NULL) WITHOUT ROWID"
IS_PAYLOAD = "name GLOB 'data/*'"


class Ledger:
    """Names of files, each once, with digest and length."""

    def __init__(self) -> None:
        self.base = sqlite3.connect("", isolation_level=None)
        self.base.executescript(f"PRAGMA synchronous = OFF; {MADE}; BEGIN")

    def add(self, name: str, digest: str, length: int) -> bool:
        """Adds a file, and returns whether its name is new."""
        with contextlib.suppress(sqlite3.IntegrityError):
            self.base.execute("INSERT INTO files VALUES (?, ?, ?)", (name, digest, length))
            return True
        return False

    def digest_of(self, name: str) -> str | None:
        row = self.base.execute("SELECT digest FROM files WHERE name = ?", (name,)).fetchone()
        return None if row is None else str(row[0])

    def remove(self, name: str) -> str | None:
        """Removes a file, and returns its digest, or None if there is no such file."""
        digest = self.digest_of(name)
        self.base.execute("DELETE FROM files WHERE name = ?", (name,))
        return digest

    def lines(self, is_payload: bool) -> Iterator[bytes]:
        """Writes the manifest of the payload, or that of all else."""
        query = f"SELECT digest, name FROM files WHERE ({IS_PAYLOAD}) = ? ORDER BY name"
        for digest, name in self.base.execute(query, (is_payload,)):
            yield f"{digest}  {name}\n".encode()

    def payload(self) -> tuple[int, int]:
        """Returns the bytes and the number of the files of the payload."""
        query = f"SELECT coalesce(sum(length), 0), count(*) FROM files WHERE {IS_PAYLOAD}"
        length, count = self.base.execute(query).fetchone()
        return length, count

    def names(self, most: int, pattern: str = "*") -> list[str]:
        """Returns the first names that match a pattern."""
        query = "SELECT name FROM files WHERE name GLOB ? ORDER BY name LIMIT ?"
        return [name for name, in self.base.execute(query, (pattern, most))]

    def close(self) -> None:
        self.base.close()
