"""Programs that the verification runs, and how it reads files, moments and names that somebody may have forged."""
from __future__ import annotations

import datetime
import hashlib
import os
import re
import subprocess
from pathlib import Path

UTC, DAY = "%Y-%m-%dT%H:%M:%SZ", datetime.timedelta(days=1)
SECOND = datetime.timedelta(seconds=1)
# how openssl prints a moment
GMT = re.compile(r"([A-Z][a-z]{2}) +([0-9]{1,2}) ([0-9:]{8})(?:\.[0-9]+)? ([0-9]{4}) GMT")


class Untried(Exception):
    """Something that the trial needs is missing."""


def tool(*args: str, data: bytes = b"") -> tuple[bool, str]:
    """Runs a program: whether it was well, and what it printed. Times are UTC."""
    try:
        done = subprocess.run(args, input=data, stdout=subprocess.PIPE, stderr=subprocess.STDOUT, check=False,
                              env={**os.environ, "LC_ALL": "C", "TZ": "UTC"})
    except OSError as why:
        raise Untried(f"there is no {args[0]}: {why.strerror}") from why
    return done.returncode == 0, done.stdout.decode(errors="replace").strip()


def digest(data: bytes) -> str:
    return hashlib.sha256(data).hexdigest()


def data_of(file: Path) -> bytes | None:
    """Returns the bytes of a file; None if there is none, or a link in its place."""
    return None if file.is_symlink() or not file.is_file() else file.read_bytes()


def printable(text: str) -> str:
    """Escapes what could move the cursor of a terminal, look like another letter or begin a line."""
    return "".join(letter if letter.isascii() and letter.isprintable() else ascii(letter)[1:-1] for letter in text)


def moment_in(text: str) -> datetime.datetime | None:
    """Returns the first moment in a text of openssl."""
    match = GMT.search(text)
    try:
        return datetime.datetime.strptime(" ".join(match.groups()), "%b %d %H:%M:%S %Y") if match else None
    except ValueError:
        return None


def keys_in(file: Path | None) -> set[str]:
    """Returns the fingerprints of the keys in a file."""
    if file is None:
        return set()
    is_read, output = tool("ssh-keygen", "-l", "-f", str(file))
    if not is_read:
        raise Untried(f"{file} has no public keys: {output}")
    return {part for line in output.splitlines() for part in line.split() if part.startswith("SHA256:")}
