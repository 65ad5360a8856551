"""The catalogue of an office, as office-catalogue makes it: files of JSON, each with a moment and its rows."""
import gzip
import json
import zlib
from pathlib import Path
from typing import Any, NamedTuple

FAILURES = (OSError, EOFError, ValueError, KeyError, TypeError, zlib.error)
"""what a file that is missing, damaged or of another form raises"""


class Part(NamedTuple):
    """A file of a catalogue: the moment of the copy that it was made from, and its rows."""

    moment: str
    rows: list[Any]


def newest(folder: Path) -> Path:
    """Returns the folder of the newest catalogue: the one that `now` leads to, or the folder itself if it has files."""
    return folder / "now" if (folder / "now").is_dir() else folder


def file_in(folder: Path, name: str) -> Path | None:
    """Finds a file of a catalogue: compressed, or as nginx sends it."""
    return next((file for file in (folder / f"{name}.json.gz", folder / f"{name}.json") if file.is_file()), None)


def data_of(file: Path) -> bytes:
    """Reads a file of a catalogue, without its compression."""
    data = file.read_bytes()
    return gzip.decompress(data) if file.suffix == ".gz" else data


def part_of(data: bytes, name: str) -> Part:
    """Reads a file of this name from its bytes."""
    whole = json.loads(data)
    return Part(str(whole["moment"]), list(whole[name]))


def read(folder: Path, name: str) -> Part:
    """Reads a file of the catalogue in a folder."""
    return part_of(data_of(folder / f"{name}.json.gz"), name)
