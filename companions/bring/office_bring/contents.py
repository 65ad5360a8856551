"""The documents beside a source: those that a record names and that are not there, and those that no record names."""
from __future__ import annotations

import os
from pathlib import Path

from office_bring.brought import Brought


def paths_in(folder: Path) -> set[str]:
    """Lists the files of a folder by their paths in it."""
    return {os.path.relpath(os.path.join(place, name), folder) for place, _, names in os.walk(folder) for name in names}


def compare(brought: Brought, folder: Path) -> None:
    """Notes each document that is missing, and the number of files that are of no record."""
    there = paths_in(folder)
    named = {record.path.replace("\\", "/") for record in brought.records.values() if record.path}
    for path in sorted(named - there):
        brought.look(path, f"it is no file in {folder}")
    if others := len(there - named):
        brought.notes[f"files in {folder} that no new record names"] += others
