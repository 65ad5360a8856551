"""The findings of type checkers that are known: known.txt has how many a file may have."""
from __future__ import annotations

import collections
import pathlib

from checks.finding import Finding
from checks.tree import TOP

LIST = pathlib.Path(__file__).resolve().parent.parent / "known.txt"


NAME = str(LIST.relative_to(TOP))


def with_known(tool: str, names: list[str]) -> list[str]:
    """Returns the files to read: these, and if the list is among them all that it has for a tool."""
    more = [file for file in lines_of(tool) if (TOP / file).is_file()] if NAME in names else []
    return sorted({*names, *more} - {NAME})


def lines_of(tool: str) -> dict[str, tuple[int, int]]:
    """Reads the lines of a tool: for each file how many findings are known, and the line that says it."""
    known = {}
    for at, line in enumerate(LIST.read_text(encoding="utf-8").split("\n"), 1):
        fields = line.split()
        if fields[:1] == [tool]:
            known[fields[1]] = int(fields[2]), at
    return known


def compared(tool: str, errors: list[Finding], names: list[str]) -> list[Finding]:
    """Returns the errors of each file that has more than known, and a finding for each line that is too high.

    `names` are the files that were read: a line of another file is not judged, unless that file is gone.
    """
    by_file = collections.defaultdict(list)
    for error in errors:
        by_file[error.file].append(error)
    known = lines_of(tool)
    findings = []
    for file, own in sorted(by_file.items()):
        most, _ = known.get(file, (0, 0))
        if len(own) > most:
            counts = f"({tool} has {len(own)} here, and {most} known)"
            findings += [error._replace(text=f"{error.text} {counts}") for error in own]
    for file, (most, line) in known.items():
        count = len(by_file[file])
        if not (TOP / file).is_file():
            findings.append(Finding(NAME, line, f"{file} is gone: take its line out"))
        elif file in names and count < most:
            findings.append(Finding(NAME, line, f"{tool} has {count} for {file}: lower it to {count}"))
    return findings
