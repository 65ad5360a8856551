"""Sources that are changed by chance: each is brought in with each part counted once, or refused by one line."""
from __future__ import annotations

import contextlib
import csv
import io
import os
import random
import shutil
import sys
import unittest.mock as mock
from pathlib import Path
from xml.etree import ElementTree

import compared
import counted
import systems
from kit.commands import TOP
from kit.judging import judge, same
from systems import Source

sys.path[:0] = [str(TOP / "companions/bring"), str(TOP / "companions")]

from office_bring.command import main  # noqa: E402

MANY = 25 * compared.SEEDS
"""changes of each source"""
PIECES = (b"", b"\0", b"\xff", b"\xe4", b"\"", b"\r", b"\n", b"<", b"&", b"]]>", b"<!--", b"<Akte>", b"</x>", b";", b",", b"\t", b"../",
          b"2024-02-30", b"9999-12-31T23:59:59Z", b"0000", "Ж\u202e\u0085".encode(), b"=1+1", b"'", b" " * 300, b"x" * 5000)


def changed(data: bytes, rng: random.Random) -> bytes:
    """Changes a source at some places: bytes go, come, or come twice."""
    for _ in range(rng.randint(1, 4)):
        start = rng.randrange(len(data) + 1)
        end = min(len(data), start + rng.choice([0, 0, 1, 1, 4, 60, 900]))
        again = data[start:end] if rng.random() < 0.2 else b""
        data = data[:start] + again + rng.choice([*PIECES, again, again]) + data[end:]
    return data


def brought(folder: Path, source: Source, path: Path) -> tuple[int, str]:
    """Brings a source in within this process, and returns the status and what was written to standard error."""
    codes = ["--codes", str(folder / "fresh.csv"), "--take-codes"]
    (folder / "fresh.csv").unlink(missing_ok=True)
    arguments = [source.kind, path, "-o", folder / "out", *codes, "--skip", "--zone", "Europe/Berlin", *source.options]
    output = io.StringIO()
    with mock.patch("office_common.command.end_by_signals"), contextlib.redirect_stderr(output), contextlib.redirect_stdout(io.StringIO()):
        try:
            status = main(list(map(str, arguments)))
        except SystemExit as end:
            status = int(str(end.code))
    return status, output.getvalue()


def parts_of(path: Path) -> int | None:
    """Counts the parts of a source, None if no other reader takes it."""
    with contextlib.suppress(UnicodeError, csv.Error, ElementTree.ParseError, IndexError):
        return counted.parts_of(path)
    return None


def one(name: str, folder: Path, source: Source, data: bytes) -> int:
    """Brings one changed source in, and judges what came of it."""
    path = folder / f"changed{source.path.suffix}"
    path.write_bytes(data)
    status, error = brought(folder, source, path)
    is_made = (folder / "out").exists()
    if status == 2:
        judge(f"{name}: one line and nothing else", error.count("\n") == 1 and not is_made, error, is_quiet=True)
        return status
    whole, *parts = counted.counts_in(error)
    same(f"{name}: status and sum", (status in (0, 1), is_made, whole), (True, True, sum(parts)))
    parts_there = parts_of(path) if source.path.suffix in (".xml", ".rdf") else None
    same(f"{name}: parts", whole, whole if parts_there is None else parts_there)
    shutil.rmtree(folder / "out")
    return status


def by_chance(folder: Path) -> None:
    """Changes the sources of all systems."""
    ends: dict[int, int] = {}
    for system in (systems.XDOMEA, systems.SHAREPOINT, systems.TRIM, systems.ALFRESCO, systems.GRS, systems.SKOS):
        rng = random.Random(17)
        place = folder / f"{id(system)}"
        place.mkdir()
        for source in system.write(place, system.model(rng), rng):
            data = source.path.read_bytes()
            for number in range(MANY):
                status = one(f"{source.kind} {number}", place, source, changed(data, rng))
                ends[status] = ends.get(status, 0) + 1
    judge("some come in, some in part, and some do not", set(ends) == {0, 1, 2}, ends, always=True)
    same("no folder is left behind", [name for name in os.listdir(folder) if name.startswith(".")], [])
