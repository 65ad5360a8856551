"""What is looked at each night: the chain of the journal, and whether the acts of a day made one copy of the one before."""
import argparse
import datetime
import re
import shutil
import subprocess
import tempfile
from pathlib import Path

from office_common import files
from office_gate import chain
from office_gate.chain import Head
from office_gate.checking import Checked, check, heads_in
from office_gate.dropping import dropped
from office_gate.errors import Refused

ROOM = ".office-journal-"
TIME = re.compile(r"\d{8}T\d{6}Z\.db")
NIGHT_HOURS = 20
"""as long is one night from the next, at least"""


def heads_of_unit(unit: str) -> set[Head]:
    """Reads the heads that a gate printed, out of the journal of systemd. Without that there are none, which it says."""
    args = ["journalctl", "--quiet", "--no-pager", "--output=cat", f"--unit={unit}"]
    try:
        output = subprocess.run(args, capture_output=True, text=True, errors="replace", check=False)
    except OSError as error:
        print(f"no heads of {unit}: {error}")
        return set()
    lines = [it for it in output.stdout.splitlines() if it.startswith("office-gate: head ")]
    if not lines:
        print(f"no heads of {unit} in the journal of systemd {output.stderr.strip()}".rstrip())
    return heads_in("\n".join(lines))


def two_of(folder: Path) -> list[Path]:
    """Lists the copy of the night before and the newest one, as office-backup@NAME named them; fewer if there are not two.

    Where copies are made more often than each night, the two are a night apart all the same.
    """
    copies = sorted(it for it in folder.glob("*.db") if TIME.fullmatch(it.name))
    if len(copies) < 2:
        return copies
    *earlier, last = copies
    before = [it for it in earlier if hours(it, last) >= NIGHT_HOURS]
    return [before[-1] if before else earlier[0], last]


def hours(one: Path, other: Path) -> float:
    """Returns how many hours are between two copies, by their names."""
    first, second = (datetime.datetime.strptime(it.name, "%Y%m%dT%H%M%SZ.db") for it in (one, other))
    return (second - first).total_seconds() / 3600


def checked(journal: Path, known: set[Head]) -> Checked:
    """Checks a journal, of which older files may have been dropped."""
    files = chain.files_of(journal)
    if not files:
        raise Refused(3, f"there is no journal {journal}")
    gone = dropped(journal)
    return check(files, known | gone, gone)


def keep(head: Head, work: Path) -> None:
    """Writes the head of a journal that was checked, for the seals of the office."""
    files.write(work / "head", f"{head}\n".encode())


def replay_of(options: argparse.Namespace, folder: str) -> argparse.Namespace | None:
    """Returns what `replay` is asked for, or None if there are no two copies yet."""
    copies = two_of(options.copies)
    if len(copies) < 2:
        print(f"copies in {options.copies}: {len(copies)}. Nothing is replayed before there are two")
        return None
    print(f"replayed: {copies[0].name} up to {copies[1].name}")
    return argparse.Namespace(journal=options.journal, copy=copies[0], new=Path(folder) / "new.db", state=options.state,
                              moment=None, until=None, beside=copies[1], contents=[])


def room(work: Path) -> tempfile.TemporaryDirectory[str]:
    """Makes a folder for copies of the office. What a check left that was cut off goes first."""
    for folder in work.glob(f"{ROOM}*"):
        shutil.rmtree(folder, ignore_errors=True)
    return tempfile.TemporaryDirectory(prefix=ROOM, dir=work)
