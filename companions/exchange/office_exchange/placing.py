"""New files and folders that get their names once they are whole, on the disk, and nothing else has these names."""
import os
import subprocess
from pathlib import Path

from office_common import rights
from office_common.errors import IMPOSSIBLE, WRONG, Refused
from office_common.files import sync


def parent_of(target: Path) -> Path:
    """Returns the folder in which a new name is to be. Root is refused if others decide what is there."""
    parent = target.absolute().parent
    if not parent.is_dir() or not target.name or target.name in (".", ".."):
        raise Refused(IMPOSSIBLE, f"there is no folder {parent} for {target.name or target}")
    if os.geteuid() == 0 and not rights.is_only_theirs(parent, 0):
        raise Refused(WRONG, f"others than root decide where {parent} leads: run this as its owner")
    return parent


def check_free(target: Path) -> None:
    """Refuses a name that something has."""
    if os.path.lexists(target):
        raise Refused(WRONG, f"{target} is there already: it stays as it is")


def sync_all(folder: Path) -> None:
    """Waits until all that was written to the file system of a folder is on the disk."""
    done = subprocess.run(["sync", "--file-system", "--", str(folder)], stdin=subprocess.DEVNULL,
                          capture_output=True, text=True, check=False)
    if done.returncode:
        raise Refused(IMPOSSIBLE, f"{folder} is not on the disk: {done.stderr.strip()}")


def place(new: Path, target: Path) -> None:
    """Gives what is new its name, by one rename that replaces nothing."""
    done = subprocess.run(["mv", "--no-clobber", "--no-target-directory", "--", str(new), str(target)],
                          stdin=subprocess.DEVNULL, capture_output=True, text=True, check=False)
    if done.returncode:
        raise Refused(IMPOSSIBLE, f"{target} was not put in its place: {done.stderr.strip()}")
    if os.path.lexists(new):
        check_free(target)
        raise Refused(IMPOSSIBLE, f"{target} was not put in its place")
    sync(parent_of(target))
