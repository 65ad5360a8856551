"""Where the trial finds what it tries."""
import pathlib
import re

from kit.commands import OFFICE, TOP, Done, run

HERE = pathlib.Path(__file__).resolve().parent
__all__ = ["HERE", "OFFICE", "TOP", "Done", "challenge_of", "files_in", "run"]


def challenge_of(bag: pathlib.Path) -> bytes:
    """The challenge of the order beside a bag."""
    return re.findall(b"(?m)^CHALLENGE ([0-9a-f]{64})$", bag.with_name(bag.name + ".order.txt").read_bytes())[0]


def files_in(folder: pathlib.Path) -> dict[str, bytes]:
    """All files of a folder by name, with their bytes."""
    return {it.relative_to(folder).as_posix(): it.read_bytes() for it in sorted(folder.rglob("*")) if it.is_file()}
