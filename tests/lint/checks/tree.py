"""The files of the repository, and the kind of each."""
from __future__ import annotations

import functools
import os
import pathlib
import re
import subprocess

TOP = pathlib.Path(__file__).resolve().parents[3]
UNTRACKED = {".git", "out", "target", "__pycache__", ".mypy_cache"}
"""folders that no commit has, for a tree without git"""


def by_git() -> list[str] | None:
    """Lists what git has or has yet to take, or returns None if the tree is not git's."""
    args = ["git", "-c", f"safe.directory={TOP}", "-C", str(TOP), "ls-files", "-z", "--cached", "--others",
            "--exclude-standard"]
    if not (TOP / ".git").exists():
        return None
    try:
        done = subprocess.run(args, stdout=subprocess.PIPE, stderr=subprocess.DEVNULL, text=True, check=True)
    except (OSError, subprocess.CalledProcessError):
        return None
    return done.stdout.split("\0")


def by_walk() -> list[str]:
    """Lists the files below the top, without what tools leave there."""
    names = []
    for folder, below, files in os.walk(TOP):
        below[:] = [name for name in below if name not in UNTRACKED]
        names += [os.path.relpath(os.path.join(folder, name), TOP) for name in files]
    return names


@functools.cache
def files() -> tuple[str, ...]:
    """Lists the files of the repository, as paths from its top."""
    names = by_git() or by_walk()
    there = {name for name in names if name and (os.path.isfile(TOP / name) or os.path.islink(TOP / name))}
    return tuple(sorted(there))


@functools.cache
def interpreter(name: str) -> str:
    """Returns the program that the first line of a file names, or nothing."""
    with (TOP / name).open("rb") as file:
        first = file.readline(200)
    if not first.startswith(b"#!"):
        return ""
    args = first[2:].decode(errors="replace").split()
    if args and args[0].endswith("/env"):
        args = args[1:]
    return args[0].rpartition("/")[2] if args else ""


def suffix(name: str) -> str:
    """Returns the ending of a file name, such as `.py`, or nothing."""
    return pathlib.PurePosixPath(name).suffix


def is_ours(name: str) -> bool:
    """Whether a file is outside of the crates, which the prover reads."""
    return not name.startswith("crates/")


def is_python(name: str) -> bool:
    """Whether a file is Python, by its ending or its first line."""
    return is_ours(name) and (suffix(name) == ".py" or interpreter(name).startswith("python"))


def is_shell(name: str) -> bool:
    """Whether a file is a script of sh or bash, by its first line."""
    return is_ours(name) and interpreter(name) in ("sh", "bash", "dash")


def read(name: str) -> str:
    """Reads a text of the repository."""
    return (TOP / name).read_text(encoding="utf-8")


def line_of_match(text: str, match: re.Match[str]) -> int:
    """Returns the line of a text at which a match begins."""
    return text.count("\n", 0, match.start()) + 1
