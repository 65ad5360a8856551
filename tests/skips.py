"""Ends a trial that this machine cannot run: the last line says why, and the status is automake's for a skipped test."""
from __future__ import annotations

import importlib.util
import os
import shutil
import subprocess
import sys
from collections.abc import Mapping
from typing import NoReturn

STATUS = 77
"""The status of a skipped trial."""
SPACE = ["unshare", "--mount", "--net", "--pid", "--fork", "--kill-child", "--mount-proc", "true"]


class Skipped(Exception):
    """The reason why this machine cannot run a part of a trial."""


def end(reason: str) -> NoReturn:
    """Prints the reason as the last line, and ends with the status of a skipped trial."""
    print(f"skipped: {reason}", flush=True)
    sys.exit(STATUS)


def is_there(name: str) -> bool:
    """Whether this machine has a file, by its path, or a command, by its name."""
    return os.path.exists(name) if "/" in name else shutil.which(name) is not None


def can_make_spaces() -> bool:
    """Whether a process may get a network, mounts and processes of its own here."""
    return is_there(SPACE[0]) and subprocess.run(SPACE, stdin=subprocess.DEVNULL, capture_output=True,
                                                 check=False).returncode == 0


def lacking(commands: Mapping[str, str] = {}, modules: Mapping[str, str] = {}, root: bool = False,
            spaces: bool = False) -> str:
    """Returns what this machine lacks, or an empty text.

    `commands` and `modules` map a command, a path or a module of Python to its package of Debian. With `root` the
    trial needs root, with `spaces` a network and processes of its own.
    """
    if root and os.geteuid() != 0:
        return "it needs root"
    absent = {name: package for name, package in commands.items() if not is_there(name)}
    absent |= {name: package for name, package in modules.items() if importlib.util.find_spec(name) is None}
    if absent:
        return f"missing here: {', '.join(sorted(absent))} (apt-get install {' '.join(sorted(set(absent.values())))})"
    if spaces and not can_make_spaces():
        return "no namespaces can be made here"
    return ""


def demand(commands: Mapping[str, str] = {}, modules: Mapping[str, str] = {}, root: bool = False,
           spaces: bool = False) -> None:
    """Ends the trial as skipped if this machine lacks something; the arguments are those of `lacking`."""
    reason = lacking(commands, modules, root, spaces)
    if reason:
        end(reason)


def status(passed: int, failed: int, skipped: list[str]) -> int:
    """Prints the last lines of a trial of several parts, and returns its status: skipped only if nothing was judged."""
    for reason in skipped[: -1 if passed + failed == 0 else None]:
        print(f"skipped: {reason}")
    if skipped and passed + failed == 0:
        end(skipped[-1])
    print(f"{passed} passed, {failed} failed")
    return 1 if failed else 0
