"""Commands that a trial runs: the program, the tools and scripts, each with its status and both of its outputs."""
from __future__ import annotations

import os
import pathlib
import subprocess
from typing import NamedTuple

TOP = pathlib.Path(__file__).resolve().parents[2]
OFFICE = os.environ.get("OFFICE", str(TOP / "office"))
"""the program"""
SECONDS = 600
"""a command that takes longer hangs, however busy the machine is"""


class Done(NamedTuple):
    """How a command ended, and what it wrote."""

    status: int
    out: str
    error: str


def run(*arguments: object, data: bytes | None = None, folder: pathlib.Path | None = None, **env: str) -> Done:
    """Runs a command, which reads `data` or nothing, and returns its status and what it wrote."""
    done = subprocess.run([str(each) for each in arguments], input=b"" if data is None else data, cwd=folder, capture_output=True,
                          timeout=SECONDS, env={**os.environ, "OFFICE": OFFICE, "PYTHONDONTWRITEBYTECODE": "1", **env})
    return Done(done.returncode, done.stdout.decode(), done.stderr.decode(errors="replace"))


def office(*arguments: object) -> Done:
    """Runs the program."""
    return run(OFFICE, *arguments)
