"""What a check reports, and how it calls a program of the machine."""
from __future__ import annotations

import os
import re
import shutil
import subprocess
from collections.abc import Mapping, Sequence
from typing import NamedTuple

SECONDS = 600
"""a program that takes longer is ended"""


class Finding(NamedTuple):
    """A line of a file, and what is wrong there."""

    file: str
    line: int
    text: str

    def __str__(self) -> str:
        return f"{self.file}:{self.line}: {self.text}"


class Skipped(Exception):
    """A check that this machine cannot run, with the reason."""


class Output(NamedTuple):
    """How a program ended: its status, and all that it printed."""

    status: int
    text: str


def need(*programs: str) -> None:
    """Skips the check if the machine lacks one of these programs."""
    for name in programs:
        if shutil.which(name) is None:
            raise Skipped(f"there is no {name}")


def call(args: Sequence[object], *, cwd: object = None, given: str | None = None,
         env: Mapping[str, str] | None = None) -> Output:
    """Runs a program, and returns its status and its output and errors as one text."""
    place = None if cwd is None else str(cwd)
    done = subprocess.run([str(arg) for arg in args], cwd=place, text=True, errors="replace",
                          input=given or "", stdout=subprocess.PIPE, stderr=subprocess.STDOUT, timeout=SECONDS,
                          check=False, env={**os.environ, "LC_ALL": "C.UTF-8", **(env or {})})
    return Output(done.returncode, done.stdout)


def line_of(text: str, part: str) -> int:
    """Returns the line at which a part of a text begins, or 1."""
    return text.count("\n", 0, max(text.find(part), 0)) + 1


def line_at(text: str, offset: int) -> int:
    """Returns the line of an offset."""
    return text.count("\n", 0, offset) + 1


def findings_in(output: str, pattern: re.Pattern[str], names: Mapping[str, str] | None = None) -> list[Finding]:
    """Reads the lines of a program that match a pattern with the groups `file`, `line` and `text`.

    `names` maps the names that the program was given to those of the repository.
    """
    findings = []
    for match in pattern.finditer(output):
        file = match["file"]
        findings.append(Finding((names or {}).get(file, file), int(match["line"]), match["text"].strip()))
    return findings
