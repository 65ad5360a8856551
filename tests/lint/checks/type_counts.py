"""Types: mypy --strict for the Python of the product, and tsc for the page. What is known may not grow (known.txt)."""
from __future__ import annotations

import os
import re
import tempfile
from typing import NamedTuple

from checks import known
from checks.finding import Finding, Skipped, call, findings_in, need
from checks.python_files import PYTHON
from checks.tree import TOP, files, is_python

MYPY_VERSION, TSC_VERSION = "1.0.1", "4.8.4"
"""those of Debian 12: another version has other findings, so counts cannot be compared"""
MYPY = re.compile(r"^(?P<file>[^:\n]+):(?P<line>\d+): error: (?P<text>.+)$", re.M)
MISSING = re.compile(r"Cannot find implementation or library stub for module named \"(aiohttp|h11)[\".]")
"""what mypy says of a library that this machine lacks; of a module of ours it is a finding"""
TSC = re.compile(r"^(?P<file>[^(\n]+)\((?P<line>\d+),\d+\): error (?P<text>.+)$", re.M)
STRICT = ("--strict", "--no-error-summary", "--no-color-output", "--hide-error-context", "--follow-imports=silent",
          "--namespace-packages", "--explicit-package-bases", "--scripts-are-modules")


class Group(NamedTuple):
    """A folder whose Python one call of mypy reads, where it looks for imports, and how the names of its files begin."""

    folder: str
    path: str = "."
    only: tuple[str, ...] = ("",)


GROUPS = (
    Group("companions/gate", ".:..:../vault"),
    Group("companions/vault", ".:.."),
    Group("companions", ".:copies:exchange:gate:library:registers:seals:serve:setup:signin:vault"),
    Group("companions/members", ".:.."),
    Group("deploy/packaging"),
    Group("companions/bring", ".:.."),
    Group("companions/sheets", ".:.."),
    Group("companions/transfer", ".:.."),
    Group("tests/lint", ".:.."),
    Group("tests", only=("tests/kit/",)),
)


def group_of(name: str) -> Group | None:
    """Returns the group that has a file, if one has: that of the innermost folder."""
    if not is_python(name):
        return None
    groups = [item for item in GROUPS if name.startswith(f"{item.folder}/") and name.startswith(item.only)]
    return max(groups, key=lambda item: len(item.folder)) if groups else None


def is_typed(name: str) -> bool:
    """Whether mypy reads a file."""
    return group_of(name) is not None


def strict(group: Group, names: list[str], cache: str) -> list[Finding]:
    """Runs mypy --strict over the files of a group."""
    own = [os.path.relpath(name, group.folder) for name in names]
    args = [PYTHON, "-m", "mypy", *STRICT, "--cache-dir", cache, *own]
    done = call(args, cwd=TOP / group.folder, env={"MYPYPATH": group.path})
    if missing := MISSING.search(done.text):
        raise Skipped(f"there is no python3-{missing[1]}")
    named = re.findall(r"^[^:\n]+", done.text, re.M)
    places = {name: os.path.normpath(os.path.join(group.folder, name)) for name in named}
    findings = findings_in(done.text, MYPY, places)
    if done.status not in (0, 1) and not findings:
        findings = [Finding(names[0], 1, f"mypy ends with {done.status}: {done.text.strip()[-300:]}")]
    return findings


def mypy(names: list[str]) -> list[Finding]:
    """Counts the findings of mypy in the groups that have one of these files."""
    version = call([PYTHON, "-m", "mypy", "--version"]).text
    if version.split()[:2] != ["mypy", MYPY_VERSION]:
        raise Skipped(f"mypy is not {MYPY_VERSION}: {version.strip()[-80:]}")
    wanted = {group_of(name) for name in known.with_known("mypy", names)}
    findings: list[Finding] = []
    read: list[str] = []
    with tempfile.TemporaryDirectory(prefix="lint-mypy-") as cache:
        for group in [item for item in GROUPS if item in wanted]:
            own = [name for name in files() if group_of(name) == group]
            findings += strict(group, own, cache)
            read += own
    return known.compared("mypy", findings, read)


def tsc(names: list[str]) -> list[Finding]:
    """Counts the findings of TypeScript in the page."""
    need("tsc")
    version = call(["tsc", "--version"]).text.split()[-1:]
    if version != [TSC_VERSION]:
        raise Skipped(f"tsc is not {TSC_VERSION}: {' '.join(version)}")
    names = known.with_known("tsc", names)
    args = ["tsc", "--allowJs", "--checkJs", "--noEmit", "--target", "es2022", "--module", "es2022",
            "--moduleResolution", "node", "--typeRoots", "/nonexistent", "--pretty", "false", *names]
    done = call(args, cwd=TOP)
    errors = findings_in(done.text, TSC)
    if done.status and not errors:
        errors = [Finding(names[0], 1, done.text.strip()[-300:])]
    return known.compared("tsc", errors, names)
