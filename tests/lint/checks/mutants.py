"""Planted mistakes: each list looks whether each of its mistakes can still be planted."""
from __future__ import annotations

import re

from checks.finding import Finding, call, findings_in
from checks.python_files import PYTHON
from checks.tree import TOP

LISTS = {
    "tests/gate/mutants": ("tests/gate/planted/", "companions/gate/office_gate/"),
    "tests/vault/mutants": ("tests/vault/planted", "companions/vault/office_vault/"),
    "tests/service_scripts/mutants": ("tests/service_scripts/planted", "companions/office_common/", "companions/registers/"),
    "tests/setup/mutants": ("tests/setup/planted", "companions/setup/office_setup/"),
    "tests/signin/mutants": ("tests/signin/planted", "companions/signin/office_signin/", "deploy/nginx/sign"),
    "tests/web/mutants": ("tests/web/planted/", "page/"),
    "tests/transfer/mutants": ("tests/transfer/planted", "companions/transfer/", "companions/seals/", "companions/registers/"),
    "tests/intake/mutants": ("tests/intake/planted", "companions/sheets/intak", "companions/sheets/office-intake"),
    "tests/bring/mutants": ("tests/bring/planted", "companions/bring/"),
    "tests/library/mutants": ("tests/library/planted", "companions/library/"),
    "tests/replicas/mutants": ("tests/replicas/planted/", "companions/members/replica/"),
}
"""each list, and how the names of the files begin of which it knows"""
LINE = re.compile(r"^(?P<file>tests/[^:\n]+):(?P<line>\d+): (?P<text>.+)$", re.M)
LAST = re.compile(r"^\d+ apply, \d+ do not$", re.M)


def is_planted(name: str) -> bool:
    """Whether a list of mistakes is in a file, or changes it."""
    return any(name.startswith(places) for places in LISTS.values())


def applied(names: list[str]) -> list[Finding]:
    """Has each list that knows one of these files look whether its mistakes apply."""
    findings = []
    for listed, places in LISTS.items():
        if any(name.startswith(places) for name in names):
            done = call([PYTHON, listed, "--applies"], cwd=TOP)
            own = findings_in(done.text, LINE)
            if not own and (done.status or not LAST.search(done.text)):
                own = [Finding(listed, 1, done.text.strip()[-300:] or f"it ends with {done.status}")]
            findings += own
    return findings
