"""C: each file is read by the compiler, with its warnings."""
from __future__ import annotations

import re

from checks.finding import Finding, call, findings_in, need
from checks.tree import TOP

COMPILER = re.compile(r"^(?P<file>[^:\n]+):(?P<line>\d+):\d+: (?:fatal )?(?:error|warning): (?P<text>.+)$", re.M)


def parsed(names: list[str]) -> list[Finding]:
    """Has the compiler read each file."""
    need("cc")
    return findings_in(call(["cc", "-std=gnu11", "-Wall", "-Wextra", "-fsyntax-only", *names], cwd=TOP).text, COMPILER)
