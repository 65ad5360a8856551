"""Python: each file compiles, and pyflakes has no finding."""
from __future__ import annotations

import re

from checks.finding import Finding, call, findings_in, need
from checks.tree import TOP

PYFLAKES = re.compile(r"^(?P<file>[^:\n]+):(?P<line>\d+):(?:\d+:?)? (?P<text>.+)$", re.M)
PYTHON = "/usr/bin/python3"
"""Debian's, which the programs run by"""
COMPILES = """
import sys, warnings
warnings.simplefilter("error")
for name in sys.stdin.read().split("\\0"):
    try:
        with open(name, "rb") as file:
            compile(file.read(), name, "exec", dont_inherit=True)
    except (SyntaxError, ValueError, Warning) as error:
        print(f"{name}:{getattr(error, 'lineno', None) or 1}: {getattr(error, 'msg', None) or error}")
"""


def compiled(names: list[str]) -> list[Finding]:
    """Compiles each file; a warning of the compiler is a finding too."""
    output = call([PYTHON, "-I", "-c", COMPILES], cwd=TOP, given="\0".join(names)).text
    findings = findings_in(output, PYFLAKES)
    if output.strip() and not findings:
        findings = [Finding(names[0], 1, output.strip().splitlines()[-1])]
    return findings


def pyflakes(names: list[str]) -> list[Finding]:
    """Has pyflakes read each file."""
    need("pyflakes3")
    return findings_in(call(["pyflakes3", *names], cwd=TOP).text, PYFLAKES)
