"""Scripts of sh and bash: each is read by its own shell, and by shellcheck."""
from __future__ import annotations

import re

from checks.finding import Finding, call, findings_in, need
from checks.tree import TOP, interpreter

SHELL = re.compile(r"^(?P<file>[^:\n]+): (?:line )?(?P<line>\d+): (?P<text>.+)$", re.M)
SHELLCHECK = re.compile(r"^(?P<file>[^:\n]+):(?P<line>\d+):\d+: (?:warning|error): (?P<text>.+)$", re.M)


def parsed(names: list[str]) -> list[Finding]:
    """Has the shell of each script read it, without running it."""
    findings = []
    for name in names:
        shell = interpreter(name) or "bash"
        need(shell)
        done = call([shell, "-n", name], cwd=TOP)
        if done.status or done.text:
            why = done.text.strip() or f"{shell} -n ends with {done.status}"
            findings += findings_in(done.text, SHELL) or [Finding(name, 1, why)]
    return findings


def shellcheck(names: list[str]) -> list[Finding]:
    """Has shellcheck look for what is likely wrong; it follows what a script sources."""
    need("shellcheck")
    scripts = [name for name in names if interpreter(name)]
    output = call(["shellcheck", "-x", "-P", "SCRIPTDIR:SCRIPTDIR/..", "-S", "warning", "-f", "gcc", *scripts], cwd=TOP).text
    return findings_in(output, SHELLCHECK)
