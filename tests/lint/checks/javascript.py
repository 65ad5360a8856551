"""JavaScript: each file is a module that node can read. The types of the page are counted in type_counts.py."""
from __future__ import annotations

import pathlib
import re
import tempfile

from checks.finding import Finding, call, need
from checks.tree import TOP, read

PARSE = pathlib.Path(__file__).with_name("parse.mjs")


def fault(name: str) -> Finding:
    """Has node say why a file is no module, and at which line."""
    with tempfile.TemporaryDirectory(prefix="lint-module-") as folder:
        module = pathlib.Path(folder, "module.mjs")
        module.write_text(read(name))
        text = call(["node", "--check", module]).text
    line, why = re.search(r"module\.mjs:(\d+)$", text, re.M), re.search(r"^SyntaxError: .*$", text, re.M)
    return Finding(name, int(line[1]) if line else 1, why[0] if why else text.strip()[-200:])


def parsed(names: list[str]) -> list[Finding]:
    """Has node read each file as a module; one process reads them all."""
    need("node")
    done = call(["node", "--experimental-vm-modules", "--no-warnings", PARSE], cwd=TOP, given="\n".join(names))
    wrong = done.text.splitlines()
    if done.status or not set(wrong) <= set(names):
        return [Finding(names[0], 1, f"node ends with {done.status}: {done.text.strip()[-300:]}")]
    return [fault(name) for name in wrong]
