"""What the package is made of: its lists, manual pages, completion, hooks and copyright."""
from __future__ import annotations

import datetime
import importlib
import pathlib
import re
import sys
import tempfile
from typing import Any

from checks.finding import Finding, call, line_of, need
from checks.tree import TOP, files, interpreter, read, suffix

COPIES = "deploy/packaging/copies"
LISTS = ("deploy/packaging/files", "deploy/packaging/replicas/files", COPIES)
OF_MACHINE = ("companions/", "deploy/")
"""the folders whose files go to machines, but for those of LEFT_OUT and pages"""
LEFT_OUT = ("deploy/packaging/", "companions/members/setup/three")
"""what no package has: it makes packages, or tries three members on one machine"""
VERSION, DAY = "1.0", "2026-01-01"


def making(name: str) -> Any:
    """Returns a module of deploy/packaging/making."""
    if str(TOP / "deploy/packaging") not in sys.path:
        sys.path.append(str(TOP / "deploy/packaging"))
    return importlib.import_module(f"making.{name}")


def rows(name: str) -> list[tuple[int, str, str]]:
    """Returns the lines of a list: number, source and place."""
    lines = []
    for at, line in enumerate(read(name).split("\n"), 1):
        if line and not line.startswith("#"):
            source, place, *_ = [*line.split(), "", ""]
            lines.append((at, source, place))
    return lines


def lists(names: list[str]) -> list[Finding]:
    """Compares the lists with the repository: each source is there, and each file for a machine is in a list."""
    findings: list[Finding] = []
    covered: set[str] = set()
    for name in LISTS:
        seen: set[str] = set()
        for at, source, place in rows(name):
            own = [item for item in files() if item == source or item.startswith(f"{source}/")]
            covered |= set(own) if name != COPIES else set()
            if not own:
                findings.append(Finding(name, at, f"{source} is not there"))
            most = 2 if name == COPIES else 3
            if not place.startswith("/") or place.endswith("/") or len(read(name).split("\n")[at - 1].split()) > most:
                findings.append(Finding(name, at, "no line of a source, a folder and perhaps a name"))
            if source in seen:
                findings.append(Finding(name, at, f"{source} is there twice"))
            if place == "/usr/bin" and not all(interpreter(item) for item in own):
                findings.append(Finding(name, at, f"{source} has no first line that names its program"))
            seen.add(source)
    for item in files():
        is_of_machine = item.startswith(OF_MACHINE) and not item.startswith(LEFT_OUT) and suffix(item) != ".md"
        if is_of_machine and item not in covered:
            findings.append(Finding(item, 1, f"it is in no package: add it to {' or '.join(LISTS[:2])}"))
    return [item for item in findings if item.file in names]


def pages() -> dict[str, str]:
    """Makes the manual pages, by the file that each is of."""
    manual, staging, helps, formats = (making(name) for name in ("manual", "staging", "helps", "formats"))
    texts = {"README.md": manual.office(VERSION, DAY, staging.scripts_in("files"))}
    texts |= {each.sections[0][1]: formats.page(each, VERSION, DAY) for each in formats.FORMATS}
    for of in ("files", "replicas/files"):
        sources = [item.source for item in staging.listed(of) if item.folder == "usr/bin"]
        commands = helps.all_of(sources)
        for source in sources:
            name = str(source.relative_to(TOP))
            try:
                texts[name] = manual.script(source.name, source.read_text(), commands[source.name], VERSION, DAY)
            except IndexError:
                texts[name] = ""  # a first comment without a usage, an empty line and a text
    return texts


FORMATS = ("docs/SETUP.md", "docs/ACCESS.md")
"""pages of which manual pages of files are made"""


def has_page(name: str) -> bool:
    """Whether the package makes a manual page of a file."""
    listed = [row for item in LISTS[:2] for row in rows(item)]
    return name in ("README.md", *FORMATS) or any(source == name and place == "/usr/bin" for _, source, place in listed)


def usage(name: str) -> list[Finding]:
    """Looks at the first paragraph of a script's first comment: each line is a way to call it."""
    findings = []
    for at, line in enumerate(read(name).split("\n")[1:], 2):
        if not line.startswith("# "):
            break
        if not line.startswith(f"# {pathlib.PurePosixPath(name).name}"):
            findings.append(Finding(name, at, "for the manual page, no call of the script and no empty line before it"))
    return findings[:1]


def manuals(names: list[str]) -> list[Finding]:
    """Makes each manual page, and has groff read it."""
    need("groff")
    findings = []
    with tempfile.TemporaryDirectory(prefix="lint-manual-") as folder:
        for name, text in pages().items():
            if name not in names:
                continue
            page = pathlib.Path(folder, "page.1")
            page.write_text(text)
            complaints = [] if text else ["page.1:1: there is no usage, empty line and text in the first comment"]
            complaints += call(["groff", "-K", "utf8", "-man", "-Tutf8", "-ww", "-z", page]).text.splitlines()
            for item in complaints:
                at = re.search(r"page\.1:(\d+)", item)
                piece = text.split("\n")[int(at[1]) - 1] if at else ""
                why = f"its manual page: {item.partition('page.1:')[2]}: {piece[:60]}"
                findings.append(Finding(name, line_of(read(name), piece[:30]), why))
            if name not in ("README.md", *FORMATS):
                findings += usage(name)
            for part in ("NAME", "SYNOPSIS", "DESCRIPTION"):
                if text and not re.search(rf"^\.SH {part}\n(?!\.SH)(.+)", text, re.M):
                    findings.append(Finding(name, 1, f"its manual page has nothing under {part}"))
    return findings


def completion(names: list[str]) -> list[Finding]:
    """Makes the completion, and has bash read it."""
    need("bash")
    with tempfile.TemporaryDirectory(prefix="lint-completion-") as folder:
        made = pathlib.Path(folder, "office")
        making("staging").put_completion(made)
        text = made.read_text()
        done = call(["bash", "-n", made])
    findings = [Finding(names[0], 1, f"{mark} is still there") for mark in re.findall(r"@[A-Z]+@", text)]
    if done.status or done.text:
        source = read("deploy/packaging/completion")
        at, more = re.search(r"line (\d+)", done.text), text.count("\n") - source.count("\n")
        place, line = line_of(source, "@OPERANDS@"), int(at[1]) if at else 1
        findings.append(Finding(names[0], line if line < place else max(place, line - more), done.text.strip()[:200]))
    return findings


def hooks(names: list[str]) -> list[Finding]:
    """Makes what Debian runs before and after, and has sh read it."""
    findings = []
    for name in names:
        of = "replicas/files" if "/replicas/" in name else "files"
        text = making("staging").hooks(of)[pathlib.PurePosixPath(name).name]
        done = call(["sh", "-n"], given=text)
        if done.status or done.text or re.search(r"@[A-Z]+@", text):
            findings.append(Finding(name, 1, done.text.strip()[:200] or "a place for a name is still there"))
    return findings


def copyright_text(names: list[str]) -> list[Finding]:
    """Looks whether the copyright names its holder and its licence."""
    findings = []
    for name in names:
        text = read(name)
        for word in ("Copyright", "licen[cs]e"):
            if not re.search(word, text):
                findings.append(Finding(name, 1, f"it does not say {word}"))
    return findings


def changelog(names: list[str]) -> list[Finding]:
    """Makes Debian's changelog of CHANGELOG.md, and has dpkg-parsechangelog read it."""
    need("dpkg-parsechangelog")
    module = making("changelog")
    text = read("CHANGELOG.md")
    findings = [Finding(names[0], at, f"no heading of a version: {line}") for at, line in enumerate(text.split("\n"), 1)
                if line.startswith("## ") and line != "## Next" and not module.HEADING.fullmatch(line)]
    if findings or not module.HEADING.search(text):
        return findings or [Finding(names[0], 1, "no version has a number")]
    # what is under Next gets the number of a commit, which a tree without git has not
    module.last_commit = lambda: (datetime.date.today(), "0.none")
    versions = module.versions()
    with tempfile.TemporaryDirectory(prefix="lint-changelog-") as folder:
        made = pathlib.Path(folder, "changelog")
        made.write_text(module.debian(versions, "A Name <name@example.org>"))
        done = call(["dpkg-parsechangelog", "--all", "-l", made])
    findings += [Finding(names[0], 1, line) for line in done.text.splitlines() if "warning" in line or "error" in line]
    days = [item.day for item in versions if "+git" not in item.number]
    if days != sorted(days, reverse=True):
        findings.append(Finding(names[0], line_of(text, "## "), "the days of the versions do not go back"))
    return findings
