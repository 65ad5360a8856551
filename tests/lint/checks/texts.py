"""The texts of the page: what tests/web/texts.py judges, and that no text is there which no file of page/ names."""
from __future__ import annotations

import importlib
import json
import re
import sys
from typing import Any

from checks.finding import Finding, line_at
from checks.tree import TOP, files, read

ENGLISH = "page/texts/en.json"
TABLES = ("refusals", "faults", "statuses", "members", "proxy", "help")
"""parts that the page reads by numbers and names that the office answers with"""
PLACE = re.compile(r"\$\{[^{}]*(?:\{[^{}]*\}[^{}]*)*\}")
JOINED = re.compile(rf"(?:{PLACE.pattern}){{2,}}")
"""places with nothing between them, which are one"""


def module() -> Any:
    """Returns tests/web/texts.py."""
    if str(TOP / "tests/web") not in sys.path:
        sys.path.append(str(TOP / "tests/web"))
    return importlib.import_module("texts")


def line_of_key(name: str, key: str) -> int:
    """Returns the line of a file of texts that has a key, or that of its part; each part is two spaces further in."""
    lines, at = read(name).split("\n"), 0
    for depth, step in enumerate(key.split("."), 1):
        indent, start = "  " * depth, f"{'  ' * depth}{json.dumps(step, ensure_ascii=False)}:"
        below = range(at + 1, len(lines))
        end = next((line for line in below if not lines[line].startswith(indent)), len(lines))
        line = next((line for line in range(at + 1, end) if lines[line].startswith(start)), None)
        if line is None:
            break
        at = line
    return at + 1


def place_of(judgement: str, key: str) -> tuple[str, int]:
    """Returns the file and the line that a judgement of tests/web/texts.py is about."""
    if judgement.startswith("page/texts/"):
        name = judgement.split(" ")[0]
        return name, line_of_key(name, key)
    if "the page names" in judgement:
        for name in files():
            if name.startswith("page/") and name.endswith((".js", ".html")) and f'"{key}"' in read(name):
                return name, line_at(read(name), read(name).index(f'"{key}"'))
    if judgement.startswith("docs/ERRORS.md"):
        return ENGLISH, line_of_key(ENGLISH, key)
    return ("docs/WEB.md" if "WEB.md" in judgement else ENGLISH), 1


def difference(seen: Any, wanted: Any) -> list[str]:
    """Returns the keys in which two values differ; those of a list are its items."""
    if isinstance(seen, dict) and isinstance(wanted, dict):
        return sorted(key for key in seen.keys() | wanted.keys() if seen.get(key) != wanted.get(key))
    if isinstance(seen, list) and isinstance(wanted, list):
        return [item for item in seen if item not in wanted] + [item for item in wanted if item not in seen]
    return [repr(seen)]


def judged() -> list[Finding]:
    """Has tests/web/texts.py judge, and returns what does not hold."""
    page, findings = module(), []

    def note(judgement: str, keys: list[str]) -> None:
        for key in keys or [""]:
            file, line = place_of(judgement, str(key))
            findings.append(Finding(file, line, f"not so: {judgement}: {key}"))

    def same(judgement: str, seen: Any, wanted: Any) -> None:
        if seen != wanted:
            note(judgement, difference(seen, wanted))

    def judge(judgement: str, holds: bool, shown: str = "") -> None:
        if not holds:
            note(judgement, re.findall(r"'([^']+)'", shown))

    page.same, page.judge = same, judge
    page.tell()
    return findings


def patterns_in(source: str) -> list[re.Pattern[str]]:
    """Returns a pattern for each text of the source that has places, with a group for each place."""
    parts = [PLACE.split(JOINED.sub("${_}", text)) for text in re.findall(r"`([^`\n]*)`", source) if PLACE.search(text)]
    return [re.compile("(.+)".join(map(re.escape, item))) for item in parts if re.search(r"[a-z]", "".join(item))]


def unnamed() -> list[Finding]:
    """Finds texts that no file of page/ names: outright, by its part and a word, or by a text with places."""
    source = "\n".join(read(name) for name in files() if name.startswith("page/") and name.endswith((".js", ".html")))
    literals = set(re.findall(r"[\"`]([A-Za-z][\w.-]*)[\"`]", source))
    single = set(re.findall(r"[\w-]+", source))
    patterns = patterns_in(source)

    def is_word(text: str) -> bool:
        pieces = re.findall(r"[A-Z]?[a-z0-9-]+", text)
        is_joined = "".join(pieces) == text and len(pieces) > 1 and all(item in single for item in pieces)
        return text in single or text.isdigit() or is_joined or any(item.fullmatch(text) for item in patterns)

    def is_made(key: str) -> bool:
        matches = [item.fullmatch(key) for item in patterns if "\\." in item.pattern]
        return any(all(map(is_word, ".".join(match.groups()).split("."))) for match in matches if match)

    findings = []
    for key in module().flat(json.loads(read(ENGLISH))):
        part, _, last = key.rpartition(".")
        parts = [part[:item.start()] for item in re.finditer(r"\.|$", part)]
        is_part_named = any(item in literals or is_made(item) for item in parts)
        is_named = key in literals or is_made(key) or is_word(last) and is_part_named
        if key.split(".")[0] not in (*TABLES, "lang") and not is_named:
            findings.append(Finding(ENGLISH, line_of_key(ENGLISH, key), f"no file of page/ names {key}"))
    return findings


def texts(_: list[str]) -> list[Finding]:
    """Compares the texts with each other, with the pages, and with the files that name them."""
    try:
        return judged() + unnamed()
    except json.JSONDecodeError:
        return []  # the check json reports it
