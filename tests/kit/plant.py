"""Mistakes to plant in what no prover reads: how their lists are read, looked through and planted.

A list NAME.mutants has the form of tests/mutants, with lines more. A line `# FILE` names the file of the repository that
the mistakes below it change, and a line `## SENTENCE` begins one. `by:` is the part of the trial that must see it. `old:`
and `new:` are the text that goes and the text in its place. A text of several lines is as many lines of its key, and a
further `old:` behind a `new:` begins a further edit. `file:` names another file for the edits below it. `line:` is the
judgement that must fail, if the trial looks for one, and `alone: yes` keeps others from being planted beside it.
"""
from __future__ import annotations

import pathlib
import shutil
from collections.abc import Iterable, Iterator, Sequence
from typing import NamedTuple

TOP = pathlib.Path(__file__).resolve().parents[2]
LEFT_OUT = shutil.ignore_patterns("__pycache__")


class Unreadable(Exception):
    """A line of a list that belongs to no mistake."""


class Edit(NamedTuple):
    """A file from the top of the repository, the text that goes, and the text in its place."""

    file: str
    old: str
    new: str


class Mistake(NamedTuple):
    """A mistake: its name, the part that must see it, its edits, the judgement that fails, and its place in its list."""

    name: str
    part: str
    edits: tuple[Edit, ...]
    line: str
    is_alone: bool
    place: str


class Reader:
    """The lines of one mistake, as they come."""

    def __init__(self, name: str, file: str, place: str) -> None:
        self.name, self.file, self.place, self.last = name, file, place, ""
        self.texts: dict[str, str] = {}
        self.edits: list[tuple[str, list[str], list[str]]] = []

    def take(self, key: str, text: str) -> None:
        """Takes a line of the mistake."""
        if key == "old":
            if self.last != "old":
                self.edits.append((self.file, [], []))
            self.edits[-1][1].append(text)
        elif key == "new" and self.last in ("old", "new"):
            self.edits[-1][2].append(text)
        elif key == "file":
            self.file = text.strip()
        elif key in ("by", "line", "alone") and key not in self.texts:
            self.texts[key] = text
        else:
            raise Unreadable(f"{self.place}: {self.name}: `{key}: {text}` has no place there")
        self.last = key

    def mistake(self) -> Mistake:
        """Returns the mistake, once all its lines have come."""
        edits = tuple(Edit(file, "\n".join(old), "\n".join(new)) for file, old, new in self.edits)
        if not edits or self.last == "old" or not all(edit.file and edit.old for edit in edits) or "by" not in self.texts:
            raise Unreadable(f"{self.place}: {self.name}: it needs `by:`, a file, `old:` and `new:`")
        line, is_alone = self.texts.get("line", ""), self.texts.get("alone") == "yes"
        return Mistake(self.name, self.texts["by"], edits, line, is_alone, self.place)


def mistakes_in(text: str, place: str) -> Iterator[Mistake]:
    """Reads the mistakes of a list, which lies at a place of the repository."""
    reader: Reader | None = None
    file = ""
    for at, line in enumerate(text.split("\n"), 1):
        key, colon, rest = line.partition(":")
        if line.startswith("#"):
            if reader:
                yield reader.mistake()
            reader = Reader(line[3:].strip(), file, f"{place}:{at}") if line.startswith("## ") else None
            file = file if reader else line[2:].strip()
        elif colon and reader:
            reader.take(key, rest.removeprefix(" "))
        elif line:
            raise Unreadable(f"{place}:{at}: `{line[:60]}` belongs to no mistake")
    if reader:
        yield reader.mistake()


def mistakes(lists: pathlib.Path) -> list[Mistake]:
    """Reads a list, or all lists of a folder."""
    files = sorted(lists.glob("*.mutants")) if lists.is_dir() else [lists]
    return [it for file in files for it in mistakes_in(file.read_text(encoding="utf-8"), str(file.relative_to(TOP)))]


def chosen(all_mistakes: Iterable[Mistake], words: Sequence[str]) -> list[Mistake]:
    """Chooses the mistakes of the parts that are words, and those whose names contain another word; all without words."""
    every = list(all_mistakes)
    parts = {it.part for it in every} & set(words)
    others = set(words) - parts
    return [it for it in every if not words or it.part in parts or any(word in it.name for word in others)]


def hindrance(mistake: Mistake) -> str | None:
    """Returns why a mistake cannot be planted in the repository, or None."""
    texts: dict[str, str] = {}
    for file, old, new in mistake.edits:
        path = TOP / file
        if not path.is_file():
            return f"there is no {file}"
        text = texts.get(file) or path.read_text(encoding="utf-8")
        if text.count(old) != 1:
            return f"{old[:80]!r} is in {file} {text.count(old)} times, and not once"
        if old == new:
            return f"it changes nothing in {file}"
        texts[file] = text.replace(old, new)
    for file, text in texts.items():
        if file.endswith(".py"):
            try:
                compile(text, file, "exec", dont_inherit=True)
            except SyntaxError as error:
                return f"{file} does not compile with it: line {error.lineno}: {error.msg}"
    return None


def applies(some: Sequence[Mistake]) -> int:
    """Prints which mistakes cannot be planted, and returns the status: 0 if each can."""
    reasons = [(it, hindrance(it)) for it in some]
    for it, why in reasons:
        if why:
            print(f"{it.place}: {it.name}: {why}")
    failed = sum(why is not None for _, why in reasons)
    print(f"{len(reasons) - failed} apply, {failed} do not")
    return 1 if failed or not reasons else 0


def plant(top: pathlib.Path, sources: Iterable[str], some: Iterable[Mistake]) -> None:
    """Copies folders of the repository below another top, with mistakes in them; what was there before goes."""
    for folder in sources:
        shutil.rmtree(top / folder, ignore_errors=True)
        shutil.copytree(TOP / folder, top / folder, symlinks=True, ignore=LEFT_OUT)
    for it in some:
        for file, old, new in it.edits:
            path = top / file
            path.write_text(path.read_text(encoding="utf-8").replace(old, new), encoding="utf-8")
