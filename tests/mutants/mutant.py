"""The mutants of this folder: how they are read, and which were refused as the sources are.

A file NAME.mutants lists those of the crate NAME. A line `# FILE` names the source that the mutants below it edit, and
a line `## MUTANT` begins one. Its lines `file:`, `old:` and `new:` are those of a must-fail edit of the kit; where its
first edit is in FILE, it needs no line `file:`.

What was refused is on record outside of the repository, by a sum of the mutant's texts, of the files that it edits and
of the definitions that these cite.
"""
import hashlib
import os
import pathlib
import re
import threading
from typing import Iterator, NamedTuple

TOP = pathlib.Path(__file__).resolve().parent.parent.parent
FOLDER = TOP / "tests/mutants"
RECORD = pathlib.Path(os.environ.get("XDG_CACHE_HOME") or pathlib.Path.home() / ".cache") / "office/refused_mutants"
CITED = re.compile(r"\buse Rattle\.(\w+)\.specs\.([\w.]+)")

Texts = dict[str, str]


class Unreadable(Exception):
    """A line of a file of mutants that is none of theirs."""


class Mutant(NamedTuple):
    """A mutant: its crate, its name, and its edits, each the path of a file, the text that goes and the new one."""

    crate: str
    name: str
    edits: tuple[tuple[str, str, str], ...]

    @property
    def key(self) -> str:
        return f"{self.crate}/{self.name}"

    @property
    def text(self) -> str:
        """The mutant as a must-fail edit of the kit."""
        lines, at = [], ""
        for path, old, new in self.edits:
            lines += [] if path == at else [f"file: {path}"]
            lines += [f"old: {old}", f"new: {new}"]
            at = path
        return "\n".join(lines) + "\n"


def edits_of(lines: list[str], path: str) -> tuple[tuple[str, str, str], ...]:
    """The edits in some lines, of which the first are of that file."""
    found, old = [], ""
    for line in lines:
        word, colon, rest = line.partition(":")
        rest = rest.removeprefix(" ")
        if word == "file" and colon:
            path = rest.strip()
        elif word == "old" and colon:
            old = rest
        elif word == "new" and colon and path and old:
            found.append((path, old, rest))
            old = ""
        elif line:
            raise Unreadable(f"`{line}` is no `old:` or `new:` of a known file, and each text is one line")
    if old or not found:
        raise Unreadable("no `new:` follows its `old:`" if old else "it changes nothing")
    return tuple(found)


def mutants_in(text: str, crate: str) -> Iterator[Mutant]:
    """The mutants that a file of them lists."""
    path = ""
    for section in re.split(r"^(?=##? )", text, flags=re.M):
        head, *lines = section.rstrip("\n").split("\n")
        if head.startswith("## "):
            try:
                yield Mutant(crate, head[3:].strip(), edits_of(lines, path))
            except Unreadable as why:
                raise Unreadable(f"tests/mutants/{crate}.mutants: {head[3:].strip()}: {why}") from None
        elif head.startswith("# ") and not "".join(lines):
            path = head[2:].strip()
        elif section.strip():
            raise Unreadable(f"tests/mutants/{crate}.mutants: `{(head + ''.join(lines))[:60]}` belongs to no mutant")


def mutants() -> list[Mutant]:
    """The mutants of this folder, by crate and name."""
    found = [it for file in FOLDER.glob("*.mutants") for it in mutants_in(file.read_text(), file.stem)]
    return sorted(found, key=lambda it: it.key)


def texts_of_folder(top: pathlib.Path) -> Texts:
    """The sources and definitions of a folder, by path."""
    found = {}
    for part in ("crates/*/src", "crates/*/specs"):
        for folder in top.glob(part):
            for file in folder.rglob("*"):
                if file.suffix in (".rt", ".antt"):
                    found[file.relative_to(top).as_posix()] = file.read_text()
    return found


def cited_by(texts: Texts, crate: str, paths: list[str]) -> list[str]:
    """The modules of a crate's own definitions that files cite, and those that these cite in turn."""
    found: list[str] = []
    for path in paths:
        for of, module in CITED.findall(texts.get(path, "")):
            parts = module.rstrip(".").split(".") if of == crate else []
            files = [f"crates/{crate}/specs/{'/'.join(parts[:n])}.antt" for n in range(1, len(parts) + 1)]
            found += [it for it in files if it in texts]
    more = sorted(set(found) - set(paths))
    return sorted({*more, *cited_by(texts, crate, sorted({*paths, *more}))}) if more else []


def sum_of(texts: Texts, it: Mutant) -> str:
    """The sum of a mutant, of what it edits, and of the definitions that these cite."""
    edited = sorted({f"crates/{it.crate}/{path}" for path, _, _ in it.edits})
    whole = [it.text, *(texts.get(path, "") for path in [*edited, *cited_by(texts, it.crate, edited)])]
    return hashlib.sha256("\0".join(whole).encode()).hexdigest()[:16]


class Refused:
    """The mutants that were refused, a line each: the sum and the name."""

    def __init__(self, texts: Texts) -> None:
        self.texts, self.lock = texts, threading.Lock()

    def lines(self) -> set[str]:
        return set(RECORD.read_text().split("\n")) - {""} if RECORD.exists() else set()

    def line(self, it: Mutant) -> str:
        return f"{sum_of(self.texts, it)} {it.key}"

    def note(self, it: Mutant, is_refused: bool) -> None:
        """Writes down what came of a mutant, as the sources are."""
        with self.lock:
            lines = self.lines() - {self.line(it)} | ({self.line(it)} if is_refused else set())
            RECORD.parent.mkdir(parents=True, exist_ok=True)
            RECORD.write_text("".join(f"{line}\n" for line in sorted(lines, key=lambda line: line[17:])))
