"""The functions of a source, each with the lines of its head and of its body."""
import re
from typing import NamedTuple

BLOCK = re.compile(r"^(impl|pub trait|trait)\b(.*)\{")
FUNCTION = re.compile(r"^( *)(?:pub )?(?:pub\([a-z ]+\) )?(?:const )?(?:unsafe )?fn (\w+)")
CALLED = re.compile(r"(?:(\w+)(?:::<[^>]*>)?::|(\.))?\b(\w+)(?:::<[^>]*>)?\(")


class Function(NamedTuple):
    """A function: its type, which is empty if it has none, its name, its file, its lines from 0 on (the first, which is
    that of its attributes if it has some, the one where its head ends, the last), and what it calls."""

    owner: str
    name: str
    file: str
    first: int
    begin: int
    last: int
    calls: frozenset[tuple[str, str]]

    @property
    def full(self) -> str:
        return f"{self.owner}::{self.name}" if self.owner else self.name


def of_block(line: str) -> tuple[str, str]:
    """The type of a block and the trait that it gives a body to, or the name of a trait that it declares."""
    found = BLOCK.match(line)
    text = found[2] if found else ""
    while re.search(r"<[^<>]*>", text):
        text = re.sub(r"<[^<>]*>", "", text)
    words = text.replace("(", " (").split()
    if "for" in words:
        at = words.index("for")
        return " ".join(words[at + 1:]), words[at - 1].split("::")[-1]
    return (words[0].rstrip(":") if words else ""), ""


def end_of(lines: list[str], at: int, indent: str) -> tuple[int, int]:
    """The lines where the head of a function ends, and its body."""
    begin = at
    while not re.match(rf"{indent}([^ ].*)?(\{{|\{{\}}|;)$|.*\}};$", lines[begin]):
        begin += 1
    end = begin
    while lines[begin].endswith("{") and lines[end] != f"{indent}}}":
        end += 1
    return begin, end


def functions(file: str, text: str) -> list[Function]:
    """The functions of a source, but those of its tests."""
    found, owner, lines = [], "", text.split("\n")
    for at, line in enumerate(lines):
        if line.startswith("#[cfg(test)]"):
            break
        if BLOCK.match(line):
            owner = of_block(line)[0]
        elif line.startswith("}"):
            owner = ""
        named = FUNCTION.match(line)
        if named:
            begin, end = end_of(lines, at, named[1])
            first = at
            while first and lines[first - 1].startswith(f"{named[1]}#["):
                first -= 1
            body = "\n".join(lines[begin:end + 1])
            calls = frozenset((of or dot, name) for of, dot, name in CALLED.findall(body))
            found.append(Function(owner, named[2], file, first, begin, end, calls))
    return found
