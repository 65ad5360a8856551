"""Acts as files that one request takes each: all of them are written, or none."""
from __future__ import annotations

import os
import pathlib
from collections.abc import Iterable, Iterator

from asking.office import MOST_BYTES, Act, line_of, listed

from spreadsheet.sheet import Unreadable


def lists_of(acts: Iterable[Act], most: int = MOST_BYTES) -> Iterator[list[str]]:
    """Gives the lines of acts in lists, in their order, each of which fits into one request."""
    lines: list[str] = []
    size = 0
    for act in acts:
        line = line_of(act)
        more = len(line.encode()) + 2
        if lines and size + more > most:
            yield lines
            lines, size = [], 0
        lines.append(line)
        size += more
    yield lines


def part_name(output: pathlib.Path, at: int) -> pathlib.Path:
    return output.with_name(f"{output.stem}-{at}{output.suffix}")


def write(output: pathlib.Path, acts: Iterable[Act], most: int = MOST_BYTES) -> list[pathlib.Path]:
    """Writes the acts as OUTPUT, or as OUTPUT-1, OUTPUT-2 .. if one request does not take them: the files."""
    new: list[pathlib.Path] = []
    try:
        for at, lines in enumerate(lists_of(acts, most), 1):
            file = part_name(output, at).with_name(f".{part_name(output, at).name}.new")
            new.append(file)
            file.write_text(listed(lines), encoding="utf-8")
        names = [output] if len(new) == 1 else [part_name(output, at) for at in range(1, len(new) + 1)]
        check_stale(output, names)
        for file, name in zip(new, names, strict=True):
            os.replace(file, name)
    except OSError as why:
        raise Unreadable("output", f"{output} is not written: {why}") from why
    finally:
        for file in new:
            file.unlink(missing_ok=True)
    return names


def check_stale(output: pathlib.Path, names: list[pathlib.Path]) -> None:
    """A list of an earlier conversion would be taken for one of this: it is to go first."""
    parts = [it for it in output.parent.glob(f"{output.stem}-*{output.suffix}")
             if it.stem.removeprefix(f"{output.stem}-").isdigit()]
    stale = [it for it in {*parts, *([output] if output.exists() else [])} if it not in names]
    if stale:
        raise Unreadable("output", f"{min(stale)} is of an earlier conversion: remove it first")
