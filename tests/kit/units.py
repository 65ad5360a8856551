"""Units of systemd as a machine has them: each with its drop-ins, from the folders of the repository that have some."""
from __future__ import annotations

import pathlib
import shutil
from collections.abc import Iterator

TOP = pathlib.Path(__file__).resolve().parents[2]
FOLDERS = (TOP / "deploy/systemd", *sorted(TOP.glob("companions/*/units")))
SUFFIXES = (".service", ".timer", ".socket", ".path", ".target")
LAID_TWICE = {"office@.service.d": "office-.service.d"}
"""folders of drop-ins that a machine has too, each with the one whose files are in it"""


def unit_files(*folders: pathlib.Path) -> list[pathlib.Path]:
    """Lists the units of these folders, or of all."""
    return [file for folder in folders or FOLDERS for file in sorted(folder.iterdir()) if file.suffix in SUFFIXES]


def drop_ins(*folders: pathlib.Path) -> list[pathlib.Path]:
    """Lists the drop-ins of these folders, or of all."""
    return [file for folder in folders or FOLDERS for file in sorted(folder.glob("*.service.d/*.conf"))]


def lay_out(to: pathlib.Path, *folders: pathlib.Path) -> None:
    """Copies the units of these folders, or of all, into one, with their drop-ins. It adds to what is there."""
    to.mkdir(parents=True, exist_ok=True)
    for file in unit_files(*folders):
        shutil.copy(file, to)
    for file in drop_ins(*folders):
        for folder in (file.parent.name, *(twice for twice, of in LAID_TWICE.items() if of == file.parent.name)):
            (to / folder).mkdir(exist_ok=True)
            shutil.copy(file, to / folder)


def places_of(name: str) -> Iterator[str]:
    """Returns the folders of drop-ins that systemd reads for a unit, the nearest first."""
    yield f"{name}.d"
    if f"{name}.d" in LAID_TWICE:
        yield LAID_TWICE[f"{name}.d"]
    stem, _, suffix = name.rpartition(".")
    for at in range(len(stem) - 1, 0, -1):
        if stem[at] == "-":
            yield f"{stem[:at + 1]}.{suffix}.d"


def text_of(unit: pathlib.Path) -> str:
    """Returns a unit with its drop-ins behind it, as systemd reads them: by their names, the nearest of each name."""
    by_name: dict[str, pathlib.Path] = {}
    for place in places_of(unit.name):
        for file in drop_ins():
            if file.parent.name == place:
                by_name.setdefault(file.name, file)
    own = [file for _, file in sorted(by_name.items())]
    return "\n".join(file.read_text(encoding="utf-8") for file in (unit, *own))
