"""The lists of what the packages have: the files of the repository, and where each goes on a machine."""
import pathlib
from typing import NamedTuple

from making.words import TOP

HERE = TOP / "deploy/packaging"
FILES = "files"
REPLICAS = "replicas/files"
"""the list of the package office-replicas"""
DOC = "usr/share/doc/office"
DOC_REPLICAS = "usr/share/doc/office-replicas"
SHARE = "usr/share/office"
SERVICE = ("nginx", "gate", "monitor")
"""folders of SHARE that lay in the documentation before, in its folder `service`"""


class Listed(NamedTuple):
    """A line of a list: a file or a folder of the repository, the folder that it goes to, and its name there."""

    source: pathlib.Path
    folder: str
    name: str


def listed(of: str = FILES) -> list[Listed]:
    """Reads the lines of deploy/packaging/files, or of another list there."""
    lines = [line.split() for line in (HERE / of).read_text().split("\n") if line and not line.startswith("#")]
    return [Listed(TOP / source, folder.strip("/"), name[0] if name else pathlib.PurePath(source).name)
            for source, folder, *name in lines]


def place_of(source: str, of: str = FILES) -> str | None:
    """Returns where a package puts a file of the repository, if the package has it."""
    path = TOP / source
    for item in listed(of):
        if path.is_relative_to(item.source):
            return str(pathlib.PurePath(item.folder, item.name, path.relative_to(item.source)))
    return None
