"""Earlier contents of changed files, so that they can be restored."""
import os
import stat
from pathlib import Path

from office_common import files
from office_setup.machine import Machine
from office_setup.made import Made


class Undo:
    """Files as they were before their first change."""

    def __init__(self, machine: Machine, made: Made) -> None:
        self.machine, self.made = machine, made
        self.digests: dict[str, str | None] = {}
        self.links: dict[Path, str] = {}
        self.texts: dict[Path, tuple[bytes, int, int, int]] = {}
        self.absent: list[Path] = []

    def note(self, path: str) -> None:
        """Notes the present content of a file, once."""
        if path in self.digests:
            return
        self.digests[path] = self.made.digests.get(path)
        file = self.machine.at(path)
        if file.is_symlink():
            self.links[file] = os.readlink(file)
        elif file.is_file():
            state = file.stat()
            self.texts[file] = (file.read_bytes(), stat.S_IMODE(state.st_mode), state.st_uid, state.st_gid)
        else:
            self.absent.append(file)

    def put_back(self) -> None:
        """Restores each file that was noted."""
        for file in self.absent:
            file.unlink(missing_ok=True)
        for file, target in self.links.items():
            file.unlink(missing_ok=True)
            file.symlink_to(target)
        for file, (data, mode, user, group) in self.texts.items():
            file.unlink(missing_ok=True)
            files.write(file, data, mode, (user, group))
        for path, digest in self.digests.items():
            self.made.restore(path, digest)
