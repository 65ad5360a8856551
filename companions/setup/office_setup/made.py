"""Digests of generated files. They tell a generated text from a change that somebody made, which is kept aside."""
import hashlib
import json
import shutil
from pathlib import Path

from office_common import files
from office_setup.machine import Machine

STATE = "/var/lib/office-setup/made.json"
SUFFIX = ".before-setup"
READ_WHOLE = {"/etc/nginx/sites-enabled": "/etc/nginx/sites-available", "/etc/logrotate.d": "/etc/office"}
"""folders in which a program reads every file, each with the folder for files kept aside from there"""


def digest_of(data: bytes) -> str:
    return hashlib.sha256(data).hexdigest()


class Made:
    """The digest of each generated file, stored in a file of its own."""

    def __init__(self, machine: Machine) -> None:
        self.machine = machine
        self.file = machine.at(STATE)
        self.digests: dict[str, str] = {}
        if self.file.is_file():
            self.digests = json.loads(self.file.read_bytes())

    def is_as_made(self, path: str) -> bool:
        """Returns whether a file still has the text that was generated."""
        return self.digests.get(path) == digest_of(self.machine.at(path).read_bytes())

    def note(self, path: str, data: bytes) -> None:
        """Notes the text that was generated for a path."""
        self.digests[path] = digest_of(data)
        self.save()

    def restore(self, path: str, digest: str | None) -> None:
        """Notes an earlier digest of a path again, or none."""
        self.digests.pop(path, None)
        if digest is not None:
            self.digests[path] = digest
        self.save()

    def forget(self, path: str) -> None:
        if path in self.digests:
            self.restore(path, None)

    def save(self) -> None:
        self.file.parent.mkdir(mode=0o755, parents=True, exist_ok=True)
        text = json.dumps(self.digests, indent=1, sort_keys=True)
        files.write(self.file, text.encode(), 0o600)

    def keep_aside(self, path: str) -> str | None:
        """Copies a file that somebody changed to a name of its own, and returns that; None if nobody changed it."""
        source = self.machine.at(path)
        if source.is_symlink() or not source.is_file() or self.is_as_made(path):
            return None
        folder = READ_WHOLE.get(str(Path(path).parent), str(Path(path).parent))
        name = Path(folder, Path(path).name + SUFFIX)
        number = 1
        while self.machine.at(name).exists():
            if self.machine.at(name).read_bytes() == source.read_bytes():
                return str(name)
            number += 1
            name = Path(folder, f"{Path(path).name}{SUFFIX}-{number}")
        shutil.copy2(source, self.machine.at(name))
        self.machine.own(str(name), self.machine.owner_of(path))
        return str(name)
