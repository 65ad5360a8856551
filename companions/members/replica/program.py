"""The office's program: what is run is what was hashed.

The file is opened once, at the start of the member, and stays open. Every process of the office, also the one that
examines a snapshot, is started from that descriptor, and its bytes are hashed before. So a file that comes to the name
later, as an upgrade brings it, is never run by a member that answers by the old one.
"""
from __future__ import annotations

import hashlib
import os
import shutil
import subprocess
from typing import Any, Sequence

from office_common import program

from replica.errors import Halt

PART = 1 << 20


class Program:
    """The program in a file, for any number of threads."""

    def __init__(self, name: str, disk: str | None = None) -> None:
        """Opens and hashes it. `disk` is OFFICE_DISK of what is run, unless the environment's is taken."""
        path = shutil.which(name)
        if path is None:
            raise SystemExit(f"office-member: there is no program {name}")
        self.path = path
        self.descriptor = os.open(path, os.O_RDONLY | os.O_CLOEXEC)
        self.digest = self.hash()
        self.environment = dict(os.environ)
        if disk is not None:
            self.environment["OFFICE_DISK"] = disk

    def hash(self) -> str:
        """Gives the SHA-256 of what the descriptor reads now."""
        total, at = hashlib.sha256(), 0
        while part := os.pread(self.descriptor, PART, at):
            total.update(part)
            at += len(part)
        return total.hexdigest()

    def start(self, args: Sequence[str], **more: Any) -> subprocess.Popen[bytes]:
        """Starts the program; its process ends with this thread. Halt where its file was written over."""
        if self.hash() != self.digest:
            raise Halt(f"the program {self.path} was written over while this member ran")
        return program.start(self.path, list(args), self.descriptor, env=self.environment, **more)

    def run(self, args: Sequence[str]) -> None:
        """Runs it to its end. CalledProcessError where that is not status 0."""
        status = self.start(args, stdout=subprocess.DEVNULL).wait()
        if status != 0:
            raise subprocess.CalledProcessError(status, [self.path, *args])
