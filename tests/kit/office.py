"""Offices that are served at a port of their own, until the trial lets go of them."""
from __future__ import annotations

import functools
import http.client
import json
import pathlib
import subprocess
import tempfile
from collections.abc import Callable, Mapping, Sequence
from typing import IO, Any, NamedTuple, Self

from kit.commands import OFFICE, Done, run
from kit.ports import free_port

TRIES = 20
SECONDS = 600
"""a request that takes longer hangs, however busy the machine is"""
TAKEN = (b"office: socket", b"cannot be bound")
"""what the program and office-serve report of a port that another process has"""


class NotServed(Exception):
    """The program does not serve the office; the text has what it wrote."""


class Answer(NamedTuple):
    """The status, the field lines and the body of an answer."""

    status: int
    head: Mapping[str, str]
    body: bytes


class Started(NamedTuple):
    """A process that listens at a port, with the file of its standard error."""

    process: subprocess.Popen[bytes]
    port: int
    errors: IO[bytes]


def start(command: Callable[[int], Sequence[object]], **how: Any) -> Started:
    """Starts the command of a free port, and again at another one if a process took the port meanwhile."""
    why = b""
    for _ in range(TRIES):
        port, errors = free_port(), tempfile.TemporaryFile()
        process = subprocess.Popen([str(each) for each in command(port)], stdin=subprocess.DEVNULL, stdout=subprocess.PIPE,
                                   stderr=errors, **how)
        assert process.stdout
        line = process.stdout.readline()
        if line == f"listening 127.0.0.1:{port}\n".encode():
            return Started(process, port, errors)
        process.kill()
        process.wait()
        errors.seek(0)
        why = line + errors.read()
        if not any(each in why for each in TAKEN):
            break
    raise NotServed(why.decode(errors="replace"))


@functools.cache
def after(acts: pathlib.Path) -> tuple[Done, dict[str, bytes]]:
    """Applies a list of acts to a new office, once in a trial. Returns what the program reported, and the files of the office."""
    with tempfile.TemporaryDirectory() as folder:
        done = run(OFFICE, "apply", pathlib.Path(folder, "office.db"), acts)
        return done, {each.name: each.read_bytes() for each in pathlib.Path(folder).iterdir()}


def filed(folder: pathlib.Path, acts: pathlib.Path) -> pathlib.Path:
    """Puts an office to which a list of acts was applied into a folder, and returns its FILE."""
    for name, data in after(acts)[1].items():
        (folder / name).write_bytes(data)
    return folder / "office.db"


class Office:
    """The office in a file, served by the program. Used by `with`, the program is killed at the end."""

    def __init__(self, file: pathlib.Path, count: int = 1_000_000, user: int | None = None) -> None:
        self.file = file
        how: dict[str, Any] = {} if user is None else {"user": user, "group": user, "extra_groups": []}
        self.process, self.port, self.errors = start(lambda port: [OFFICE, "serve", file, port, count], **how)
        self.address = f"http://127.0.0.1:{self.port}"

    def __enter__(self) -> Self:
        return self

    def __exit__(self, *_: object) -> None:
        self.end()

    def ask(self, method: str, path: str, body: bytes | None = None, head: Mapping[str, str] | None = None) -> Answer:
        """Sends a request by Python's http.client, and returns its whole answer."""
        connection = http.client.HTTPConnection("127.0.0.1", self.port, timeout=SECONDS)
        try:
            connection.request(method, path, body, dict(head or {}))
            reply = connection.getresponse()
            return Answer(reply.status, dict(reply.getheaders()), reply.read())
        finally:
            connection.close()

    def post(self, acts: Sequence[Mapping[str, object]]) -> Answer:
        """Sends acts."""
        return self.ask("POST", "/acts", json.dumps(acts).encode(), {"Content-Type": "application/json"})

    def wait(self) -> int:
        """Waits until a program that serves a number of requests has ended, and returns its status."""
        return self.process.wait(SECONDS)

    def written(self) -> tuple[bytes, bytes]:
        """Returns what a program that has ended wrote to standard output after its line, and to standard error."""
        assert self.process.stdout
        self.errors.seek(0)
        return self.process.stdout.read(), self.errors.read()

    def state(self) -> str:
        """Returns the letter of Linux for the state of the program: T is stopped, S asleep."""
        return pathlib.Path(f"/proc/{self.process.pid}/stat").read_text().rpartition(")")[2].split()[0]

    def end(self) -> None:
        """Kills the program: what it answered is in FILE and its log."""
        self.process.kill()
        self.process.wait()
        self.errors.close()
        if self.process.stdout:
            self.process.stdout.close()
