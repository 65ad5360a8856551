"""An office that is asked: over HTTP, or the program itself on a scratch file. Both answer a list of acts."""
from __future__ import annotations

import json
import pathlib
import shutil
from typing import BinaryIO, Protocol

from office_common.client import Client, Reply
from office_common.errors import NoAnswer
from office_common.facts import LONGEST_ACTS

Act = dict[str, object]
Answer = dict[str, object]
# some room is left in a request
MOST_BYTES = LONGEST_ACTS - 1_024
SECONDS = 600


class Stopped(Exception):
    """The office gave no answer to all acts: the answers that it gave, and what it said."""

    def __init__(self, answers: list[Answer], why: str) -> None:
        super().__init__(why)
        self.answers = answers


class Office(Protocol):
    """What takes a list of acts, and answers each."""

    def acts(self, acts: list[Act]) -> list[Answer]: ...


def line_of(act: Act) -> str:
    """Returns an act as one line of JSON."""
    return json.dumps(act, ensure_ascii=False, separators=(",", ":"))


def listed(lines: list[str]) -> str:
    """Returns a list of acts, each in a line of its own."""
    return "[\n" + ",\n".join(lines) + "\n]\n"


class OverHttp:
    """An office that a service serves; behind nginx with a name and a password, and TLS by `ca`."""

    def __init__(self, url: str, login: str | None = None, ca: pathlib.Path | None = None) -> None:
        if not url.startswith(("http://", "https://")):
            raise ValueError(f"{url} is no address of an office: write http://127.0.0.1:8080 or https://HOST")
        self.client = Client(url, SECONDS, login, ca)

    def request(self, method: str, path: str, body: bytes | None = None) -> Reply:
        """Sends one request, and returns the answer."""
        # nginx takes what acts from its own page alone, by this line
        lines = {"Origin": self.client.origin, "Content-Type": "application/json"}
        return self.client.ask(method, path, body, lines)

    def put(self, path: str, file: BinaryIO, length: int) -> Reply:
        """Sends a file of this length, which is read as it goes."""
        lines = {"Origin": self.client.origin, "Content-Type": "application/octet-stream",
                 "Content-Length": str(length)}
        return self.client.ask("PUT", path, file, lines)

    def acts(self, acts: list[Act]) -> list[Answer]:
        try:
            reply = self.request("POST", "/acts", listed([line_of(act) for act in acts]).encode())
        except NoAnswer as why:
            raise Stopped([], f"the office gave no answer ({why}): what was sent last may be done") from why
        try:
            read = json.loads(reply.body)
        except ValueError:
            read = None
        if reply.status in (200, 409) and isinstance(read, list):
            return read
        given = read.get("answers", []) if isinstance(read, dict) else []
        raise Stopped(given, f"the office answered {reply.status} {reply.body[:200].decode(errors='replace')}")


class OnCopy:
    """The program on a copy of an office, or on a new one: what it answers there, it answers to the same acts."""

    def __init__(self, folder: pathlib.Path, copy: pathlib.Path | None) -> None:
        # Linux alone has what these need, and all else of the tools runs wherever Python does
        from office_common import files, program
        if copy is not None:
            files.check_copy(copy)
            shutil.copyfile(copy, folder / "tried.db")
        self.server = program.Copy(folder / "tried.db")

    def __enter__(self) -> OverHttp:
        """Serves the copy, for this program alone to ask."""
        return OverHttp(f"http://127.0.0.1:{self.server.__enter__()}")

    def __exit__(self, *_: object) -> None:
        self.server.__exit__()
