"""An office that `office gate` serves: asked as its proxy asks it, or with any bytes."""
from __future__ import annotations

import json
import pathlib
import shutil
import socket
import sqlite3
import tempfile
from collections.abc import Mapping, Sequence
from contextlib import closing
from typing import Any, NamedTuple, Self

from kit.commands import OFFICE, TOP
from kit.office import SECONDS, Started, start
from kit.sockets import rest_of

SECRET = "0123456789abcdefABCDEF0123456789"
DAY = "2026-06-01"
"""the day of the acts, and the one that the proxy states"""
SITE = "site https://localhost\nzone UTC\n"
CITY = "".join(line for line in (TOP / "companions/gate/city.access").read_text().splitlines(True)
               if not line.startswith(("site ", "zone ", "begin", "end")))
"""the settings that are shipped, without the lines of SITE and the marks around them"""
ROLES = "".join(f"{it}\n" for it in CITY.splitlines() if it.startswith("role "))
TOKEN = {"error": "token"}
LIMITED = ["sh", "-c", 'trap "" XFSZ; exec "$@"', "sh"]
"""starts a program whose writes fail beyond a limit on the size of a file, as on a full disk"""
Act = Mapping[str, object]


class Answer(NamedTuple):
    """The status of an answer, and its body as JSON, or as it is."""

    status: int
    body: Any


def answer_in(data: bytes) -> Answer:
    """Reads an answer; status 0 stands for bytes that are none."""
    head, _, body = data.partition(b"\r\n\r\n")
    parts = head.split(b" ", 2)
    status = int(parts[1]) if len(parts) > 1 and parts[1].isdigit() else 0
    try:
        return Answer(status, json.loads(body))
    except ValueError:
        return Answer(status, body)


def denied(error: str, rule: str | None = None) -> dict[str, object]:
    """Returns the body of a reading that is denied."""
    return {"error": error, "rule": rule}


def stopped(answers: Sequence[object], error: str, rule: str | None = None) -> Answer:
    """Returns the answer to a list whose acts are done up to one that is denied."""
    return Answer(403, {"answers": list(answers), "place": len(answers), **denied(error, rule)})


class Gated:
    """The command over the office of a folder, with a journal or without. Used by `with`, it is killed at the end."""

    def __init__(self, folder: pathlib.Path, settings: str, journal: str = "-") -> None:
        self.folder, self.journal = folder, folder / journal
        self.lines = str(self.journal) if journal != "-" else journal
        folder.mkdir(exist_ok=True)
        self.file, self.settings, self.token = folder / "office.db", folder / "access", folder / "token"
        self.token.write_text(f"{SECRET}\n")
        self.settle(settings)
        self.served: Started
        self.start()

    def start(self, count: int = 1_000_000) -> None:
        """Starts the command, and waits until the office is open."""
        self.served = start(lambda port: [*LIMITED, OFFICE, "gate", self.file, port, count, self.settings, self.token,
                                          self.lines])

    def settle(self, settings: str) -> None:
        """Puts other settings in the place of the file at once, as `mv` does."""
        new = self.folder / "access.new"
        new.write_text(SITE + settings)
        new.rename(self.settings)

    def end(self) -> None:
        """Kills the program: what it answered is in FILE and its log."""
        process, _, errors = self.served
        process.kill()
        process.wait()
        errors.close()
        if process.stdout:
            process.stdout.close()

    def __enter__(self) -> Self:
        return self

    def __exit__(self, *_: object) -> None:
        self.end()

    def errors(self) -> str:
        """Returns what the program printed on standard error."""
        self.served.errors.seek(0)
        return self.served.errors.read().decode(errors="replace")

    # ---- requests

    def raw(self, data: bytes) -> bytes:
        """Sends bytes, and returns all that come back."""
        with socket.create_connection(("127.0.0.1", self.served.port), SECONDS) as link:
            link.sendall(data)
            link.shutdown(socket.SHUT_WR)
            return rest_of(link)

    def ask(self, name: str, method: str, path: str, body: bytes | None = None, day: str = DAY) -> Answer:
        """Asks as the proxy does for a name that signed in."""
        return answer_in(self.raw(request(method, path, body, stated(name, day))))

    def get(self, name: str, path: str) -> Answer:
        return self.ask(name, "GET", path)

    def act(self, name: str, *acts: Act, day: str = DAY) -> Answer:
        """Sends acts; each has DAY as its day if it has none."""
        given = [dict(it) if it["act"] == "run-step" else {"day": DAY, **it} for it in acts]
        return self.ask(name, "POST", "/acts", json.dumps(given).encode(), day)

    def resume(self, name: str) -> Answer:
        return self.ask(name, "POST", "/run/resume", b"")

    # ---- the file

    def rows(self, query: str) -> list[tuple[Any, ...]]:
        """Reads a copy of FILE and its log. Each act that was answered is in it."""
        with tempfile.TemporaryDirectory(dir=self.folder) as place:
            for end in ("", "-wal"):
                if pathlib.Path(f"{self.file}{end}").exists():
                    shutil.copyfile(f"{self.file}{end}", f"{place}/copy.db{end}")
            with closing(sqlite3.connect(f"{place}/copy.db")) as db:
                return db.execute(query).fetchall()

    def column(self, query: str) -> list[Any]:
        return [row[0] for row in self.rows(query)]


def stated(name: str, day: str = DAY) -> list[tuple[str, str]]:
    """Lists the lines of the proxy for a name."""
    return [("Office-Token", SECRET), ("Office-Name", name), ("Office-Day", day)]


def request(method: str, path: str, body: bytes | None, lines: Sequence[tuple[str, str]]) -> bytes:
    """Writes a request with these field lines."""
    more = [] if body is None else [("Content-Length", str(len(body)))]
    head = "".join(f"{name}: {value}\r\n" for name, value in [("Host", "office"), *lines, *more])
    return f"{method} {path} HTTP/1.1\r\n{head}\r\n".encode() + (body or b"")
