"""Asks an office over HTTP: at its own port on this machine, or at its address behind nginx."""
from __future__ import annotations

import json
from collections.abc import Iterator
from pathlib import Path
from typing import Any

from office_common.client import Answer, Client
from office_common.errors import IMPOSSIBLE, USAGE, Lost, NoAnswer, Refused

SECONDS = 300
# a refusal of nginx or of the office is shorter
LONGEST_ERROR = 4096


class Office:
    """The address of an office, as `http://127.0.0.1:8081` or `https://NAME/city`, and who asks."""

    def __init__(self, address: str, login: str | None = None, authority: Path | None = None) -> None:
        self.address, self.login, self.authority = address, login, authority
        if not address.startswith(("http://", "https://")):
            raise Refused(USAGE, f"{address} is no address of an office, as https://NAME/city")
        try:
            self.client = Client(address, SECONDS, login, authority)
        except ValueError as why:
            raise Refused(USAGE, str(why)) from why

    def send(self, path: str) -> Answer:
        """Sends a GET and returns the answer with its head read."""
        try:
            return self.client.send("GET", f"/{path}")
        except NoAnswer as why:
            raise Refused(IMPOSSIBLE, f"{self.address} does not answer: {why}") from why

    def parts_of(self, path: str) -> Iterator[bytes] | None:
        """Returns the body of a GET in pieces; None if the office answers that it has no such thing."""
        answer = self.send(path)
        if answer.status == 200:
            return pieces(answer, f"{self.address}/{path}")
        self.fail_unless_missing(answer, path)
        return None

    def get(self, path: str) -> bytes | None:
        """Returns the whole body of a GET; None if the office answers that it has no such thing."""
        parts = self.parts_of(path)
        return None if parts is None else b"".join(parts)

    def json(self, path: str) -> Any:
        """Returns the JSON at a path; None if the office answers that it has no such thing."""
        body = self.get(path)
        return None if body is None else json_of(body, f"{self.address}/{path}")

    def fail_unless_missing(self, answer: Answer, path: str) -> None:
        text = error_text(answer)
        if answer.status == 401:
            raise Refused(IMPOSSIBLE, f"{self.address} wants a name and a password, by --login, or they are wrong")
        if answer.status != 404:
            raise Refused(IMPOSSIBLE, f"{self.address}/{path} answers {answer.status} {text[:200]}")
        if text == '{"error":"path"}':
            raise Refused(IMPOSSIBLE, f"{self.address} does not know the path {path}: is this the address of an office?")


def error_text(answer: Answer) -> str:
    """Returns what an answer gives as an error, as far as it comes."""
    try:
        with answer:
            return answer.body(LONGEST_ERROR).decode(errors="replace").strip()
    except Lost:
        return ""


def pieces(answer: Answer, name: str) -> Iterator[bytes]:
    """Reads a body piece by piece, and fails if it ends before its length."""
    try:
        with answer:
            yield from answer.parts()
    except Lost as why:
        raise Refused(IMPOSSIBLE, f"the answer of {name} broke off: {why}") from why


def json_of(body: bytes, name: str) -> Any:
    try:
        return json.loads(body)
    except ValueError as why:
        raise Refused(IMPOSSIBLE, f"{name} is no JSON: {why}") from why


def login_in(file: Path | None) -> str | None:
    """Reads the name and the password of a file with one line NAME:PASSWORD, so that no process list shows them."""
    if file is None:
        return None
    try:
        line = file.read_text().rstrip("\r\n")
    except (OSError, UnicodeDecodeError) as why:
        raise Refused(USAGE, f"{file} cannot be read: {why}") from why
    if ":" not in line or "\n" in line:
        raise Refused(USAGE, f"{file} has not one line NAME:PASSWORD")
    return line
