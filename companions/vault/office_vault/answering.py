"""What the service answers: it takes objects in, and says which object a record's file is, for nginx to send.

    PUT /vault/SHA256          201 a new object, 200 there already; on the disk in both cases. With a line Office-Stored
                               nginx is sent there instead, and has a gate note it and answer
    GET /vault/limits          the most bytes of an object, and how many bytes fit now
    GET /records/N/files       the files that record N names, as JSON
    GET /records/N/files/K     the K-th of them

The office is asked for the content of the record at each GET, with the lines that nginx sets for the office. So who may
read the content may read the files, and nobody else.
"""
import contextlib
import json
import re
import socket
import sys
import threading
import urllib.parse
from collections.abc import Callable
from dataclasses import dataclass
from http.server import BaseHTTPRequestHandler

from office_common import manifest
from office_common.client import Client, WrongLength, length_of
from office_common.errors import Lost, NoAnswer
from office_common.facts import LONGEST_CONTENT

from office_vault import asking
from office_vault.objects import NoRoom, Vault, WrongBytes, stamp_at
from office_vault.uploads import Often, Quota, Uploads

PUT = re.compile(r"/vault/([0-9a-f]{64})")
LIMITS = "/vault/limits"
FILES = re.compile(r"/records/([1-9][0-9]{0,9})/files(?:/([1-9][0-9]{0,5}))?")
SECONDS = 120
"""so long nginx may be silent, which waits for its client for a shorter time"""
AT_ONCE = {"PUT": 48, "GET": 48, "HEAD": 48}


@dataclass(frozen=True)
class Settings:
    """What the service was started with."""

    vault: Vault
    office: str
    most: int
    reserve: int
    internal: str
    uploads: Uploads


class Answered(Exception):
    """Ends a request with a status and a word."""

    def __init__(self, status: int, word: str) -> None:
        super().__init__(word)
        self.status, self.word = status, word


class Handler(BaseHTTPRequestHandler):
    """One request, one answer, and the connection is closed."""

    settings: Settings
    timeout = SECONDS
    server_version = "office-vault"
    sys_version = ""
    free = {name: threading.BoundedSemaphore(count) for name, count in AT_ONCE.items()}

    def do_PUT(self) -> None:
        self.answer(self.put)

    def do_GET(self) -> None:
        self.answer(self.get)

    do_HEAD = do_GET

    def answer(self, work: Callable[[], None]) -> None:
        """Answers, whatever comes of it. A client that is refused early is drained for a moment."""
        # a client that went away, or is too slow, is let go
        with contextlib.suppress(TimeoutError, ConnectionError):
            try:
                self.limited(work)
            except Answered as error:
                self.respond(error.status, {"error": error.word})
                self.drain()

    def limited(self, work: Callable[[], None]) -> None:
        """Does one of the requests that are served at once, or refuses it."""
        if not self.free[self.command].acquire(blocking=False):
            raise Answered(503, "busy")
        try:
            work()
        except (TimeoutError, ConnectionError):
            raise
        except OSError as error:
            print(f"office-vault: {self.command} {self.path[:80]}: {error}", file=sys.stderr, flush=True)
            raise Answered(500, "disk") from error
        finally:
            self.free[self.command].release()

    def respond(self, status: int, body: object, **lines: str) -> None:
        data = b"" if body is None else json.dumps(body, separators=(",", ":"), sort_keys=True).encode()
        self.send_response(status)
        given = {"Content-Type": "application/json", "Content-Length": str(len(data)), "Connection": "close"}
        for name, value in (given | {it.replace("_", "-"): value for it, value in lines.items()}).items():
            self.send_header(name, value)
        self.end_headers()
        if self.command != "HEAD":
            self.wfile.write(data)

    def drain(self) -> None:
        """Reads a little more, so that the answer is not lost with what was not read."""
        with contextlib.suppress(OSError):
            self.connection.shutdown(socket.SHUT_WR)
            self.connection.settimeout(0.2)
            for _ in range(64):
                if not self.connection.recv(65536):
                    return

    # ---- in

    def put(self) -> None:
        match = PUT.fullmatch(self.path)
        if not match:
            raise Answered(404, "path")
        length = self.length()
        is_new = self.receive(match[1], length)
        if place := self.headers.get("Office-Stored"):
            # whether somebody had put these bytes in before is not for this client
            self.respond(200, None, X_Accel_Redirect=f"{place}?length={length}")
        else:
            self.respond(201 if is_new else 200, {"length": length, "sha256": match[1]})

    def receive(self, digest: str, length: int) -> bool:
        """Takes the bytes in, as one of the uploads of the name that nginx reports; returns whether they are new."""
        settings = self.settings
        try:
            with settings.uploads.one(self.headers.get("Office-Name", ""), length, self.unnamed()):
                return settings.vault.receive(digest, length, self.rfile.read, settings.reserve)
        except Often as error:
            raise Answered(429, "often") from error
        except Quota as error:
            raise Answered(507, "quota") from error
        except WrongBytes as error:
            raise Answered(400 if str(error) == "body" else 422, str(error)) from error
        except NoRoom as error:
            raise Answered(507, "full") from error

    def unnamed(self) -> int:
        """Returns how many bytes of this name are in the vault and unnamed, as far as a gate knows."""
        text = self.headers.get("Office-Unnamed", "")
        return int(text) if re.fullmatch("[0-9]{1,18}", text) else 0

    def length(self) -> int:
        """Returns how many bytes come, by the rules that the office has for its own bodies."""
        lines = self.headers
        try:
            return length_of(lines.get_all("Transfer-Encoding", []), lines.get_all("Content-Length", []), self.settings.most)
        except WrongLength as wrong:
            raise Answered(wrong.status, wrong.word) from wrong

    # ---- out

    def get(self) -> None:
        if self.path == LIMITS:
            self.respond(200, {"most": self.settings.most, "room": self.settings.vault.room(self.settings.reserve)})
            return
        match = FILES.fullmatch(self.path)
        if not match:
            raise Answered(404, "path")
        files = manifest.read(self.content(match[1])) or []
        if match[2] is None:
            self.respond(200, [self.described(at, file) for at, file in enumerate(files, 1)])
            return
        if len(files) < int(match[2]):
            raise Answered(404, "file")
        file = files[int(match[2]) - 1]
        if not self.is_there(file):
            raise Answered(503, "object")
        name = urllib.parse.quote(re.split(r"[/\\]", file.place)[-1] or "file", safe="")
        self.respond(200, None, Content_Type="application/octet-stream",
                     Content_Disposition=f"attachment; filename*=UTF-8''{name}",
                     X_Accel_Redirect=f"{self.settings.internal}/{file.digest[:2]}/{file.digest}")

    def described(self, number: int, file: manifest.Named) -> dict[str, object]:
        return {"file": number, "length": file.length, "place": file.place, "sha256": file.digest,
                "there": self.is_there(file)}

    def is_there(self, file: manifest.Named) -> bool:
        return stamp_at(self.settings.vault.path(file.digest)) is not None

    def content(self, number: str) -> bytes:
        """Returns the content of a record, if the office gives it to whoever asks; else the office's own answer."""
        lines = {name: value for name, value in self.headers.items() if name.lower().startswith("office-")}
        path = f"/records/{number}/content"
        try:
            office = Client(self.settings.office, asking.SECONDS)
            reply = office.ask("GET", path, lines=lines, most=LONGEST_CONTENT + 1)
        except NoAnswer as error:
            is_late = isinstance(error, Lost) and error.is_late
            raise (Answered(504, "time") if is_late else Answered(502, "office")) from error
        status = reply.status
        if status == 404:
            raise Answered(404, "content")
        if status != 200:
            raise Answered(status if status in (401, 403) else 503, "office")
        return reply.body

    def send_error(self, code: int, message: str | None = None, explain: str | None = None) -> None:
        """Answers what is not read as a request, or has a method that no path takes."""
        is_method = code == 501
        self.close_connection = True
        self.respond(405 if is_method else code, {"error": "method" if is_method else "head"})

    def address_string(self) -> str:
        return "nginx"

    def log_message(self, form: str, *values: object) -> None:
        """nginx keeps the journal."""
