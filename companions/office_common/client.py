"""The one client of an office: at a port of this machine, a socket of the file system, or an address behind nginx.

An answer counts only if its head says once where it ends, and if it is there to that byte: one that lasts until the
connection closes may be cut, and nobody would see it. Each connection has one request.
"""
import base64
import contextlib
import http.client
import ipaddress
import re
import socket
import ssl
import urllib.parse
from collections.abc import Iterator, Mapping, Sequence
from dataclasses import dataclass
from pathlib import Path
from typing import BinaryIO

from office_common.errors import Away, Lost

PART = 1 << 18
"""bytes of a body that are held in memory at once"""
LENGTH = re.compile("[0-9]{1,19}")
BODILESS = (204, 304)


class WrongLength(Exception):
    """A head does not say the length of its body as the office wants it: the status and the word of the answer."""

    def __init__(self, status: int, word: str) -> None:
        super().__init__(word)
        self.status, self.word = status, word


def length_of(codings: Sequence[str], lengths: Sequence[str], most: int) -> int:
    """Returns how many bytes of a body come, by the rule that the office has for a request (`request_plan.rt` of
    office_http), from the values of Transfer-Encoding and of Content-Length."""
    if codings:
        raise WrongLength(501, "coding")
    if not lengths:
        raise WrongLength(411, "length")
    value = lengths[0].strip(" \t")
    if len(lengths) > 1 or not LENGTH.fullmatch(value):
        raise WrongLength(400, "length")
    if int(value) > most:
        raise WrongLength(413, "size")
    return int(value)


def check_frame(status: int, codings: Sequence[str], lengths: Sequence[str], is_bodiless: bool) -> None:
    """Refuses the head of an answer that does not say once where the answer ends."""
    if is_bodiless or status in BODILESS:
        return
    is_chunked = [coding.strip().lower() for coding in codings] == ["chunked"] and not lengths
    is_counted = not codings and len(lengths) == 1 and LENGTH.fullmatch(lengths[0].strip(" \t"))
    if not is_chunked and not is_counted:
        raise Lost("the answer does not say where it ends")


def is_loopback(host: str) -> bool:
    """Returns whether a host is this machine."""
    try:
        return ipaddress.ip_address(host).is_loopback
    except ValueError:
        return host == "localhost"


class Local(http.client.HTTPConnection):
    """A connection to a socket of the file system."""

    def __init__(self, path: str, seconds: float) -> None:
        super().__init__("localhost", timeout=seconds)
        self.path = path

    def connect(self) -> None:
        self.sock = socket.socket(socket.AF_UNIX, socket.SOCK_STREAM)
        self.sock.settimeout(self.timeout)
        self.sock.connect(self.path)


@dataclass(frozen=True)
class Reply:
    """A whole answer: its status, and its body."""

    status: int
    body: bytes


class Answer:
    """An answer whose head was read, and whose body is read part by part."""

    def __init__(self, link: http.client.HTTPConnection, method: str) -> None:
        self.link, self.response = link, link.getresponse()
        self.status, head = self.response.status, self.response.headers
        check_frame(self.status, head.get_all("Transfer-Encoding", []), head.get_all("Content-Length", []), method == "HEAD")

    def __enter__(self) -> "Answer":
        return self

    def __exit__(self, *_: object) -> None:
        self.link.close()

    def parts(self) -> Iterator[bytes]:
        """Reads the body to its end. Lost says that it ends before its length."""
        with lost():
            while part := self.response.read(PART):
                yield part
        if self.response.length:
            raise Lost(f"the answer broke off, {self.response.length} bytes before its end")

    def body(self, most: int | None = None) -> bytes:
        """Reads the whole body, or no more than so many bytes of it."""
        if most is None:
            return b"".join(self.parts())
        body = b""
        for part in self.parts():
            body += part
            if len(body) >= most:
                break
        return body[:most]


@contextlib.contextmanager
def lost() -> Iterator[None]:
    """Turns what goes wrong once something was sent into Lost."""
    try:
        yield
    except TimeoutError as error:
        raise Lost("no answer in time", is_late=True) from error
    except (OSError, http.client.HTTPException) as error:
        raise Lost(str(error) or type(error).__name__) from error


class Client:
    """An office at a place: PORT or HOST:PORT, the path of a socket, or `http://` and `https://` with a folder."""

    def __init__(self, place: str, seconds: float, login: str | None = None, authority: Path | None = None) -> None:
        """Takes a name and a password as NAME:PASSWORD, and the certificates that TLS trusts in place of the system's.

        ValueError says what is wrong with the place.
        """
        self.place, self.seconds, self.folder = place, seconds, ""
        self.lines: dict[str, str] = {}
        self.tls: ssl.SSLContext | None = None
        if place.startswith("/"):
            return
        local = place if ":" in place else f"127.0.0.1:{place}"
        parts = urllib.parse.urlsplit(place if "://" in place else f"http://{local}")
        if parts.scheme not in ("http", "https") or not parts.hostname or parts.query or parts.fragment:
            raise ValueError(f"{place} is no address of an office: write http://127.0.0.1:8080 or https://HOST")
        if login is not None and parts.scheme == "http" and not is_loopback(parts.hostname):
            raise ValueError(f"{place} is asked without TLS, and everybody on the way would read the password: write "
                             "https")
        self.host, self.port, self.folder = parts.hostname, parts.port, parts.path.rstrip("/")
        self.lines["Host"] = parts.netloc.rpartition("@")[2]
        self.origin = f"{parts.scheme}://{self.lines['Host']}"
        if login is not None:
            self.lines["Authorization"] = "Basic " + base64.b64encode(login.encode()).decode()
        if parts.scheme == "https":
            self.tls = ssl.create_default_context(cafile=None if authority is None else str(authority))

    def connection(self) -> http.client.HTTPConnection:
        """Returns a new connection. Away says that nobody takes it."""
        if self.place.startswith("/"):
            link: http.client.HTTPConnection = Local(self.place, self.seconds)
        elif self.tls is not None:
            link = http.client.HTTPSConnection(self.host, self.port, timeout=self.seconds, context=self.tls)
        else:
            link = http.client.HTTPConnection(self.host, self.port, timeout=self.seconds)
        try:
            link.connect()
        except OSError as error:
            link.close()
            raise Away(str(error) or type(error).__name__) from error
        return link

    def send(self, method: str, path: str, body: bytes | BinaryIO | None = None,
             lines: Mapping[str, str] | None = None) -> Answer:
        """Sends a request, whose body may be a file that is read as it goes, and reads the head of the answer."""
        link = self.connection()
        try:
            with lost():
                link.request(method, self.folder + path, body, {**self.lines, **(lines or {}), "Connection": "close"})
                return Answer(link, method)
        except BaseException:
            link.close()
            raise

    def ask(self, method: str, path: str, body: bytes | BinaryIO | None = None,
            lines: Mapping[str, str] | None = None, most: int | None = None) -> Reply:
        """Sends a request and returns the answer, of whose body at most so many bytes are read."""
        with self.send(method, path, body, lines) as answer:
            return Reply(answer.status, answer.body(most))
