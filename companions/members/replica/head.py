"""The head of a request, as the server of Python's library reads it, and no head where the office finds none."""
from __future__ import annotations

import http.server
import io
import re
from typing import Any

from office_common.facts import LIMITS

MOST_LINES = LIMITS["fields"]
STRANGE = re.compile(rb"\n[ \t]|[\x00-\x08\x0b\x0c\x0e-\x1f\x7f]|\r[^\n]")
"""a folded line, and bytes that are in no head"""


class Head(http.server.BaseHTTPRequestHandler):
    """A head that came to its end: its method (`command`), its target and its lines."""

    protocol_version = "HTTP/1.1"

    def __init__(self, raw: bytes) -> None:
        self.rfile = io.BytesIO(raw.lstrip(b"\r\n"))
        self.written = self.wfile = io.BytesIO()
        self.raw_requestline = self.rfile.readline()
        self.is_whole = self.parse_request() and self.is_strict(raw)

    def is_strict(self, raw: bytes) -> bool:
        """Returns whether the office would take these bytes for a head too."""
        return (len(self.requestline.split(" ")) == 3 and not self.headers.defects and len(self.headers) <= MOST_LINES
                and STRANGE.search(raw) is None)

    def send_error(self, code: int, message: str | None = None, explain: str | None = None) -> None:
        """Nothing: whoever asks for the head answers."""

    def log_request(self, code: Any = "-", size: Any = "-") -> None:
        """Requests are in the log, and nginx writes who made them."""

    @property
    def told(self) -> bytes:
        """What the client is told before its body comes, if it waits for that."""
        return self.written.getvalue()

    @property
    def target(self) -> str:
        """Returns the path as it came: `self.path` has fewer slashes."""
        return self.requestline.split()[1]

    def lines(self, name: str) -> list[str]:
        values: list[str] = self.headers.get_all(name, [])
        return values

    def line(self, name: str) -> str | None:
        """Returns the first of these lines."""
        value: str | None = self.headers.get(name)
        return value

    def has_host(self) -> bool:
        return self.request_version == "HTTP/1.0" or len(self.lines("Host")) == 1
