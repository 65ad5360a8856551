"""The office of this machine at work: the process of `office serve`, and one request after another.

`lock` is held by whoever talks with the office or copies its file.
"""
from __future__ import annotations

import pathlib
import re
import socket
import subprocess
import threading
import time
from typing import Iterator

from office_common.files import has_content, log_of, sync
from office_common.program import Server

from replica.errors import Fault
from replica.program import Program

ANSWER_SECONDS = 600
"""without a byte of an answer to an entry: then the office hangs"""


def status_of(answer: bytes, is_bodiless: bool = False) -> int | None:
    """Returns the status of an answer that is there to its last byte, else None."""
    head, end, body = answer.partition(b"\r\n\r\n")
    size = re.search(rb"\r\nContent-Length: (\d+)", head)
    if not end or size is None or not (is_bodiless or len(body) == int(size[1])):
        return None
    return int(head[9:12])


def follows_from_log(answer: bytes) -> bool:
    """Returns whether an answer to an entry is the one that each office at this state gives.

    Every other one is a fault of this machine: memory, the disk, a broken connection.
    """
    status = status_of(answer)
    if status == 400:
        return b'\r\n\r\n{"error":"json"}' in answer or b'\r\n\r\n{"error":"act"' in answer
    return status in (200, 409)


def work_file(folder: pathlib.Path) -> pathlib.Path:
    """FILE of the member in a folder."""
    return folder / "work" / "office.db"


def parts_of(link: socket.socket, until: float) -> Iterator[bytes]:
    """What comes on a connection to its end. TimeoutError: it has not ended until then."""
    while True:
        left = until - time.monotonic()
        if left <= 0:
            raise TimeoutError("the office did not answer in time")
        link.settimeout(min(left, ANSWER_SECONDS))
        part = link.recv(65536)
        if not part:
            return
        yield part


class Office(Server):
    """An office that serves FILE at a port of its own, for this process alone."""

    def __init__(self, program: Program, file: pathlib.Path, port: int) -> None:
        super().__init__(file, port)
        self.program = program
        self.lock = threading.Lock()
        self.owes: float | None = None
        """since when an answer is awaited, or the line that says that it serves"""
        self.is_starting = self.is_still = False
        """it is being started; it has done nothing for a while though somebody waits (guard.py)"""
        self.starts = 0

    def start(self) -> None:
        """Opens FILE, by a new process that ends with this thread. Fault where it does not, or there is no FILE."""
        self.stop()
        if not has_content(self.file):
            raise Fault(f"{self.file} is gone, or empty")
        self.owes, self.is_starting = time.monotonic(), True
        try:
            self.process = self.program.start(self.args(), stdout=subprocess.PIPE)
            if not self.is_listening():
                raise Fault(f"the office did not start: status {self.process.wait()}")
            self.starts += 1
        finally:
            self.owes, self.is_starting = None, False

    def ask(self, method: str, path: str, body: bytes | None = None, seconds: float = float("inf")) -> bytes:
        """Returns all bytes that the office answers. TimeoutError: not within these seconds."""
        self.owes = time.monotonic()
        until = self.owes + seconds
        try:
            with socket.create_connection(("127.0.0.1", self.port), min(seconds, ANSWER_SECONDS)) as link:
                size = "" if body is None else f"Content-Length: {len(body)}\r\n"
                head = f"{method} {path} HTTP/1.1\r\nHost: office\r\n{size}\r\n"
                link.sendall(head.encode("latin-1") + (body or b""))
                return b"".join(parts_of(link, until))
        finally:
            self.owes = None

    def sync(self) -> None:
        """Afterwards the disk has FILE and its log. The office itself syncs nothing (child.py of the floor). Fault without FILE."""
        if not has_content(self.file):
            raise Fault(f"{self.file} is gone, or empty")
        log = log_of(self.file)
        for path in (log, self.file, self.file.parent):
            if path is not log or log.exists():
                sync(path)

    def trouble(self, limit: float) -> str:
        """Why it may not answer a reading now, or nothing: somebody has waited longer than the limit."""
        owes = self.owes
        if self.is_starting:
            return "the office is being started"
        if self.is_still:
            return "the office does nothing while somebody waits"
        if owes is not None and time.monotonic() - owes > limit:
            return f"the office has not answered for more than {limit:.0f} seconds"
        return ""
