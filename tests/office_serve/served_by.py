"""An office behind office-serve, or behind the program itself, and its clients (tests/office_serve)."""
import json
import os
import pathlib
import signal
import socket
import subprocess
import time

from service_scripts.place import OFFICE, SECONDS
from kit.companions import companion
from kit.office import start
from kit.ports import free_port
from kit.sockets import rest_of
from kit.waiting import comes


def answer_of(port: int, request: bytes, pause: float = 0, half: bool = False) -> bytes:
    """Returns all bytes that a request is answered with; `half` shuts the client's side before it reads."""
    with socket.create_connection(("127.0.0.1", port), SECONDS) as link:
        try:
            for at in range(0, len(request), 7 if pause else max(1, len(request))):
                link.sendall(request[at:at + 7] if pause else request)
                time.sleep(pause)
            if half or not request:
                link.shutdown(socket.SHUT_WR)
        except OSError:
            pass
        got = b""
        try:
            while block := link.recv(65536):
                got += block
        except OSError as error:
            got += f"<{type(error).__name__}>".encode()
        return got


def answer_at(path: pathlib.Path, request: bytes, size: int = 1 << 16, pause: float = 0) -> bytes:
    """Sends a request to a socket of the file system, in parts of that size, and returns all that comes back."""
    with socket.socket(socket.AF_UNIX) as link:
        link.settimeout(SECONDS)
        link.connect(str(path))
        try:
            for at in range(0, len(request), size):
                link.sendall(request[at:at + size])
                time.sleep(pause)
            link.shutdown(socket.SHUT_WR)
        except OSError:
            pass
        return rest_of(link)


def get(port: int, path: str) -> bytes:
    """Asks, also while nobody listens: that is an answer too."""
    try:
        return answer_of(port, f"GET {path} HTTP/1.1\r\nHost: localhost\r\n\r\n".encode())
    except OSError as error:
        return repr(error).encode()


def post(port: int, path: str, acts: list[dict]) -> bytes:
    body = json.dumps(acts).encode()
    try:
        head = f"POST {path} HTTP/1.1\r\nHost: localhost\r\nContent-Length: {len(body)}\r\n\r\n"
        return answer_of(port, head.encode() + body)
    except OSError as error:
        return repr(error).encode()


def status_of(answer: bytes) -> int:
    """Returns the status of an answer, 0 if it is none."""
    return int(answer[9:12]) if answer.startswith(b"HTTP/1.1 ") else 0


def has_ended(pid: int) -> bool:
    """Waits until a process has ended; whoever started it may not have seen it yet. Returns whether it has."""
    def is_gone() -> bool:
        try:
            return pathlib.Path(f"/proc/{pid}/stat").read_text().rpartition(")")[2].split()[0] == "Z"
        except OSError:
            return True
    return comes(is_gone)


class Served:
    """An office that is served at a port of its own. Used by `with`, whatever runs is killed at the end."""

    is_bare = False
    """the program itself is in the place of office-serve"""

    def __init__(self, file: pathlib.Path, *words: str, bare: bool = False, waits: bool = True) -> None:
        self.bare = bare or Served.is_bare
        count = words[words.index("--count") + 1] if "--count" in words else "1000000"

        def command(port: int) -> list[object]:
            return [OFFICE, "serve", file, port, count] if self.bare else [companion("office-serve"), *words, file, port]

        env = {**os.environ, "OFFICE": OFFICE}
        if waits:
            self.process, self.port, _ = start(command, env=env)
        else:
            self.port = free_port()
            self.process = subprocess.Popen([str(each) for each in command(self.port)], stdin=subprocess.DEVNULL,
                                            stdout=subprocess.PIPE, stderr=subprocess.PIPE, env=env)

    def __enter__(self) -> "Served":
        return self

    def __exit__(self, *_: object) -> None:
        self.kill()

    def program(self) -> int:
        """Returns the number of the program's process."""
        if self.bare:
            return self.process.pid
        while True:
            children = pathlib.Path(f"/proc/{self.process.pid}/task/{self.process.pid}/children").read_text().split()
            if children and pathlib.Path(f"/proc/{children[0]}/comm").read_text() != "python3\n":
                return int(children[0])
            time.sleep(0.05)

    def kill_program(self) -> None:
        pid = self.program()
        os.kill(pid, signal.SIGKILL)
        has_ended(pid)

    def is_running(self) -> bool:
        return self.process.poll() is None

    def stop(self) -> int:
        """Stops it as systemd does. Returns its status."""
        self.process.send_signal(signal.SIGTERM)
        return self.process.wait(SECONDS)

    def kill(self) -> None:
        self.process.kill()
        self.process.wait()

    def ended(self, seconds: int) -> tuple[int | None, str]:
        """Returns the status of one that ends by itself and what it said; None as the status if it does not end."""
        try:
            error = self.process.communicate(timeout=seconds)[1]
            return self.process.returncode, error.decode()
        except subprocess.TimeoutExpired:
            self.process.kill()
            return None, self.process.communicate()[1].decode()
