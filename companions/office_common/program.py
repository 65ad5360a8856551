"""The program of the office: found, started so that it ends with whoever started it, and serving FILE at a port."""
import os
import shutil
import socket
import subprocess
import sys
from pathlib import Path
from typing import Any

from office_common.errors import IMPOSSIBLE, USAGE, Refused

CHILD = str(Path(__file__).with_name("child.py"))
MOST = 1_000_000
"""the connections that an `office serve` takes at most"""


def find() -> str:
    """Finds the program: the one that OFFICE names, or `office` on the PATH."""
    name = os.environ.get("OFFICE", "office")
    path = shutil.which(name)
    if path is None:
        raise Refused(USAGE, f"there is no program {name}: install it, or name it by OFFICE")
    return path


def start(path: str, args: list[str], descriptor: int | None = None, **settings: Any) -> subprocess.Popen[bytes]:
    """Starts a program that ends with the thread that calls this: the file at a path, or what a descriptor reads. From
    a descriptor it runs without syncs."""
    source = [str(os.getpid()), path] if descriptor is None else ["--without-syncs", str(os.getpid()), str(descriptor)]
    return subprocess.Popen([sys.executable, "-I", "-S", CHILD, *source, path, *args], stdin=subprocess.DEVNULL,
                            pass_fds=[] if descriptor is None else [descriptor], **settings)


def init(path: str, file: Path) -> int:
    """Opens and closes FILE, so that it alone has every act. Returns the status; a FILE that is missing is made."""
    return subprocess.run([path, "init", str(file)], stdin=subprocess.DEVNULL, stdout=subprocess.DEVNULL,
                          check=False).returncode


def free_port() -> int:
    """Returns a port that nobody has. Another process may take it before it is bound."""
    with socket.create_server(("127.0.0.1", 0)) as held:
        return int(held.getsockname()[1])


class Server:
    """A process of `office serve` over FILE, at a port of 127.0.0.1."""

    def __init__(self, file: Path, port: int = 0) -> None:
        self.file = file
        self.port = port
        self.process: subprocess.Popen[bytes] | None = None

    def args(self, count: int = MOST) -> list[str]:
        """Returns the arguments of a process that ends after so many connections."""
        return ["serve", str(self.file), str(self.port), str(count)]

    def is_listening(self) -> bool:
        """Waits until the process has opened FILE, and returns whether it serves; if not, it ends."""
        assert self.process is not None and self.process.stdout is not None
        with self.process.stdout as out:
            return out.readline().startswith(b"listening")

    def has_ended(self) -> bool:
        return self.process is None or self.process.poll() is not None

    def kill(self) -> None:
        """Ends the process from any thread, and waits for nothing."""
        process = self.process
        if process is not None:
            process.kill()

    def stop(self) -> None:
        """Ends the process. FILE and its log then have every act that was answered."""
        self.kill()
        if self.process is not None:
            self.process.wait()


class Copy(Server):
    """A copy of an office that this process alone serves and asks: what it answers there, the office answers too."""

    def __enter__(self) -> int:
        """Serves the copy at a free port, and returns that."""
        self.port, path = free_port(), find()
        self.process = start(path, self.args(), stdout=subprocess.PIPE, stderr=subprocess.PIPE)
        if not self.is_listening():
            assert self.process.stderr is not None
            text = self.process.stderr.read().decode(errors="replace").strip()
            self.__exit__()
            raise Refused(IMPOSSIBLE, f"{path} does not open {self.file}: {text}")
        return self.port

    def __exit__(self, *_: object) -> None:
        self.stop()
        if self.process is not None and self.process.stderr is not None:
            self.process.stderr.close()
