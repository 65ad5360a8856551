"""The process of `office serve`, or of `office gate`: its start, a connection to it, its end."""
import os
import select
import socket
import subprocess
import sys
from pathlib import Path

from office_common import program
from office_common.errors import IMPOSSIBLE, Refused

from office_serve.door import Door
from office_serve.stopping import Stop
from office_serve.streams import error_stream
from office_serve.watching import Watch

END_SECONDS = 30
"""a program that accepts nothing more closes FILE and ends within this time"""


class Program(program.Server):
    """The office's program over FILE, at a port of its own. It ends with office-serve."""

    def __init__(self, path: str, file: Path, count: int, door: Door | None = None) -> None:
        super().__init__(file)
        self.path = path
        self.count = count
        self.door = door
        self.secret = ""
        self.left = 0

    def args(self, count: int = program.MOST) -> list[str]:
        """Returns the arguments of a process that ends after so many connections."""
        if self.door is None:
            return super().args(count)
        files = [str(self.door.access), str(self.door.token), self.door.journal]
        return ["gate", str(self.file), str(self.port), str(count), *files]

    def reader_lines(self) -> bytes:
        """Returns the lines that a reading at the socket gets; none for a program that does not decide."""
        return b"" if self.door is None else self.door.lines(self.secret)

    def start(self, stop: Stop, watch: Watch) -> bool:
        """Opens FILE by a new process. Returns whether it listens; if not, somebody asked to stop meanwhile."""
        # in the unit's own network no other process takes the port meanwhile
        self.port, self.left = program.free_port(), self.count
        if self.door is not None:
            self.secret = self.door.secret()
        errors = error_stream()
        self.process = program.start(self.path, self.args(self.count), stdout=subprocess.PIPE, stderr=errors)
        if errors is not None:
            os.close(errors)
        out = self.process.stdout
        assert out is not None
        watch.begin()
        while not select.select([out, stop], [], [], watch.step)[0] == [out]:
            if stop.is_asked():
                return False
            if watch.is_hung(self.process.pid):
                self.stop()
                raise Refused(IMPOSSIBLE, f"the office in {self.file} does not open: it did nothing for "
                                          f"{watch.seconds:.0f} seconds")
        if not self.is_listening():
            raise Refused(IMPOSSIBLE, f"the office in {self.file} does not open: status {self.process.wait()}")
        return True

    def pidfd(self) -> int:
        """Returns a descriptor that is readable once the process has ended."""
        assert self.process is not None
        return os.pidfd_open(self.process.pid)

    def connect(self) -> socket.socket | None:
        """Connects to the program; None if it has ended, and then it got nothing."""
        link = socket.socket()
        try:
            link.connect(("127.0.0.1", self.port))
        except OSError:
            link.close()
            self.wait()
            return None
        self.left -= 1
        return link

    def is_alive(self, stop: Stop, watch: Watch) -> bool:
        """Asks the program for a record. Returns whether it answers: one that a fault closed ends, one that hangs is
        ended."""
        link = self.connect()
        if link is None:
            return False
        assert self.process is not None
        answer = block = b""
        watch.begin()
        with link:
            try:
                link.sendall(b"GET /records/1 HTTP/1.1\r\nHost: office\r\n\r\n")
                while not stop.is_asked():
                    if link in select.select([link, stop], [], [], watch.step)[0]:
                        block = link.recv(65536)
                        answer += block
                        if not block:
                            break
                    elif watch.is_hung(self.process.pid):
                        print(f"<3>office-serve: the program did nothing for {watch.seconds:.0f} seconds when it was "
                              "asked for a record; it is ended, and started again", file=sys.stderr, flush=True)
                        self.stop()
                        return False
            except OSError:
                answer = b""
        return bool(answer)

    def wait(self) -> None:
        """Waits for a process that ends by itself, and kills it if it does not."""
        assert self.process is not None
        try:
            self.process.wait(END_SECONDS)
        except subprocess.TimeoutExpired:
            self.stop()
