"""Runs a command of office-vault in a process of its own, at a time of the trial, and stops it at a line.

`kill:N` ends it at the N-th line of its sources that it comes to, as SIGKILL does. `wait:N` has it write there that it
waits, and continue once it is told to. `count` has it say how many lines there were. A fork saves the start of Python.
"""
import os
import pathlib
import signal
import sys
import tempfile
import threading
from dataclasses import dataclass

from vault_trial.places import VAULT

from office_vault import commands, sweeping

SOURCES = str(VAULT / "office_vault") + os.sep
ONLY = os.environ.get("ONLY", "").split()
"""functions whose lines alone count, if there are any"""


@dataclass
class Done:
    """What became of a command; lines is how many lines there were, if that was asked for."""

    returncode: int
    stdout: str
    stderr: str
    lines: int


class Child:
    """A command under way."""

    def __init__(self, words: list[str], env: dict[str, str], now: float, stop: str = "plain") -> None:
        self.out, self.err, self.count = (tempfile.TemporaryFile("w+") for _ in range(3))
        (self.come, come), (go, self.go) = os.pipe(), os.pipe()
        self.pid = os.fork()
        if self.pid == 0:
            os.close(self.come)
            os.close(self.go)
            self.play(words, env, now, stop, come, go)
        os.close(come)
        os.close(go)

    def play(self, words: list[str], env: dict[str, str], now: float, stop: str, come: int, go: int) -> None:
        """What the process does: it never returns."""
        status = 70
        try:
            os.environ.clear()
            os.environ.update(env)
            os.dup2(self.out.fileno(), 1)
            os.dup2(self.err.fileno(), 2)
            sys.stdout, sys.stderr = open(1, "w", closefd=False), open(2, "w", closefd=False)
            sweeping.now = lambda: now
            trace = Tracing(stop, come, go)
            if stop != "plain":
                threading.settrace(trace.line)
                sys.settrace(trace.line)
            status = commands.main(words)
            sys.settrace(None)
            self.count.write(str(trace.count))
            self.count.flush()
        except SystemExit as it:
            status = int(it.code or 0)
        except BaseException as error:  # noqa: BLE001
            print(f"{type(error).__name__}: {error}", file=sys.stderr)
        finally:
            sys.settrace(None)
            sys.stdout.flush()
            sys.stderr.flush()
            os._exit(status)

    def waits(self) -> bool:
        """Waits until it has come to its line, or has ended; returns whether it waits there."""
        return os.read(self.come, 1) == b"w"

    def tell(self) -> None:
        os.write(self.go, b"g")

    def kill(self) -> None:
        os.kill(self.pid, signal.SIGKILL)

    def wait(self) -> Done:
        _, status = os.waitpid(self.pid, 0)
        os.close(self.come)
        os.close(self.go)
        texts = []
        for it in (self.out, self.err, self.count):
            it.seek(0)
            texts.append(it.read())
            it.close()
        return Done(os.waitstatus_to_exitcode(status), texts[0], texts[1], int(texts[2] or 0))


class Tracing:
    """Counts the lines of the sources, and stops at one."""

    def __init__(self, stop: str, come: int, go: int) -> None:
        self.kind, _, number = stop.partition(":")
        self.at, self.come, self.go, self.count = int(number or 0), come, go, 0

    def line(self, frame, event: str, _: object):
        code = frame.f_code
        if not code.co_filename.startswith(SOURCES) or ONLY and code.co_name not in ONLY:
            return None
        if event == "line":
            self.count += 1
            if self.count == self.at and self.kind == "kill":
                os.kill(os.getpid(), signal.SIGKILL)
            if self.count == self.at and self.kind == "wait":
                os.write(self.come, b"w")
                os.read(self.go, 1)
        return self.line


def run(words: list[object], env: dict[str, str] | None = None, now: float = 0, stop: str = "plain") -> Done:
    """Runs a command to its end."""
    return Child([str(it) for it in words], dict(os.environ) if env is None else env, now, stop).wait()


def names(place: pathlib.Path) -> set[str]:
    """Lists the objects of a vault."""
    return {it.name for it in (place / "objects").glob("*/*") if len(it.name) == 64}
