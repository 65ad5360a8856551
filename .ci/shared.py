"""What a build of the program and a preview share: where things are, which crate names which, and lines that say so."""
import contextlib
import fcntl
import os
import pathlib
import signal
import sys
from collections.abc import Iterator

TOP = pathlib.Path(__file__).resolve().parent.parent
OUT = TOP / "crates/office/out"
ASKS = (signal.SIGINT, signal.SIGTERM, signal.SIGHUP)


class Stopped(Exception):
    """Somebody asked the work to end."""


def say(text: str) -> None:
    """Reports a line, which stays whole beside those of other threads."""
    sys.stderr.write(f"office: {text}\n")
    sys.stderr.flush()


def minutes(seconds: float) -> str:
    """A time as people say it, a minute at least."""
    count = max(round(seconds / 60), 1)
    return f"{count} minutes" if count > 1 else "1 minute"


def lines_of(names: list[str]) -> str:
    """The lines that crates.txt has of these crates."""
    lines = (TOP / "crates.txt").read_text().split("\n")
    return "".join(f"{line}\n" for line in lines if line.partition(":")[0] in names)


def layers() -> dict[str, list[str]]:
    """The repository's own crates that each crate names."""
    text = (TOP / "crates.txt").read_text()
    lines = [line.partition(":") for line in text.split("\n") if line and not line.startswith("#")]
    named = {name: below.split() for name, _, below in lines}
    return {name: [it for it in below if it in named] for name, below in named.items()}


def all_below(name: str, own: dict[str, list[str]]) -> list[str]:
    """The crates below a crate, each once, those below first."""
    found: list[str] = []
    for it in own[name]:
        found += [below for below in [*all_below(it, own), it] if below not in found]
    return found


@contextlib.contextmanager
def alone(lock: pathlib.Path, work: str) -> Iterator[None]:
    """Does one work of a kind at a time; another that came first is waited for."""
    lock.parent.mkdir(parents=True, exist_ok=True)
    with open(lock, "w") as held:
        try:
            fcntl.flock(held, fcntl.LOCK_EX | fcntl.LOCK_NB)
        except BlockingIOError:
            say(f"another {work} is at work in this folder: this one waits until it has ended")
            fcntl.flock(held, fcntl.LOCK_EX)
        yield


def stop(*_: object) -> None:
    """Ends the work once, however often it is asked to."""
    for number in ASKS:
        signal.signal(number, lambda *_: None)
    raise Stopped


def end_when_asked() -> None:
    """Has `Stopped` raised when somebody asks this process to end."""
    for number in ASKS:
        signal.signal(number, stop)


@contextlib.contextmanager
def undisturbed() -> Iterator[None]:
    """Holds an end back that somebody asks for meanwhile, so that a command that is being started can be ended too."""
    asked: list[int] = []
    before = {number: signal.signal(number, lambda it, _: asked.append(it)) for number in ASKS}
    try:
        yield
    finally:
        for number, handler in before.items():
            signal.signal(number, handler)
    if asked:
        os.kill(os.getpid(), asked[0])
