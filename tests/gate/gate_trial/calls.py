"""The system calls of a gate in their order, as strace reports them: what it wrote, synced, sent and received."""
import os
import pathlib
import re
import shutil
import subprocess
import time
from collections.abc import Iterator
from dataclasses import dataclass

from gate_trial.world import World

NAMES = ("openat", "close", "write", "writev", "pwrite64", "ftruncate", "fsync", "fdatasync", "sendto", "sendmsg",
         "recvfrom")
WRITES = ("write", "writev", "pwrite64")
SENDS = ("sendto", "sendmsg", *WRITES)
SYNCS = ("fsync", "fdatasync")
LINE = re.compile(r"(\d+) +[\d.]+ (.*)")
CALL = re.compile(r"(\w+)\((.*)\) += (-?\d+)")
RESUMED = re.compile(r"<\.\.\. \w+ resumed>(.*)")
SIGNAL = re.compile(r"--- (SIG\w+) ")
DESCRIPTOR = re.compile(r"(\d+)<(.*?)>(?=,|$)")
TEXT = re.compile(r'"((?:\\x[0-9a-f]{2})*)"')
UNFINISHED = " <unfinished ...>"
SECONDS = 120
"""what strace takes at most to write the rest of a trace"""


@dataclass(frozen=True)
class Call:
    """A system call that returned. `begins` and `ends` are lines of the trace."""

    name: str
    fd: int
    place: str
    data: bytes
    arguments: str
    result: int
    begins: int
    ends: int

    def sent(self) -> bytes:
        """Returns the bytes that the system took."""
        return self.data[:max(0, self.result)]


def has_strace() -> bool:
    return shutil.which("strace") is not None


def plain(text: str) -> bytes:
    """Reads a text in which each byte is written as \\xHH."""
    return bytes.fromhex(text.replace("\\x", ""))


def named(text: str) -> str:
    """Returns what a descriptor is: the path of a file, or the ends of a connection."""
    return re.sub(r"(?:\\x[0-9a-f]{2})+", lambda match: plain(match[0]).decode(errors="replace"), text)


def call_of(text: str, begins: int, ends: int) -> Call | None:
    """Reads a call, or returns None for one that the system begins again."""
    parts = CALL.match(text)
    if not parts:
        return None
    name, arguments, result = parts[1], parts[2], int(parts[3])
    descriptor = DESCRIPTOR.match(arguments) if name != "openat" else None
    rest = arguments[descriptor.end():] if descriptor else arguments
    data = b"".join(plain(part) for part in TEXT.findall(rest))
    fd, place = (int(descriptor[1]), named(descriptor[2])) if descriptor else (result, "")
    if name == "openat":
        place = data.decode(errors="replace")
    return Call(name, fd, place, data, rest, result, begins, ends)


def calls_of(path: pathlib.Path) -> Iterator[Call]:
    """Gives the calls of a trace in the order in which they returned, and the signals among them."""
    begun: dict[str, tuple[str, int]] = {}
    with path.open() as lines:
        for place, line in enumerate(lines):
            parts = LINE.match(line)
            if not parts:
                continue
            process, text = parts[1], parts[2]
            begins = place
            if signal := SIGNAL.match(text):
                yield Call(signal[1], -1, "", b"", "", 0, place, place)
                continue
            if text.endswith(UNFINISHED):
                begun[process] = (text.removesuffix(UNFINISHED), place)
                continue
            if resumed := RESUMED.match(text):
                head, begins = begun.pop(process, ("", place))
                text = head + resumed[1]
            if call := call_of(text, begins, place):
                yield call


class Traced(World):
    """An office and a gate whose calls strace writes down, with a trace for each start of the gate."""

    starts = 0

    def __init__(self, folder: pathlib.Path, settings: str) -> None:
        super().__init__(folder, settings)
        # the names that the journal got one after another, and whether a new file was made with that
        self.turns: list[tuple[str, bool]] = []

    def trace(self) -> pathlib.Path:
        return self.folder / f"trace-{self.starts}"

    def words(self) -> list[str]:
        options = ["-D", "-f", "--seccomp-bpf", "-ttt", "-yy", "-xx", "-s", str(1 << 21), "-e", f"trace={','.join(NAMES)}"]
        return ["strace", *options, "-o", str(self.trace()), *super().words()]

    def start_gate(self) -> None:
        self.starts += 1
        super().start_gate()

    def calls(self) -> list[Call]:
        """Ends the gate, and returns all calls since its start."""
        assert self.gate is not None
        last = f"{self.gate.pid} "
        self.stop_gate()
        ends = time.monotonic() + SECONDS
        while not is_whole(self.trace(), last):
            if time.monotonic() > ends:
                raise AssertionError(f"{self.trace()} has no end")
            time.sleep(0.02)
        return list(calls_of(self.trace()))


def is_whole(path: pathlib.Path, process: str) -> bool:
    """Reports whether a trace has the end of a process, which comes after all else."""
    with path.open("rb") as file:
        file.seek(max(0, os.fstat(file.fileno()).st_size - 4096))
        tail = file.read().decode(errors="replace").splitlines()
    return any(line.startswith(process) and "+++ exited" in line for line in tail)


def is_there() -> bool:
    """Reports whether strace can follow a process here."""
    if not has_strace():
        return False
    return subprocess.run(["strace", "-D", "-o", "/dev/null", "true"], capture_output=True, check=False).returncode == 0
