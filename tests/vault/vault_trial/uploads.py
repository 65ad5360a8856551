"""Uploads at once: those of one name, its bytes that no record names, and the room that each takes at its beginning."""
import contextlib
import os
import pathlib
import socket
import threading
import time
from collections.abc import Callable

from vault_trial import forked
from vault_trial.answers import digest
from vault_trial.full import MEGABYTE, small
from kit.judging import judge, same
from vault_trial.standin import StandIn
from vault_trial.world import World, free_port

SLOW, AT_ONCE = 48, 4
# a machine with much else to do takes its time
SECONDS = 120
UNNAMED = 100_000


class Upload:
    """A PUT whose head and first byte are sent, and whose rest waits."""

    def __init__(self, it: World, data: bytes, name: str = "", unnamed: int = 0) -> None:
        self.data, self.received = data, b""
        self.link = socket.socket(socket.AF_UNIX)
        self.link.settimeout(60)
        self.link.connect(str(it.folder / "socket"))
        lines = {"Host": "vault", "Content-Length": str(len(data)), "Office-Name": name, "Office-Unnamed": str(unnamed)}
        head = "".join(f"{key}: {value}\r\n" for key, value in lines.items() if value)
        self.link.sendall(f"PUT /vault/{digest(data)} HTTP/1.1\r\n{head}\r\n".encode() + data[:1])

    def answer(self, seconds: float) -> str:
        """Returns the first line of an answer that is there within so many seconds, and its word."""
        self.link.settimeout(seconds)
        try:
            while block := self.link.recv(65536):
                self.received += block
        except (TimeoutError, ConnectionError):
            pass
        head, _, body = self.received.decode().partition("\r\n\r\n")
        return f"{head.split(' ')[1]} {body}" if head else ""

    def end(self) -> str:
        """Sends what is left, and returns the answer."""
        self.link.settimeout(SECONDS)
        try:
            self.link.sendall(self.data[1:])
        except (ConnectionError, TimeoutError):
            pass
        found = self.answer(SECONDS)
        self.link.close()
        return found[:3]


def under_way(it: World) -> int:
    """Counts the uploads whose room the service has taken: their files have no name yet."""
    count = 0
    for fd in pathlib.Path(f"/proc/{it.service.pid}/fd").iterdir():
        with contextlib.suppress(OSError):
            link = os.readlink(fd)
            count += "/objects/" in link and link.endswith(" (deleted)")
    return count


def until(holds: Callable[[], bool]) -> None:
    """Waits until something holds; what does not come to that is judged after it."""
    end = time.monotonic() + SECONDS
    while not holds() and time.monotonic() < end:
        time.sleep(0.05)


def crowd(it: World) -> None:
    """Many silent PUTs of one name shut nobody out, and end as they would have."""
    slow = [Upload(it, b"slow %d" % at, "slow") for at in range(SLOW)]
    until(lambda: under_way(it) == AT_ONCE and sum(not one.answer(0.01) for one in slow) <= AT_ONCE)
    found = [one.answer(0.01) for one in slow]
    same("so many of them wait", found.count(""), AT_ONCE)
    judge("each other one is refused at once", set(found) == {"", '429 {"error":"often"}'}, found)
    same("another name puts in", it.ask("PUT", f"/vault/{digest(b'fast')}", b"fast", Office_Name="fast")[0], 201)
    same("and so does a request without a name", it.ask("PUT", f"/vault/{digest(b'no')}", b"no")[0], 201)
    same("those that waited end", [one.end() for one, said in zip(slow, found) if not said], ["201"] * AT_ONCE)
    same("then the name may again", it.ask("PUT", f"/vault/{digest(b'late')}", b"late", Office_Name="slow")[0], 201)


def quota(it: World) -> None:
    """A name brings in so many bytes that no record names; one file of any size if it has nothing else."""
    large, part = os.urandom(UNNAMED * 3), os.urandom(UNNAMED * 3 // 4)
    for name, unnamed, data, wanted in (("a", 0, large, 201), ("a", 1, large, 507), ("a", UNNAMED // 4, part, 201),
                                        ("a", UNNAMED // 4 + 1, part, 507), ("b", 0, part, 200), ("", 0, part, 200)):
        status, body, _ = it.ask("PUT", f"/vault/{digest(data)}", data, Office_Name=name, Office_Unnamed=str(unnamed))
        same(f"{len(data)} bytes of {name or 'nobody'} beside {unnamed}", status, wanted)
        judge("with a word of its own", status != 507 or body == b'{"error":"quota"}', body)
    held = Upload(it, os.urandom(UNNAMED // 2), "c")
    until(lambda: under_way(it) == 1)
    status, body, _ = it.ask("PUT", f"/vault/{digest(part)}", part, Office_Name="c")
    same("what is under way counts", (status, body), (507, b'{"error":"quota"}'))
    same("another name's does not", it.ask("PUT", f"/vault/{digest(part)}", part, Office_Name="d")[0], 200)
    same("it ends", held.end(), "201")
    same("then it counts no longer", it.ask("PUT", f"/vault/{digest(part)}", part, Office_Name="c")[0], 200)


def alike(it: World) -> None:
    """With a place to report to, the answer is one whether anybody had put the bytes in before."""
    data = os.urandom(70_000)
    seen = [it.ask("PUT", f"/vault/{digest(data)}", data, Office_Stored="/city/stored") for _ in range(2)]
    for at, (status, body, lines) in enumerate(seen):
        same(f"PUT {at} sends nginx on", (status, body, lines.get("X-Accel-Redirect")),
             (200, b"", "/city/stored?length=70000"))
    first, second = ({key: value for key, value in lines.items() if key != "Date"} for _, _, lines in seen)
    same("both answers have the same lines", first, second)
    wrong = it.ask("PUT", f"/vault/{digest(data)}", data[1:], Office_Stored="/city/stored")
    same("other bytes are reported nowhere", (wrong[0], wrong[2].get("X-Accel-Redirect")), (422, None))


def reserved(folder: pathlib.Path) -> None:
    """Four PUTs at once, for each of which alone there is room, never take what is to stay free."""
    size, reserve = 96 * MEGABYTE, 32 * MEGABYTE
    # two of them have room on the disk, and would take of what is to stay free
    length = (size - reserve) * 5 // 8
    with World(folder, 8, StandIn(free_port())) as it, small(folder / "small", str(size)):
        it.vault = folder / "small/vault"
        forked.run(["make", it.vault])
        it.restart_service("--reserve", str(reserve))
        least, stop = [size], threading.Event()

        def watch() -> None:
            while not stop.is_set():
                found = os.statvfs(it.vault)
                least[0] = min(least[0], found.f_bavail * found.f_frsize)
                time.sleep(0.001)

        thread = threading.Thread(target=watch)
        thread.start()
        four = [Upload(it, bytes([at]) * length, f"name {at}") for at in range(4)]
        said: list[str] = []
        ends = [threading.Thread(target=lambda one=one: said.append(one.end())) for one in four]
        for one in ends:
            one.start()
        for one in ends:
            one.join()
        stop.set()
        thread.join()
        judge(f"the reserve stayed free: {least[0]}", least[0] >= reserve)
        same("one came in, and the others had no room", sorted(said), ["201", "507", "507", "507"])
        it.service.kill()
        it.service.wait()


def tried(folder: pathlib.Path) -> None:
    with World(folder / "a", 8, StandIn(free_port())) as it:
        crowd(it)
        it.restart_service("--unnamed", str(UNNAMED))
        quota(it)
        alike(it)
    reserved(folder / "b")
