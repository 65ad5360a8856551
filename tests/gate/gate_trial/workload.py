"""Requests for a gate whose calls are written down: acts of several kinds, lists, refusals, and many at once."""
import contextlib
import hashlib
import json
import os
import pathlib
import signal
import socket
import time
from collections.abc import Iterator
from typing import Any

from gate_trial.answers import Stand
from gate_trial.base import ROLES, filing, plan
from gate_trial.calls import Traced
from kit.judging import same
from gate_trial.world import HERE, TOKEN, parted, today

NAMES = "".join(f"name {name} is {name}\n" for name in ("registry", "legal", "auditor", "archive"))
NAMES += "".join(f"name {name} is records-manager\n" for name in ("records-manager", "anna", "berta"))
SETTINGS = f"{ROLES}{NAMES}limit requests 64\nlimit lists 8\n"
CONTENT = b"what is filed " * 40
SECONDS = 120
"""what the gate takes at most to go on in another file"""


def placing(code: str) -> dict[str, Any]:
    return {"act": "place-hold", "code": code, "reason": f"reason of {code}"}


def named(text: str) -> str:
    """Returns the path of a file of the vault."""
    return f"/vault/{hashlib.sha256(text.encode()).hexdigest()}"


def confirming(record: int) -> dict[str, Any]:
    return {"act": "confirm", "record": record, "action": "destroy"}


class Client:
    """Sends requests, each act with a key of its own."""

    def __init__(self, world: Traced) -> None:
        self.world, self.count = world, 0

    def lines(self, name: str, more: dict[str, str]) -> dict[str, str]:
        return {**HERE, "Office-Token": TOKEN, "Office-Name": name, "Office-From": "192.0.2.7", **more}

    def acts(self, name: str, *acts: dict[str, Any]) -> bytes:
        """Writes a request with a list of acts."""
        given = [{"day": today(), **act} if act["act"] != "run-step" else act for act in acts]
        return self.request(name, "POST", "/acts", json.dumps(given).encode())

    def request(self, name: str, method: str, path: str, body: bytes | None = None, **more: str) -> bytes:
        self.count += 1
        lines = self.lines(name, {key.replace("_", "-"): value for key, value in more.items()})
        if method == "POST":
            lines |= {"Idempotency-Key": f"key-{self.count}", "Content-Length": str(len(body or b""))}
        head = "".join(f"{key}: {value}\r\n" for key, value in lines.items())
        return f"{method} {path} HTTP/1.1\r\n{head}\r\n".encode() + (body or b"")

    def reading(self) -> bytes:
        """Writes a reading whose path no other request has."""
        return self.request("auditor", "GET", f"/overdue/{today()}/{self.count}")

    def one(self, wanted: int, request: bytes) -> None:
        """Sends a request, and compares the status of its answer."""
        answer = parted(self.world.raw(request))
        same(f"{request[:20]!r} {self.count}: its status", answer[0], wanted)

    def at_once(self, wanted: dict[int, int], requests: list[bytes]) -> None:
        """Sends requests while the gate stands still, so that it finds all of them together."""
        with stopped(self.world):
            links = [self.world.connected(request) for request in requests]
        counts: dict[int, int] = {}
        for link in links:
            status, _ = parted(received(link))
            counts[status] = counts.get(status, 0) + 1
        same("statuses of requests at once", counts, wanted)


@contextlib.contextmanager
def stopped(world: Traced) -> Iterator[None]:
    assert world.gate is not None
    os.kill(world.gate.pid, signal.SIGSTOP)
    try:
        yield
    finally:
        os.kill(world.gate.pid, signal.SIGCONT)


def received(link: socket.socket) -> bytes:
    """Returns all that comes until the other side closes."""
    data = b""
    with link:
        link.settimeout(300)
        while block := link.recv(1 << 20):
            data += block
    return data


def started(folder: pathlib.Path) -> Traced:
    world = Traced(folder, SETTINGS)
    world.start_office()
    world.start_gate()
    return world


def alone(client: Client) -> None:
    """Does acts of many kinds one after another, among them some that the office or the gate refuses."""
    clerk, legal, anna = "registry", "legal", "anna"
    client.one(200, client.acts("records-manager", *plan()))
    client.one(200, client.acts(clerk, filing(3, 1, CONTENT)))
    client.one(200, client.acts(clerk, filing(4, 1, b""), filing(5, 2, CONTENT * 9)))
    client.one(409, client.acts(clerk, filing(3, 1, b"another content")))
    client.one(200, client.acts(legal, placing("H1"), {"act": "hold-on", "hold": "H1", "target": "record:5"}))
    client.one(200, client.acts(clerk, {"act": "event", "record": 3, "occurred": today()}))
    client.one(200, client.acts(anna, {"act": "reclassify", "target": "record:4", "class": "PER1"}))
    client.one(200, client.acts(anna, confirming(1), confirming(2), confirming(3)))
    client.one(403, client.acts(clerk, confirming(4)))
    client.one(409, client.acts(legal, {"act": "lift-hold", "hold": "NONE"}))
    client.one(200, client.acts(anna, {"act": "open-run"}))
    client.one(200, client.acts("berta", {"act": "run-step"}))
    client.one(200, client.request("berta", "POST", "/run/resume", b""))
    client.one(409, client.request("berta", "POST", "/run/resume", b""))
    client.one(409, client.acts(anna, {"act": "review", "record": 4}))
    client.one(200, client.acts(clerk, {"act": "close-aggregation", "aggregation": 2}))
    client.one(400, client.request(clerk, "POST", "/acts", b"no list"))


def files(client: Client) -> None:
    """Has nginx ask for a file that goes into the vault, and report that it is there."""
    client.one(204, client.request("registry", "GET", "/may", Office_Method="PUT", Office_Path=named("a file")))
    client.one(201, client.request("registry", "GET", "/stored?length=6", Office_Path=named("a file")))


def together(client: Client, mark: str) -> None:
    """Sends acts, readings, refusals and questions of nginx at once: what need not be on the disk comes last."""
    acts = [client.acts("legal", placing(f"{mark}{at}")) for at in range(4)]
    acts += [client.acts("registry", filing(100 + client.count + at, 1, mark.encode() * 50)) for at in range(3)]
    readings = [client.reading() for _ in range(3)]
    puts = [client.request("registry", "GET", "/may", Office_Method="PUT", Office_Path=named(f"{mark}{at}"))
            for at in range(4)]
    refusals = [client.request("registry", "GET", f"/history?name={mark}{at}") for at in range(2)]
    refusals += [client.acts("auditor", placing(f"{mark}R{at}")) for at in range(2)]
    client.at_once({200: len(acts) + len(readings), 403: len(refusals), 204: len(puts)}, readings + acts + puts + refusals)


def turned(client: Client, name: str = "", creates: bool = False) -> None:
    """Rotates the journal, as logrotate does with `create` or without; without a name it stays as it is.

    The last line before that is of a reading, which need not be on the disk.
    """
    client.one(200, client.reading())
    world = client.world
    count = head_count(world)
    world.turns.append((name, creates))
    if name:
        world.journal.rename(world.folder / name)
    if creates:
        world.journal.touch()
    assert world.gate is not None
    world.gate.send_signal(signal.SIGHUP)
    ends = time.monotonic() + SECONDS
    while head_count(world) == count:
        if time.monotonic() > ends:
            raise AssertionError("the gate does not go on in another file")
        time.sleep(0.01)


def head_count(world: Traced) -> int:
    """Counts the heads that the gate printed: it prints one once it goes on in another file."""
    return (world.folder / "log").read_text().count("office-gate: head ")


def unanswered(world: Traced, client: Client) -> None:
    """Puts something in the place of the office that takes an act and answers nothing, or half an answer."""
    world.stop_office()
    stand = Stand(world.port)
    for answer in (b"", b"HTTP/1.1 200 OK\r\nContent-Length: 40\r\n\r\n[{\"done\":"):
        stand.told(answer)
        client.one(502, client.acts("legal", placing(f"LOST{len(answer)}")))
    stand.link.close()


def worked(folder: pathlib.Path) -> tuple[Traced, Client]:
    """Traces a gate through acts of many kinds, files, and lists that come together, with a rotation between these."""
    world = started(folder)
    client = Client(world)
    alone(client)
    files(client)
    together(client, "A")
    turned(client, "journal-20260101")
    together(client, "B")
    return world, client
