"""The gate as a service: the socket that systemd keeps, readiness, a watchdog, a reload, an end that loses nothing."""
import asyncio
import contextlib
import os
import signal
import socket
import sqlite3
import time
from pathlib import Path

from office_common.notify import FIRST, notify

from office_gate import starting
from office_gate.errors import Answered, Refused, say
from office_gate.gate import Gate
from office_gate.serving import Front
from office_gate.starting import Paths

BACKLOG = 4096
STOP_SECONDS = 300
TURNS = 20
PRUNE_SECONDS = 3600
MINUTE = 60


def listener(place: Path | None) -> socket.socket:
    """Returns the socket that systemd passes, or else a new one of the file system."""
    if os.environ.pop("LISTEN_PID", "") == str(os.getpid()) and os.environ.pop("LISTEN_FDS", "") == "1":
        os.set_inheritable(FIRST, False)
        return socket.socket(fileno=FIRST)
    if place is None:
        raise Refused(2, "there is no --socket, and systemd passes none")
    place.unlink(missing_ok=True)
    listening = socket.socket(socket.AF_UNIX, socket.SOCK_STREAM)
    listening.bind(str(place))
    place.chmod(0o660)
    listening.listen(BACKLOG)
    return listening


async def watch(gate: Gate) -> None:
    """Tells the watchdog of systemd that requests are answered and lines are written; without one it does nothing."""
    seconds = int(os.environ.get("WATCHDOG_USEC", "0")) / 2_000_000
    while seconds:
        await gate.journal.in_thread(time.monotonic)
        await asyncio.to_thread(notify, "WATCHDOG=1")
        await asyncio.sleep(seconds)


async def prune(gate: Gate) -> None:
    while True:
        await asyncio.sleep(PRUNE_SECONDS)
        try:
            # a clock that runs ahead would remove what has to stay
            if gate.clock.is_believed():
                await asyncio.to_thread(gate.journal.contents.prune, gate.access.content_days)
        except OSError as error:
            say(f"contents are not removed, and it is tried again in an hour: {error}")


async def follow(gate: Gate) -> None:
    """Takes the lines of the journal into the histories, so that no reading of one has many to wait for."""
    while True:
        try:
            await asyncio.to_thread(gate.index.catch_up)
        except (OSError, sqlite3.Error) as error:
            say(f"the histories are behind, and it is tried again: {error}")
        await asyncio.sleep(MINUTE)


async def each_minute(gate: Gate) -> None:
    """Looks at the clock, and prints the head of the journal if a line came, so that nobody writes these lines anew."""
    while True:
        await asyncio.sleep(MINUTE)
        gate.clock.is_believed()
        gate.clock.keep(is_asked=gate.journal.written.line > gate.journal.printed)
        # a full disk takes neither; the next minute tries again
        with contextlib.suppress(Answered):
            await gate.clock.note(gate.journal)
            await gate.journal.print_head()


async def serve(gate: Gate, at: socket.socket) -> None:
    """Serves until SIGTERM. Then what is under way is answered, and whoever comes waits at the socket."""
    loop, stop = asyncio.get_running_loop(), asyncio.Event()
    await starting.begin(gate)
    front = Front(gate)
    server = await loop.create_unix_server(front, sock=at, backlog=BACKLOG)
    for number in (signal.SIGTERM, signal.SIGINT):
        loop.add_signal_handler(number, stop.set)
    tasks = [asyncio.ensure_future(task(gate)) for task in (watch, prune, follow, each_minute)]

    def reload() -> None:
        tasks.append(asyncio.ensure_future(gate.reload()))
    loop.add_signal_handler(signal.SIGHUP, reload)
    notify("READY=1")
    await gate.journal.print_head(is_asked=True)
    print("listening", flush=True)
    await stop.wait()
    notify("STOPPING=1")
    await closed(server, at)
    await drained(front)
    gate.index.end()
    for task in tasks:
        task.cancel()
    await front.shutdown(1)
    await gate.journal.append({"what": "closed"})
    await gate.journal.print_head(is_asked=True)
    gate.clock.keep(is_asked=True)
    gate.journal.close()


async def closed(server: asyncio.Server, at: socket.socket) -> None:
    """Takes no more connections. asyncio would drop one that it accepted in the turn before a server closes."""
    asyncio.get_running_loop().remove_reader(at)
    for _ in range(TURNS):
        await asyncio.sleep(0)
    server.close()


async def drained(front: Front) -> None:
    """Waits until each connection that was accepted has its answer, and each act whose client went away is done."""
    ends = time.monotonic() + STOP_SECONDS
    # a connection that was accepted a moment ago is among them only after a turn of the loop
    await asyncio.sleep(0.01)
    while (front.connections or front.under_way) and time.monotonic() < ends:
        await asyncio.sleep(0.01)


def run(paths: Paths, address: str) -> None:
    at = listener(paths.socket)
    gate = starting.opened(paths, address)
    asyncio.run(serve(gate, at))
