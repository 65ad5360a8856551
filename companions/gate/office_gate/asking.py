"""One request to the office: a connection, what is sent, and the one answer that comes back whole.

The office is on this machine, and closes each connection after its answer. h11 writes the request and reads the answer.
The client of aiohttp costs more of a processor than all else that the gate does for a reading.
"""
import asyncio
import socket
from dataclasses import dataclass

import h11

BLOCK = 1 << 20
CONNECT_SECONDS = 10.0


class Away(Exception):
    """Nobody took the connection: nothing was sent."""


class Lost(Exception):
    """The connection ended before the answer was whole, or what came is no answer."""


@dataclass(frozen=True)
class Reply:
    """A status, the field lines by their names in small letters, and the body."""

    status: int
    lines: dict[str, str]
    body: bytes


@dataclass(frozen=True)
class OfficeRequest:
    """What is sent."""

    head: h11.Request
    body: bytes

    def written(self, link: h11.Connection) -> bytes:
        parts = (link.send(self.head), link.send(h11.Data(self.body)), link.send(h11.EndOfMessage()))
        return b"".join(it or b"" for it in parts)


def request(method: str, address: str, path: str, body: bytes | None, lines: dict[str, str]) -> OfficeRequest:
    """Makes a request."""
    sent = {"Host": address, **lines, "Connection": "close"}
    if method == "POST":
        sent["Content-Length"] = str(len(body or b""))
    return OfficeRequest(h11.Request(method=method, target=path, headers=list(sent.items())), body or b"")


def is_framed(lines: dict[str, str]) -> bool:
    """Tells whether an answer says where it ends: one that lasts until the connection closes may be cut."""
    return "content-length" in lines or "transfer-encoding" in lines


async def reply_of(taken: socket.socket, link: h11.Connection, seconds: float) -> Reply:
    """Takes an answer from a connection. TimeoutError says that nothing came for so long."""
    loop, status, lines, parts = asyncio.get_running_loop(), 0, dict[str, str](), list[bytes]()
    while True:
        event = link.next_event()
        if event is h11.NEED_DATA:
            async with asyncio.timeout(seconds):
                link.receive_data(await loop.sock_recv(taken, BLOCK))
        elif isinstance(event, h11.Response):
            status, lines = event.status_code, {name.decode(): value.decode() for name, value in event.headers}
            if not is_framed(lines):
                raise Lost
        elif isinstance(event, h11.Data):
            parts.append(bytes(event.data))
        elif isinstance(event, h11.EndOfMessage):
            if link.trailing_data[0]:
                raise Lost
            return Reply(status, lines, b"".join(parts))


async def ask(at: tuple[str, int], sent: OfficeRequest, seconds: float) -> Reply:
    """Sends a request, and returns the answer."""
    loop, link = asyncio.get_running_loop(), h11.Connection(h11.CLIENT)
    try:
        taken = socket.socket(socket.AF_INET, socket.SOCK_STREAM | socket.SOCK_NONBLOCK | socket.SOCK_CLOEXEC)
    except OSError as error:
        raise Away from error
    with taken:
        try:
            async with asyncio.timeout(CONNECT_SECONDS):
                await loop.sock_connect(taken, at)
        except (OSError, TimeoutError) as error:
            raise Away from error
        try:
            async with asyncio.timeout(seconds):
                await loop.sock_sendall(taken, sent.written(link))
            return await reply_of(taken, link, seconds)
        except TimeoutError:
            raise
        except (OSError, UnicodeError, h11.RemoteProtocolError) as error:
            raise Lost from error
