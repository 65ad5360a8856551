"""Clients that have their answer and keep their side open: they are closed after a moment, and nobody waits for them.

What such a client still sends is read for as long, since unread bytes would reset the connection and might take the
answer away.
"""
import select
import socket
import time

BLOCK = 65536
LINGER_SECONDS = 0.1
MOST = 200
"""so many linger at once; the oldest is closed for one more"""


class Lingering:
    """The clients that linger, each with the time of its end, the oldest first."""

    def __init__(self) -> None:
        self.clients: dict[socket.socket, float] = {}

    def add(self, client: socket.socket) -> None:
        """Takes a connection that has its answer."""
        client.setblocking(False)
        try:
            client.shutdown(socket.SHUT_WR)
        except OSError:
            client.close()
            return
        self.clients[client] = time.monotonic() + LINGER_SECONDS
        if len(self.clients) > MOST:
            self.close(next(iter(self.clients)))

    def seconds_left(self) -> float | None:
        """Returns how long until the first of them ends; None if there is none."""
        return max(0.0, min(self.clients.values()) - time.monotonic()) if self.clients else None

    def read(self, ready: list[object]) -> None:
        """Reads what these have sent, and closes those that have ended or whose time is over."""
        now = time.monotonic()
        for client, ends in list(self.clients.items()):
            if client in ready and not self.has_more(client) or ends <= now:
                self.close(client)

    def has_more(self, client: socket.socket) -> bool:
        try:
            return bool(client.recv(BLOCK))
        except BlockingIOError:
            return True
        except OSError:
            return False

    def close(self, client: socket.socket) -> None:
        del self.clients[client]
        client.close()

    def end(self) -> None:
        """Waits for all of them, for their time at most."""
        while (seconds := self.seconds_left()) is not None:
            self.read(select.select(list(self.clients), [], [], seconds)[0])
