"""A connection to etcd's gateway that stays open: a POST, and its whole answer.

h11 writes and reads the messages. The reader of `http.client` makes a message of the mail of each head, which costs more
than all else of a call.
"""
from __future__ import annotations

import http.client
import select
from typing import Sequence

import h11

from replica.errors import NotTaken

BLOCK = 65_536


class Link:
    """One connection, for one thread at a time. OSError, ValueError: there is no whole answer, and it is of no more use."""

    def __init__(self, connection: http.client.HTTPConnection) -> None:
        """Takes one that is connected."""
        if connection.sock is None:
            raise NotTaken("etcd: no connection")
        self.connection, self.place = connection, f"{connection.host}:{connection.port}"
        self.talk = h11.Connection(h11.CLIENT)

    def is_open(self) -> bool:
        """Returns whether it takes one more request: neither side has closed it."""
        if self.talk.our_state is not h11.IDLE:
            return False
        poll = select.poll()
        poll.register(self.connection.sock, select.POLLIN)
        return not poll.poll(0)

    def close(self) -> None:
        self.connection.close()

    def ask(self, path: str, body: bytes, lines: Sequence[tuple[str, str]] = ()) -> tuple[int, bytes]:
        """Returns the status and the body of the answer. `lines` are more lines of the head."""
        try:
            return self.answered(h11.Request(method="POST", target=path, headers=[
                ("Host", self.place), ("Content-Type", "application/json"), ("Content-Length", str(len(body))), *lines]), body)
        except h11.ProtocolError as error:
            raise ValueError(str(error)) from error

    def answered(self, head: h11.Request, body: bytes) -> tuple[int, bytes]:
        sent = (self.talk.send(head), self.talk.send(h11.Data(body)), self.talk.send(h11.EndOfMessage()))
        self.connection.sock.sendall(b"".join(it or b"" for it in sent))
        status, parts = 0, list[bytes]()
        while not isinstance(event := self.event(), h11.EndOfMessage):
            if isinstance(event, h11.Response):
                status = event.status_code
            elif isinstance(event, h11.Data):
                parts.append(bytes(event.data))
        if self.talk.our_state is h11.DONE:
            self.talk.start_next_cycle()
        return status, b"".join(parts)

    def event(self) -> h11.Event:
        """Returns the next part of the answer."""
        while (event := self.talk.next_event()) is h11.NEED_DATA:
            self.talk.receive_data(self.connection.sock.recv(BLOCK))
        if isinstance(event, (h11.Event,)) and not isinstance(event, h11.ConnectionClosed):
            return event
        raise ConnectionError("no whole answer")
