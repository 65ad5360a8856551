"""What comes over a connection of a trial."""
from __future__ import annotations

import contextlib
import socket


def rest_of(link: socket.socket) -> bytes:
    """Reads all that comes until the other side closes the connection, or breaks it off."""
    data = b""
    with contextlib.suppress(ConnectionError):
        while block := link.recv(1 << 16):
            data += block
    return data
