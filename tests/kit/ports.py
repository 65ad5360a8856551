"""Ports of this machine for a trial: each is free, and given once."""
from __future__ import annotations

import os
import socket

FIRST, COUNT = 22_000, 10_000
"""below 32768, from where Linux takes the ports of outgoing connections: none of these takes a port that was given"""
GIVEN: set[int] = set()


def free_port() -> int:
    """Returns a port that is free and was not given before. Another process may take it: `kit.office` tries again then."""
    for at in range(COUNT):
        port = FIRST + (os.getpid() * 37 + at) % COUNT
        if port not in GIVEN and is_free(port):
            GIVEN.add(port)
            return port
    raise OSError(f"no port from {FIRST} to {FIRST + COUNT - 1} is free")


def is_free(port: int) -> bool:
    """Whether nobody listens at a port of loopback."""
    try:
        with socket.create_server(("127.0.0.1", port)):
            return True
    except OSError:
        return False
