"""A door before a port of loopback: what the other side answers comes late through it, or not at all."""
from __future__ import annotations

import contextlib
import json
import queue
import signal
import socket
import threading
import time

from replicas.cluster import Cluster


class Door:
    """Connections to `port` go on to `behind`; each part of an answer comes `seconds` later than it came."""

    def __init__(self, port: int, behind: int, seconds: float) -> None:
        self.behind, self.seconds = behind, seconds
        self.is_silent = False
        """nothing that comes back is passed on"""
        self.listener = socket.create_server(("127.0.0.1", port), backlog=64)
        threading.Thread(target=self.run, daemon=True).start()

    def close(self) -> None:
        """From now on each new connection is refused."""
        self.listener.shutdown(socket.SHUT_RDWR)
        self.listener.close()

    def run(self) -> None:
        with contextlib.suppress(OSError):
            while True:
                one, _ = self.listener.accept()
                other = socket.create_connection(("127.0.0.1", self.behind))
                parts: queue.Queue[tuple[float, bytes]] = queue.Queue()
                for thread in (threading.Thread(target=self.pass_on, args=(one, other), daemon=True),
                               threading.Thread(target=self.take, args=(other, parts), daemon=True),
                               threading.Thread(target=self.give, args=(one, parts), daemon=True)):
                    thread.start()

    def pass_on(self, one: socket.socket, other: socket.socket) -> None:
        """What the client sends, at once."""
        with contextlib.suppress(OSError):
            while part := one.recv(65536):
                other.sendall(part)
            other.shutdown(socket.SHUT_WR)

    def take(self, other: socket.socket, parts: queue.Queue[tuple[float, bytes]]) -> None:
        part = b"-"
        while part:
            try:
                part = other.recv(65536)
            except OSError:
                part = b""
            parts.put((time.monotonic() + self.seconds, part))

    def give(self, one: socket.socket, parts: queue.Queue[tuple[float, bytes]]) -> None:
        """What comes back, in its time; an end of the connection too."""
        with contextlib.suppress(OSError):
            while True:
                due, part = parts.get()
                time.sleep(max(0.0, due - time.monotonic()))
                if not part:
                    return one.close()
                if not self.is_silent:
                    one.sendall(part)


def through_door(cluster: Cluster, machine: int, seconds: float) -> Door:
    """The member of a machine is started anew, and reaches its etcd through a door from now on."""
    port = cluster.base + 90
    door = Door(port, cluster.port(machine, "client"), seconds)
    cluster.kill(f"member{machine}", how=signal.SIGTERM)
    path = cluster.write_settings(machine)
    path.write_text(json.dumps({**json.loads(path.read_text()), "etcd": f"127.0.0.1:{port}"}))
    cluster.start_member(machine)
    cluster.wait_for(machine, cluster.position(0))
    return door
