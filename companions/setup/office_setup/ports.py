"""Ports of offices: each keeps its own, and a new office gets the first that is free."""
import re
import socket
from collections.abc import Sequence

from office_common.errors import USAGE, Refused
from office_setup import texts
from office_setup.declared import Office
from office_setup.machine import OFFICES, Machine

PORT = re.compile(r"^PORT=(\d+)\s*$", re.M)
KEPT_FOR_ONE = 1
"""ports at the beginning that stay free: the site for one office alone has the first"""


def taken(machine: Machine) -> dict[str, int]:
    """Returns the ports in the settings of this machine's offices, by their names."""
    ports: dict[str, int] = {}
    for file in sorted(machine.at(OFFICES).glob("*.conf")):
        port = PORT.search(file.read_text(encoding="utf-8", errors="replace"))
        if port:
            ports[file.stem] = int(port[1])
    return ports


def is_free(port: int) -> bool:
    """Returns whether nobody listens at a port of this machine."""
    try:
        with socket.create_server(("127.0.0.1", port)):
            return True
    except OSError:
        return False


def all_of(machine: Machine, offices: Sequence[Office]) -> dict[str, int]:
    """Returns the port of each office, and refuses two offices with one port."""
    first, last = texts.port_bounds(machine)
    ports = taken(machine)
    for office in offices:
        if office.name not in ports:
            others = set(ports.values())
            candidates = (port for port in range(first + KEPT_FOR_ONE, last + 1) if port not in others)
            port = next((port for port in candidates if is_free(port)), None)
            if port is None:
                raise Refused(USAGE, f"{office.file}: no port from {first + KEPT_FOR_ONE} to {last} is free")
            ports[office.name] = port
    own = {office.name: ports[office.name] for office in offices}
    for name, port in own.items():
        same = [other for other, number in ports.items() if number == port and other != name]
        if same:
            raise Refused(USAGE, f"{OFFICES}/{name}.conf and {OFFICES}/{same[0]}.conf have one PORT, {port}")
        if not first <= port <= last:
            raise Refused(USAGE, f"{OFFICES}/{name}.conf: PORT={port} is not from {first} to {last}, so no rule closes "
                          "it")
    return own
