"""The listening sockets, which systemd keeps while office-serve restarts, and what systemd is told.

At the port each request is served, at the socket of the file system readings alone.
"""
import grp
import os
import pathlib
import socket
import sys

from office_common.errors import IMPOSSIBLE, USAGE, Refused
from office_common.notify import notify, passed

BACKLOG = 4096
"""so many clients may wait"""
READERS = "office-read"
"""the group whose users may ask at the socket for readings"""
Place = int | str
"""a port of 127.0.0.1, or the path of the socket for readings"""


def name_of(place: Place) -> str:
    return f"port-{place}" if isinstance(place, int) else "readings"


def place_of(listener: socket.socket) -> Place:
    name = listener.getsockname()
    return str(name) if listener.family == socket.AF_UNIX else int(name[1])


def bound(place: Place) -> socket.socket:
    """Binds a port or a path; a path that somebody listens at is taken."""
    if isinstance(place, str):
        return bound_path(pathlib.Path(place))
    try:
        return socket.create_server(("127.0.0.1", place), backlog=BACKLOG)
    except OSError as error:
        raise Refused(IMPOSSIBLE, f"port {place} of 127.0.0.1 cannot be bound: {error.strerror}") from error


def is_taken(path: pathlib.Path) -> bool:
    with socket.socket(socket.AF_UNIX, socket.SOCK_STREAM) as link:
        return link.connect_ex(str(path)) == 0


def bound_path(path: pathlib.Path) -> socket.socket:
    """Binds a socket of the file system, which the users of one group may reach."""
    try:
        if is_taken(path):
            raise Refused(IMPOSSIBLE, f"another process listens at {path}")
        before = os.umask(0o022)
        path.parent.mkdir(parents=True, exist_ok=True)
        path.unlink(missing_ok=True)
        listener = socket.socket(socket.AF_UNIX, socket.SOCK_STREAM)
        os.umask(0o177)
        listener.bind(str(path))
        os.umask(before)
        listener.listen(BACKLOG)
    except OSError as error:
        raise Refused(IMPOSSIBLE, f"{path} cannot be bound: {error.strerror}") from error
    lend(path)
    return listener


def lend(path: pathlib.Path) -> None:
    """Lets the group of the readers reach a socket, if there is such a group; only root can."""
    if os.geteuid() != 0:
        return
    try:
        os.chown(path, -1, grp.getgrnam(READERS).gr_gid)
        path.chmod(0o660)
    except KeyError:
        print(f"office-serve: there is no group {READERS}, so root alone may ask at {path}: "
              f"addgroup --system {READERS}", file=sys.stderr)


def keep(places: list[Place]) -> None:
    """Binds each place and gives the socket to systemd. If a place is taken, systemd may have it already."""
    for place in places:
        try:
            listener = bound(place)
        except Refused:
            continue
        with listener:
            if not notify(f"FDSTORE=1\nFDPOLL=0\nFDNAME={name_of(place)}", listener.fileno()):
                raise Refused(USAGE, "--listen is for a unit of systemd")


def listeners(places: list[Place]) -> list[socket.socket]:
    """Returns the sockets of the places: those of systemd, or else new ones."""
    kept = {place_of(listener): listener for listener in passed()}
    for other in kept.keys() - set(places):
        kept.pop(other).close()
        notify(f"FDSTOREREMOVE=1\nFDNAME={name_of(other)}")
    return [kept.get(it) or bound(it) for it in places]
