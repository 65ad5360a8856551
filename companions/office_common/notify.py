"""What systemd is told of a service, and the listening sockets that it passes to one."""
import array
import os
import socket

FIRST = 3
"""the first descriptor that systemd passes"""


def notify(text: str, descriptor: int | None = None) -> bool:
    """Sends systemd a message, with a descriptor if it is to keep one. Returns whether there is a systemd."""
    path = os.environ.get("NOTIFY_SOCKET", "")
    if not path:
        return False
    rights = [] if descriptor is None else [(socket.SOL_SOCKET, socket.SCM_RIGHTS, array.array("i", [descriptor]))]
    with socket.socket(socket.AF_UNIX, socket.SOCK_DGRAM) as link:
        link.sendmsg([text.encode()], rights, 0, "\0" + path[1:] if path[0] == "@" else path)
    return True


def ready() -> None:
    """Notifies systemd that the service answers."""
    notify("READY=1")


def alive() -> None:
    """Notifies the watchdog of systemd that the service goes on."""
    notify("WATCHDOG=1")


def passed() -> list[socket.socket]:
    """Returns the listening sockets that systemd passes, none to a child of the service."""
    if os.environ.pop("LISTEN_PID", "") != str(os.getpid()):
        return []
    count = int(os.environ.pop("LISTEN_FDS", "0"))
    for descriptor in range(FIRST, FIRST + count):
        os.set_inheritable(descriptor, False)
    return [socket.socket(fileno=descriptor) for descriptor in range(FIRST, FIRST + count)]
