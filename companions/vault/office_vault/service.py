"""The service behind nginx: a socket of the file system, at which each connection brings one request."""
import socketserver
from pathlib import Path

from office_common.notify import ready

from office_vault.answering import Handler, Settings


class Sockets(socketserver.ThreadingMixIn, socketserver.UnixStreamServer):
    """A socket in a folder that nginx alone reaches."""

    daemon_threads = True
    request_queue_size = 128


def serve(settings: Settings, place: Path) -> None:
    """Serves until the process ends. What is under way then is cut: the client repeats it."""
    place.unlink(missing_ok=True)
    handler = type("Handler", (Handler,), {"settings": settings})
    with Sockets(str(place), handler) as server:
        place.chmod(0o660)
        print(f"listening {place}", flush=True)
        ready()
        server.serve_forever()
