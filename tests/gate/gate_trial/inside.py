"""Clients of the trial within its machine: inside.py PLACE asks through nginx until the file PLACE is there.

Three names read, three act, each one request after another, and each request has a connection of its own. It prints how
often each status came, 0 for none at all, the slowest answer in seconds, and the codes of the holds that were placed.
"""
import base64
import collections
import http.client
import json
import pathlib
import socket
import ssl
import sys
import threading
import time

PASSWORD = "one for all"
CERTIFICATE = "/etc/nginx/office/office.crt"


def ask(name: str, method: str, path: str, body: object = None) -> tuple[int, bytes]:
    """Asks once; 0 says that no whole answer came."""
    link = http.client.HTTPSConnection("localhost")
    word = base64.b64encode(f"{name}:{PASSWORD}".encode()).decode()
    try:
        # a small Debian does not know the name localhost
        plain = socket.create_connection(("127.0.0.1", 443), 200)
        link.sock = ssl.create_default_context(cafile=CERTIFICATE).wrap_socket(plain, server_hostname="localhost")
        link.request(method, path, None if body is None else json.dumps(body),
                     {"Authorization": f"Basic {word}", "Origin": "https://localhost"})
        answer = link.getresponse()
        return answer.status, answer.read()
    except (OSError, http.client.HTTPException):
        return 0, b""
    finally:
        link.close()


class Load:
    """What the clients saw."""

    def __init__(self, place: pathlib.Path) -> None:
        self.place, self.lock = place, threading.Lock()
        self.statuses: collections.Counter[str] = collections.Counter()
        self.slowest = 0.0
        self.placed: list[str] = []

    def run(self, at: int) -> None:
        number = 0
        while not self.place.exists():
            number += 1
            began, code = time.monotonic(), f"L{at}-{int(time.time() * 1000) % 10**10}"[:16]
            if at % 2:
                status, _ = ask("auditor", "GET", "/city/records/1")
            else:
                act = {"act": "place-hold", "day": time.strftime("%Y-%m-%d"), "code": code, "reason": "r"}
                status, _ = ask("legal", "POST", "/city/acts", [act])
            with self.lock:
                self.statuses[str(status)] += 1
                self.slowest = max(self.slowest, time.monotonic() - began)
                if status == 200 and not at % 2:
                    self.placed.append(code)


def main(words: list[str]) -> None:
    load = Load(pathlib.Path(words[0]))
    threads = [threading.Thread(target=load.run, args=(it,)) for it in range(6)]
    for it in threads:
        it.start()
    for it in threads:
        it.join()
    print(json.dumps({"statuses": load.statuses, "slowest": load.slowest, "placed": load.placed}))


if __name__ == "__main__":
    main(sys.argv[1:])
