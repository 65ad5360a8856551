"""A server in the place of an office that knows any record, and answers as late as the trial wants."""
import json
import re
import socket
import threading
import time

from gate_trial.answers import whole

PATH = re.compile(rb"(GET|POST) (\S+) ")
LENGTH = re.compile(rb"Content-Length: (\d+)", re.IGNORECASE)


class Stood:
    """Answers each path: records of one class in one aggregation, a due list of any length, and acts."""

    def __init__(self, port: int) -> None:
        self.link = socket.create_server(("127.0.0.1", port), backlog=200)
        self.paths: list[str] = []
        self.rows = 0
        self.aggregation = 1
        # how many seconds an answer takes, by the beginning of its path
        self.slow: dict[str, float] = {}
        threading.Thread(target=self.run, daemon=True).start()

    def run(self) -> None:
        while True:
            try:
                link, _ = self.link.accept()
            except OSError:
                return
            threading.Thread(target=self.one, args=(link,), daemon=True).start()

    def one(self, link: socket.socket) -> None:
        with link:
            data = b""
            while b"\r\n\r\n" not in data:
                data += link.recv(1 << 20)
            head, _, body = data.partition(b"\r\n\r\n")
            length = LENGTH.search(head)
            while length and len(body) < int(length[1]):
                body += link.recv(1 << 20)
            request = PATH.match(head)
            path = request[2].decode() if request else ""
            self.paths.append(path)
            time.sleep(max([seconds for begin, seconds in self.slow.items() if path.startswith(begin)], default=0))
            link.sendall(whole(json.dumps(self.answer(path, body), separators=(",", ":")).encode()))

    def answer(self, path: str, body: bytes) -> object:
        if path == "/acts":
            return [{"number": 7} if act["act"].startswith("add-") else {"done": True} for act in json.loads(body)]
        number = int(path.rpartition("/")[2]) if path.startswith("/records/") else 0
        if number:
            return {"number": number, "ref": f"r{number}", "class": "BLDG1", "status": "here", "confirmed": None,
                    "aggregation": self.aggregation}
        return [{"action": "destroy", "class": "BLDG1", "confirmed": False, "due": "2026-01-01", "held": None,
                 "record": at, "ref": f"r{at}", "schedule": "D0"} for at in range(1, self.rows + 1)]

    def asked_for(self, begin: str) -> int:
        """Counts the requests of a kind, and forgets all."""
        count = sum(path.startswith(begin) for path in self.paths)
        self.paths.clear()
        return count
