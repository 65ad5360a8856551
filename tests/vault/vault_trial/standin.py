"""In place of an office, for what needs none: it says what a record is, and gives its content to who may read it."""
import base64
import contextlib
import hashlib
import http.server
import json
import threading

from vault_trial.office import Record


class StandIn:
    """Records and contents in memory. `readers` names who may read a record; without them everybody may."""

    def __init__(self, port: int) -> None:
        self.port, self.file = port, None
        self.records: dict[int, Record] = {}
        self.contents: dict[int, bytes] = {}
        self.readers: dict[int, set[str]] = {}
        self.asked: list[tuple[str, dict[str, str]]] = []
        self.status = 0
        self.aggregations = 0
        self.server: http.server.ThreadingHTTPServer | None = None

    def start(self) -> None:
        handler = type("Handler", (Answering,), {"office": self})
        self.server = http.server.ThreadingHTTPServer(("127.0.0.1", self.port), handler)
        threading.Thread(target=self.server.serve_forever, args=[0.05], daemon=True).start()

    def stop(self) -> None:
        if self.server:
            self.server.shutdown()
            self.server.server_close()
            self.server = None

    def found(self) -> None:
        """It needs no schedules."""

    def add(self, kind: str, content: bytes, names: set[str]) -> int:
        number = len(self.records) + 1
        self.records[number] = Record(kind, names, hashlib.sha256(content).hexdigest())
        self.contents[number] = content
        return number

    def act(self, it: dict[str, str]) -> dict[str, object]:
        """Does one act that adds something; a record with a content that is there is the same one."""
        if it["act"] == "add-aggregation":
            self.aggregations += 1
            return {"number": self.aggregations}
        content = base64.b64decode(it["content"])
        there = [number for number, one in self.contents.items() if one == content]
        return {"number": there[0], "same": True} if there else {"number": self.add("K", content, set())}

    def end(self, number: int) -> None:
        self.records[number].status, self.records[number].run = "ended", 1

    def named(self) -> set[str]:
        return {name for it in self.records.values() if it.has_content() for name in it.names}

    def said(self, number: int) -> bytes:
        it = self.records[number]
        end = {"outcome": "destroyed", "run": it.run} if it.run else None
        return json.dumps({"ref": f"r{number}", "digest": it.digest, "length": len(self.contents[number]),
                           "status": it.status, "ended": end, "class": it.kind}).encode()


class Answering(http.server.BaseHTTPRequestHandler):
    """One answer, and the connection is closed."""

    office: StandIn

    def do_GET(self) -> None:
        office = self.office
        parts = self.path.split("/")
        number = int(parts[2]) if parts[2].isdigit() else 0
        office.asked.append((self.path, dict(self.headers.items())))
        it, who = office.records.get(number), self.headers.get("Office-Name", "")
        if office.status:
            self.say(office.status, b"{}")
        elif it is None:
            self.say(404, b'{"error":"record"}')
        elif len(parts) == 3:
            self.say(200, office.said(number))
        elif who not in office.readers.get(number, {who}):
            self.say(403, b'{"error":"name"}')
        elif not it.has_content():
            self.say(404, b'{"error":"content"}')
        else:
            self.say(200, office.contents[number])

    def do_POST(self) -> None:
        acts = json.loads(self.rfile.read(int(self.headers["Content-Length"])))
        self.say(200, json.dumps([self.office.act(it) for it in acts]).encode())

    def say(self, status: int, body: bytes) -> None:
        self.send_response(status)
        self.send_header("Content-Length", str(len(body)))
        # who asked may be killed
        with contextlib.suppress(ConnectionError):
            self.end_headers()
            self.wfile.write(body)

    def log_message(self, *_: object) -> None:
        """It keeps no journal."""
