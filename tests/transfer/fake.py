"""An office that answers what the trial wants, also what no office answers, with a vault and a catalogue beside it."""
import base64
import contextlib
import hashlib
import http.server
import json
import ssl
import threading
import time
import urllib.parse
from dataclasses import dataclass, field



def digest(data: bytes) -> str:
    return hashlib.sha256(data).hexdigest()


def certificate(run: int, entries: list[tuple]) -> bytes:
    """A certificate of entries: record, outcome, ref, length, digest."""
    sent = [it for it in entries if it[1] == "sent"]
    lines = [f"CERTIFICATE {run}", "DAY 2024-03-04", "BY M. Vane", "ENDED 0", f"SENT {len(sent)}", "SKIPPED 0"]
    lines += [f"ENTRY\t{n}\t{what}\t{ref}\tMAPS\tMAP-30\t2023-06-01\t-\tM. Vane\t{length}\t{sha}"
              for n, what, ref, length, sha in entries]
    body = "".join(f"{it}\n" for it in [*lines, "SPENT 0"]).encode()
    return body + f"SHA256 {digest(body)}\n".encode()


@dataclass
class Fake:
    """The answers by path: a status and a body each; and how long each takes."""

    answers: dict[str, tuple[int, bytes]] = field(default_factory=dict)
    seconds: float = 0.0
    # the length that is told of a body, where it is another than its own
    told: dict[str, int] = field(default_factory=dict)
    # NAME:PASSWORD, and the certificate and key of TLS, if it asks for these
    login: str = ""
    tls: tuple[str, str] | None = None

    def record(self, number: int, ref: str, title: str, content: bytes | None, ended: dict | None = None) -> tuple:
        """Adds a record, and returns its entry; a content of None is gone."""
        data = b"gone" if content is None else content
        sha = digest(data)
        report = {"number": number, "ref": ref, "title": title, "originated": "1993-06-01", "added": "2024-01-12",
                  "aggregation": 3, "digest": sha, "ended": ended, "status": "ended" if ended else "sent"}
        self.answers[f"/records/{number}"] = (200, json.dumps(report).encode())
        self.answers[f"/records/{number}/content"] = (404, b'{"error":"content"}') if content is None else (200, content)
        return number, "sent", ref, len(data), sha

    def close(self, run: int, entries: list[tuple]) -> None:
        self.answers[f"/certificates/{run}"] = (200, certificate(run, entries))

    def __enter__(self) -> "Fake":
        fake = self

        class Handler(http.server.BaseHTTPRequestHandler):
            def do_GET(self) -> None:
                time.sleep(fake.seconds)
                path = urllib.parse.unquote(self.path).removeprefix("/city")
                status, body = fake.answers.get(path, (404, missing(path)))
                known = "Basic " + base64.b64encode(fake.login.encode()).decode()
                if fake.login and self.headers.get("Authorization") != known:
                    status, body = 401, b'{"error":"password"}'
                self.send_response(status)
                self.send_header("Content-Length", str(fake.told.get(self.path, len(body))))
                self.end_headers()
                # a client that is killed reads no more
                with contextlib.suppress(ConnectionError):
                    self.wfile.write(body)

            def log_message(self, *_: object) -> None:
                pass

        self.server = http.server.ThreadingHTTPServer(("127.0.0.1", 0), Handler)
        port = self.server.server_address[1]
        self.server.daemon_threads = True
        if self.tls:
            context = ssl.SSLContext(ssl.PROTOCOL_TLS_SERVER)
            context.load_cert_chain(*self.tls)
            self.server.socket = context.wrap_socket(self.server.socket, server_side=True)
        threading.Thread(target=self.server.serve_forever, daemon=True).start()
        self.address = f"https://localhost:{port}/city" if self.tls else f"http://127.0.0.1:{port}"
        self.answers.setdefault("/catalogue/aggregations.json", (200, json.dumps(
            {"moment": "2024-03-04T12:00:00Z",
             "aggregations": [{"number": 3, "ref": "MAP/1993", "title": "Maps of 1993"}]}).encode()))
        return self

    def __exit__(self, *_: object) -> None:
        self.server.shutdown()
        self.server.server_close()


def missing(path: str) -> bytes:
    """What an office says of what is not there."""
    first, _, rest = path.strip("/").partition("/")
    kind = {"certificates": "certificate", "records": "content" if rest.endswith("content") else "record"}
    return json.dumps({"error": kind.get(first, "path" if first != "vault" else "object")},
                      separators=(",", ":")).encode()
