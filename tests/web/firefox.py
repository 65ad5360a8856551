"""Each view that an address opens, in Debian's Firefox ESR, by its --screenshot: it has no driver there.

Firefox asks nobody for a password and trusts no key of its own accord. So a server of this trial is between: it asks
nginx with the password, and gives the answers on at http://localhost, which browsers trust as they do https. It also
keeps Firefox from its picture until the page has had time to ask the office: an image at the end of it comes late.
"""
import contextlib
import http.server
import os
import pathlib
import shutil
import struct
import subprocess
import tempfile
import threading
import time

import shots
from kit.judging import judge, same
from place import Proxy

# the address of a view, and the path that it asks for
VIEWS = {
    "due": ("#due?day=2022-05-02", "/due/2022-05-02"),
    "overdue": ("#overdue?day=2022-05-02&count=30", "/overdue/2022-05-02/30"),
    "outlook": ("#outlook", "/due/2999-12-31"),
    "catalogue-records": ("#catalogue?part=records&text=application", "/catalogue/records.json"),
    "catalogue-aggregations": ("#catalogue?part=aggregations", "/catalogue/aggregations.json"),
    "catalogue-holds": ("#catalogue?part=holds", "/catalogue/holds.json"),
    "record": ("#record?number=1", "/records/1"),
    "certificate": ("#certificate?number=1", "/certificates/1"),
    "run": ("#run?number=1", "/certificates/1"),
    "holds": ("#holds?code=Q-2020-17", "/web/texts/en.json"),
    "plan": ("#plan", "/web/texts/en.json"),
    "file": ("#file", "/web/texts/en.json"),
    "import": ("#import", "/web/texts/en.json"),
    "fault": ("#fault", "/web/texts/en.json"),
}
# the seconds that Firefox has to ask for that path, and then, from one attempt to the next, to draw what came
MOST, WAITS = 90, (5.0, 20.0, 60.0)
# a picture without the view is of some 20,000 bytes
LEAST = 32_000


class Between(http.server.BaseHTTPRequestHandler):
    """Asks nginx, with the password."""

    proxy: Proxy
    seen: list[str] = []
    wanted = ""
    wait = WAITS[0]
    lock = threading.Lock()

    def do_GET(self) -> None:
        Between.seen.append(self.path)
        if self.path.startswith("/late"):
            until = time.time() + MOST
            while Between.wanted not in Between.seen and time.time() < until:
                time.sleep(0.2)
            time.sleep(Between.wait)
            return self.give(404, {}, b"")
        with Between.lock:
            status, body = self.proxy.ask("GET", self.path, fields={"Accept-Encoding": "identity"})
            head = self.proxy.head
        if self.path.split("?")[0].endswith("/web/"):
            body = body.replace(b"</body>", b'<img src="/late" alt=""></body>')
        passed = {
            name: head[name] for name in ("Content-Type", "Content-Security-Policy", "Cache-Control") if name in head
        }
        return self.give(status, passed, body)

    def give(self, status: int, head: dict[str, str], body: bytes) -> None:
        self.send_response(status)
        for name, value in {**head, "Content-Length": str(len(body))}.items():
            self.send_header(name, value)
        self.end_headers()
        self.wfile.write(body)

    def log_message(self, *_: object) -> None:
        pass


def size_of(picture: pathlib.Path) -> tuple[int, int]:
    """The width and height of a PNG."""
    width, height = struct.unpack(">II", picture.read_bytes()[16:24])
    return width, height


def shot(address: str, picture: pathlib.Path, width: int, height: int) -> None:
    """Lets Firefox make a picture; there is none if it does not come to that in time."""
    picture.unlink(missing_ok=True)
    with tempfile.TemporaryDirectory() as home, contextlib.suppress(subprocess.TimeoutExpired):
        profile = pathlib.Path(home) / "profile"
        profile.mkdir()
        subprocess.run(
            [
                "firefox-esr",
                "--headless",
                "--no-remote",
                "--profile",
                profile,
                f"--window-size={width},{height}",
                "--screenshot",
                picture,
                address,
            ],
            env={**os.environ, "HOME": home},
            stdin=subprocess.DEVNULL,
            stdout=subprocess.DEVNULL,
            stderr=subprocess.DEVNULL,
            timeout=300,
            check=False,
        )


def tell(proxy: Proxy, folder: pathlib.Path) -> None:
    """A picture of each view, of which somebody has to look what is in it; each has asked for what it shows."""
    if not shutil.which("firefox-esr"):
        print("not done here, without firefox-esr: each view in Firefox")
        return
    Between.proxy = proxy
    server = http.server.ThreadingHTTPServer(("127.0.0.1", 0), Between)
    threading.Thread(target=server.serve_forever, daemon=True).start()
    try:
        for name, (address, path) in VIEWS.items():
            Between.seen.clear()
            Between.wanted = path
            picture = (shots.PLACE or folder) / f"firefox-{name}.png"
            for wait in WAITS:
                Between.wait = wait
                shot(f"http://localhost:{server.server_port}/web/{address}", picture, 1280, 900)
                if picture.exists() and picture.stat().st_size > LEAST:
                    break
            judge(f"Firefox: {name}: it asks for what it shows", path in Between.seen, str(Between.seen))
            same(f"Firefox: {name}: a picture of it", picture.exists() and size_of(picture), (1280, 900))
            if picture.exists():
                judge(
                    f"Firefox: {name}: something is on it",
                    picture.stat().st_size > LEAST,
                    str(picture.stat().st_size),
                )
    finally:
        server.shutdown()
