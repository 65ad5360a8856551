"""Offices behind nginx, put there by the commands of docs/SERVICE.md: ports 80 and 443 of a network of its own."""
import base64
import http.client
import json
import os
import pathlib
import re
import shutil
import socket
import ssl
import subprocess
import threading
import time
from typing import NamedTuple

from kit.judging import judge
from kit.waiting import comes

TOP = pathlib.Path(__file__).resolve().parent.parent.parent.parent
OFFICE = pathlib.Path(os.environ.get("OFFICE", TOP / "crates/office/out/office")).resolve()
PASSWORD = "a long one"
NAMES = "/etc/nginx/office/office.htpasswd"
MONITOR = "/etc/nginx/office/monitor.htpasswd"
CERTIFICATE = "/etc/nginx/office/office.crt"
JOURNAL = pathlib.Path("/var/log/office/acts.log")
HERE = {"Origin": "https://localhost"}
# commands of a machine that runs systemd, or that fetch packages
NOT_HERE = ("apt-get", "systemctl", "curl", "fail2ban", "cp deploy/nginx/fail2ban")


class Answer(NamedTuple):
    status: int
    head: dict[str, str]
    body: bytes


def run(command: str, folder: pathlib.Path = TOP) -> subprocess.CompletedProcess[str]:
    env = {**os.environ, "PASSWORD": PASSWORD, "LC_ALL": "C"}
    return subprocess.run(["bash", "-c", command], cwd=folder, env=env, stdin=subprocess.DEVNULL,
                          stdout=subprocess.PIPE, stderr=subprocess.STDOUT, text=True, timeout=600)


def commands() -> list[str]:
    """The commands of the section that puts nginx there."""
    section = (TOP / "docs/SERVICE.md").read_text().split("\n## TLS and access\n")[1].split("\n## ")[0]
    # a line that ends with a backslash goes on in the next
    return re.findall(r"^    (.+)$", re.sub(r" \\\n *", " ", section), re.M)


def install(site: str) -> None:
    """Runs these commands, with the site of one office or of several, and adds a reader and a monitor."""
    for user in ("office", "office-yearend"):
        run(f"adduser --system --group --no-create-home --home /nonexistent {user}")
    for command in commands():
        if command.startswith(NOT_HERE):
            continue
        call = command.replace("deploy/nginx/offices.conf", f"deploy/nginx/{site}")
        done = run(call)
        judge(f"{site}: {call}", done.returncode == 0, done.stdout)
    run(f"htpasswd -iB -C 10 {NAMES} reader <<< \"$PASSWORD\"")
    run(f"htpasswd -ciB -C 10 {MONITOR} monitor <<< \"$PASSWORD\" && chgrp www-data {MONITOR} && chmod 640 {MONITOR}")


def start() -> None:
    """nginx as its unit starts it. Its workers can write no temporary file, so what would need one fails."""
    done = run("nginx -g 'daemon on; master_process on;'")
    judge("nginx starts", done.returncode == 0, done.stdout)
    run("chown root:root /var/lib/nginx/* && chmod 700 /var/lib/nginx/*")


def workers() -> set[int]:
    """The workers of nginx that take requests: not those that end."""
    there = set()
    for place in pathlib.Path("/proc").glob("[0-9]*/cmdline"):
        try:
            title = place.read_bytes()
        except OSError:
            continue
        if title.startswith(b"nginx: worker process") and b"shutting down" not in title:
            there.add(int(place.parent.name))
    return there


def reload() -> bool:
    """Has nginx take its files, and waits until other workers take requests. Returns whether they do."""
    before = workers()
    done = run("nginx -t && nginx -s reload")
    return judge("nginx takes the files", done.returncode == 0 and comes(lambda: workers() and not workers() & before), done.stdout)


def reopen() -> None:
    """Has nginx open its logs again, and waits until each worker has the journal that is there now."""
    run("nginx -s reopen")
    judge("nginx opens its logs again", comes(lambda: all(map(has_journal, workers()))))


def has_journal(worker: int) -> bool:
    """Whether a worker has the journal that is there now."""
    there = JOURNAL.stat()
    try:
        files = [os.stat(file) for file in pathlib.Path(f"/proc/{worker}/fd").iterdir()]
    except OSError:
        return False
    return any((file.st_dev, file.st_ino) == (there.st_dev, there.st_ino) for file in files)


def stop() -> None:
    run("nginx -s quit")
    if not comes(lambda: not pathlib.Path("/run/nginx.pid").exists(), 60):
        raise SystemExit("nginx does not end")


def uninstall() -> None:
    """Takes away what the next installation makes anew."""
    run(f"chattr -a {JOURNAL.parent}/*")
    shutil.rmtree(JOURNAL.parent)
    shutil.rmtree("/etc/nginx/office")
    run("rm -rf /var/lib/nginx/*; nft delete table inet office")


class Office:
    """`office serve` as the user office, over a new file."""

    def __init__(self, folder: pathlib.Path, port: int) -> None:
        program = pathlib.Path("/run/office")
        if not program.exists():
            shutil.copy(OFFICE, program)
            program.chmod(0o755)
        folder.mkdir(exist_ok=True)
        shutil.chown(folder, "office", "office")
        words = ["setpriv", "--reuid", "office", "--regid", "office", "--clear-groups",
                 program, "serve", f"{folder}/{port}.db", str(port), "1000000"]
        self.process = subprocess.Popen(words, stdin=subprocess.DEVNULL, stdout=subprocess.PIPE, text=True)
        line = self.process.stdout.readline()
        if line != f"listening 127.0.0.1:{port}\n":
            raise SystemExit(f"office serve said {line!r}")

    def end(self) -> None:
        self.process.terminate()
        self.process.wait(timeout=30)


class StandIn:
    """In place of an office: it serves one connection after another too, and answers each list with this body.

    It knows which targets came, and for how many seconds an answer kept it at most.
    """

    def __init__(self, port: int, body: bytes, more: bytes = b"") -> None:
        self.lists, self.more = body, more
        self.targets: list[str] = []
        self.longest = 0.0
        self.listening = socket.create_server(("127.0.0.1", port))
        threading.Thread(target=self.serve, daemon=True).start()

    def serve(self) -> None:
        while True:
            try:
                conn, _ = self.listening.accept()
            except OSError:
                return
            began = time.monotonic()
            with conn:
                self.answer(conn)
            self.longest = max(self.longest, time.monotonic() - began)

    def answer(self, conn: socket.socket) -> None:
        with conn.makefile("rb") as asked:
            length = 0
            self.targets.append(asked.readline().decode().split(" ")[1])
            body = self.lists if "due" in self.targets[-1] else b"[]"
            while (line := asked.readline()) not in (b"\r\n", b""):
                if line.lower().startswith(b"content-length:"):
                    length = int(line.split(b":")[1])
            asked.read(length)
            head = b"HTTP/1.1 200 OK\r\nContent-Type: application/json\r\nContent-Length: %d\r\n" % len(body)
            try:
                conn.sendall(head + self.more + b"Connection: close\r\n\r\n" + body)
            except OSError:
                pass  # whoever asked went away

    def __enter__(self) -> "StandIn":
        return self

    def __exit__(self, *_: object) -> None:
        self.end()

    def end(self) -> None:
        self.listening.shutdown(socket.SHUT_RDWR)
        self.listening.close()


def context() -> ssl.SSLContext:
    return ssl.create_default_context(cafile=CERTIFICATE)


def connection(source: str, timeout: float) -> http.client.HTTPSConnection:
    """A connection to nginx from this address."""
    return http.client.HTTPSConnection("localhost", context=context(), timeout=timeout, source_address=(source, 0))


def authorization(name: str = "registrar", password: str = PASSWORD) -> dict[str, str]:
    return {"Authorization": "Basic " + base64.b64encode(f"{name}:{password}".encode()).decode()}


def ask(method: str, path: str, body: bytes | None = None, name: str | None = "registrar", password: str = PASSWORD,
        fields: dict[str, str] | None = None, source: str = "127.0.0.1") -> Answer:
    """A program asks nginx, by this name and password, from an address of its own."""
    conn = connection(source, 120)
    who = {} if name is None else authorization(name, password)
    try:
        conn.request(method, path, body, {**who, **(fields or {})})
        reply = conn.getresponse()
        return Answer(reply.status, dict(reply.getheaders()), reply.read())
    finally:
        conn.close()


def post(path: str, acts: object, name: str | None = "registrar", **more: object) -> Answer:
    """Acts from here: a list, or its bytes."""
    body = acts if isinstance(acts, bytes) else json.dumps(acts).encode()
    return ask("POST", path, body, name, fields=HERE, **more)


def reach(port: int, user: str) -> bool:
    """Whether a process of this user gets a connection to a port of the office."""
    words = f"exec 3<>/dev/tcp/127.0.0.1/{port}"
    return subprocess.run(["runuser", "-u", user, "--", "bash", "-c", words], stderr=subprocess.DEVNULL).returncode == 0


def connected(source: str) -> socket.socket:
    return socket.create_connection(("127.0.0.1", 443), timeout=5, source_address=(source, 0))
