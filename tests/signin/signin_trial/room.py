"""office-sign-in with its files in a folder, and a browser that asks it as nginx does."""
from __future__ import annotations

import base64
import hashlib
import http.client
import json
import os
import pathlib
import re
import signal
import socket
import subprocess
import threading
import urllib.parse
from collections.abc import Callable, Iterable, Mapping
from concurrent.futures import ThreadPoolExecutor
from typing import Any, NamedTuple, TypeVar

from kit.commands import TOP, Done, run
from kit.nginx import end
from kit.waiting import comes
from signin_trial.slapd import BASE, PASSWORDS, READER, READER_PASSWORD, Slapd

SOURCES = pathlib.Path(os.environ.get("SIGNIN_SOURCES", TOP / "companions"))
"""the companions that are tried: those of the repository, or a copy with a mistake"""
PROGRAM = SOURCES / "signin/office-sign-in"
GATE = SOURCES / "gate/office-gate"
SITE = "https://records.city.example"
LOCAL_PASSWORD = "the-directory-is-away"
TOKEN = "token-of-intake-0123456789abcdef0123456789abcdef"
OWN = (TOP / "companions/gate/city.access").read_text()
"""the city's own statements: those of the example, with names of its own"""
HEAD = """site = "https://records.city.example"
zone = "Europe/Berlin"
mail = "it@city.example"
"""
ROLES = """[roles.city]
"records-registry" = "registry"
"Records Managers" = "records-manager"
"Building, (works)" = { is = "department", in = ["BLDG*"] }
"""


Value = TypeVar("Value")


def together(work: Iterable[Callable[[], Value]]) -> list[Value]:
    """Runs several at once, and returns what each returned: a refusal takes a second."""
    with ThreadPoolExecutor(16) as threads:
        return list(threads.map(lambda one: one(), work))


class Reply(NamedTuple):
    """An answer: its status, lines and body."""

    status: int
    lines: list[tuple[str, str]]
    body: str

    def line(self, name: str) -> str:
        """Returns a line of the head, or nothing."""
        return next((value for key, value in self.lines if key.lower() == name.lower()), "")

    def cookies(self) -> dict[str, str]:
        """Returns what the answer sets, with all that stands behind each value."""
        values = [value for key, value in self.lines if key.lower() == "set-cookie"]
        return {value.partition("=")[0]: value.partition("=")[2] for value in values}


class Unix(http.client.HTTPConnection):
    """A connection to a socket of the file system."""

    def __init__(self, path: pathlib.Path) -> None:
        super().__init__("localhost", timeout=60)
        self.path = path

    def connect(self) -> None:
        self.sock = socket.socket(socket.AF_UNIX)
        self.sock.settimeout(self.timeout)
        self.sock.connect(str(self.path))


class Room:
    """The service with its folder."""

    def __init__(self, folder: pathlib.Path, settings: str, **env: str) -> None:
        self.folder, self.env = folder, env
        self.socket, self.journal = folder / "socket", folder / "sign-in.journal"
        self.state, self.given = folder / "state", folder / "given"
        self.state.mkdir(parents=True)
        (folder / "reader").write_text(READER_PASSWORD + "\n")
        self.file = folder / "settings.toml"
        self.file.write_text(settings)
        self.process: subprocess.Popen[bytes] | None = None
        self.is_over = threading.Event()
        self.gives = True

    def arguments(self) -> list[str]:
        return ["/usr/bin/python3", "-I", str(PROGRAM), "serve", "--settings", str(self.file), "--socket", str(self.socket),
                "--journal", str(self.journal), "--state", str(self.state), "--given", str(self.given)]

    def start(self, *before: str) -> None:
        """Starts the service, and waits until it answers."""
        self.socket.unlink(missing_ok=True)
        self.log = (self.folder / "log").open("ab")
        self.process = subprocess.Popen([*before, *self.arguments()], stdin=subprocess.DEVNULL, stdout=self.log, stderr=self.log,
                                        start_new_session=True, env={**os.environ, **self.env})
        assert comes(lambda: self.answers() or self.process and self.process.poll() is not None, 60), "no socket"
        assert self.process.poll() is None, self.said()
        if self.gives:
            self.is_over.clear()
            threading.Thread(target=self.give, daemon=True).start()

    def give(self) -> None:
        """Stands for root, who gives the gates each new table of people."""
        file = self.state / "people.json"
        while not self.is_over.wait(0.02):
            if file.exists():
                self.given.write_text(hashlib.sha256(file.read_bytes()).hexdigest())

    def answers(self) -> bool:
        try:
            return self.socket.exists() and self.ask("GET", "/who").status == 401
        except OSError:
            return False

    def stop(self) -> None:
        self.is_over.set()
        if self.process:
            end(self.process)
            self.process = None

    def reload(self) -> None:
        """Has the service open its journal anew, and ask the directory about all sessions."""
        assert self.process
        self.process.send_signal(signal.SIGHUP)

    def said(self) -> str:
        return (self.folder / "log").read_text(errors="replace")

    def ask(self, method: str, path: str, lines: Mapping[str, str] | list[tuple[str, str]] = {}, body: bytes = b"") -> Reply:
        """Sends a request as nginx does, with these lines, also one that is there twice."""
        link = Unix(self.socket)
        pairs = list(lines.items()) if isinstance(lines, Mapping) else lines
        link.putrequest(method, path, skip_host=True, skip_accept_encoding=True)
        usual = [("Host", "records.city.example"), ("Office-From", "192.0.2.7"), ("Connection", "close")]
        named = {key.lower() for key, _ in pairs}
        for key, value in [*(pair for pair in usual if pair[0].lower() not in named), *pairs]:
            link.putheader(key, value.encode("latin-1"))
        if body:
            link.putheader("Content-Length", str(len(body)))
        link.endheaders(body or None)
        answer = link.getresponse()
        text = answer.read().decode(errors="replace")
        link.close()
        return Reply(answer.status, answer.getheaders(), text)

    def who(self, cookies: str = "", **lines: str) -> Reply:
        """Asks as nginx does who sends a cookie."""
        pairs = {key.replace("_", "-"): value for key, value in lines.items()}
        return self.ask("GET", "/who", {**({"Cookie": cookies} if cookies else {}), **pairs})

    def entries(self) -> list[dict[str, Any]]:
        """Returns the journal, once its chain is looked at."""
        lines = self.journal.read_bytes().split(b"\n")[:-1]
        before, found = "0" * 64, []
        for number, line in enumerate(lines, 1):
            entry = json.loads(line)
            assert entry["before"] == before and entry["line"] == number, (number, line)
            before = hashlib.sha256(line).hexdigest()
            found.append(entry)
        return found

    def people(self) -> dict[str, Any]:
        file = self.state / "people.json"
        return json.loads(file.read_text()) if file.exists() else {}

    def mails(self) -> list[str]:
        folder = self.state / "mails"
        return [file.read_text() for file in sorted(folder.iterdir())] if folder.exists() else []

    def sign_in(self, name: str, password: str | None = None, to: str = "/city/web/", address: str = "192.0.2.7") -> Reply:
        """Signs somebody in by the form, as a browser does."""
        page = self.ask("GET", f"/sign-in?{urllib.parse.urlencode({'to': to})}")
        return self.send(page, name, PASSWORDS.get(name, "") if password is None else password, to, address)

    def send(self, page: Reply, name: str, password: str, to: str = "/city/web/", address: str = "192.0.2.7",
             **changed: str) -> Reply:
        """Sends a form that was shown."""
        mark = re.search(r'name="mark" value="([0-9a-f]*)"', page.body)
        cookie = page.cookies().get("__Host-office-form", "").split(";")[0]
        fields = {"name": name, "password": password, "to": to, "mark": mark[1] if mark else "", **changed}
        return self.ask("POST", "/sign-in", {
            "Cookie": f"__Host-office-form={cookie}", "Origin": SITE, "Sec-Fetch-Site": "same-origin", "Office-From": address,
            "Content-Type": "application/x-www-form-urlencoded"}, urllib.parse.urlencode(fields).encode())


def session_of(reply: Reply) -> str:
    """Returns the cookie of a session that an answer began, as a browser sends it."""
    value = reply.cookies().get("__Host-office", "").split(";")[0]
    return f"__Host-office={value}" if value else ""


def basic(name: str, token: str) -> str:
    return "Basic " + base64.b64encode(f"{name}:{token}".encode()).decode()


def directory(slapd: Slapd, folder: pathlib.Path, **more: str) -> str:
    """Returns the table of the directory in the settings."""
    values = {"url": f"ldap://127.0.0.1:{slapd.port}", "reader": READER, "reader-password": str(folder / "reader"),
              "people": f"ou=people,{BASE}", "groups": f"ou=groups,{BASE}", **more}
    return "[directory]\n" + "".join(f"{key} = {json.dumps(value) if value not in ('true', 'false') else value}\n"
                                     for key, value in values.items())


def others(ends: str = "2099-12-31") -> str:
    """Returns the tables of a local name and of a program."""
    done = tool("password", "--stdin", data=f"{LOCAL_PASSWORD}\n".encode())
    digest = hashlib.sha256(TOKEN.encode()).hexdigest()
    return f"[local]\nregistrar = \"{done.out.strip()}\"\n[programs.intake]\ntoken = \"{digest}\"\nends = {ends}\n"


def tool(*arguments: object, data: bytes | None = None) -> Done:
    """Runs office-sign-in."""
    return run("/usr/bin/python3", "-I", PROGRAM, *arguments, data=data)
