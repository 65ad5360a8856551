"""An office and a gate for the trial: the real program, served, and the gate at a socket of its own."""
import contextlib
import http.client
import json
import os
import pathlib
import shutil
import signal
import socket
import sqlite3
import subprocess
import threading
import time
from collections.abc import Callable
from typing import Any

from kit.nginx import end
from kit.ports import free_port
from kit.sockets import rest_of

TOP = pathlib.Path(__file__).resolve().parents[3]
OFFICE = os.environ.get("OFFICE") or str(TOP / "crates/office/out/office")
SOURCES = pathlib.Path(os.environ.get("GATE_SOURCES") or TOP / "companions")
GATE = SOURCES / "gate/office-gate"
JOURNAL = SOURCES / "gate/office-journal"
PYTHON = "/usr/bin/python3"
TOKEN = "0123456789abcdef" * 4
OFFICE_TOKEN = "fedcba9876543210" * 4
HERE = {"Host": "localhost", "Origin": "https://localhost"}
SITE = "site https://localhost\nzone {zone}\n"
READER = "office-reader"
READING = f"role {READER} reads records contents lists certificates\nname {READER} is {READER}\n"
"""the rights of the reader, by whose name the gate asks an office that decides too"""


STARTED: list[subprocess.Popen[Any]] = []
"""what the trial started, to end it however the trial ends"""
ALIKE: list[str] = []
"""with an item, each office decides too, by the settings of its gate"""
LEADERS: set[int] = set()
"""which of these have a process group of their own"""
BEGAN = [time.time()]
"""when the part began"""
WAIT_SECONDS = 60
"""what a machine under load takes at most for what takes a moment"""


def end_all() -> None:
    """Ends what was started: what has a group of its own with all of that."""
    for it in STARTED:
        if it.pid in LEADERS:
            end(it)
        else:
            it.kill()
            it.wait()
    STARTED.clear()
    LEADERS.clear()


def begin_part() -> None:
    """Notes the moment at which a part begins."""
    BEGAN[0] = time.time()


def today(days: int = 0) -> str:
    """Returns the day on which the part began, or one so many days later: midnight may pass while it runs."""
    return time.strftime("%Y-%m-%d", time.gmtime(BEGAN[0] + 86400 * days))


def until(holds: Callable[[], object], seconds: float = WAIT_SECONDS) -> bool:
    """Waits until something holds, and reports whether it does before the time is over."""
    ends = time.monotonic() + seconds
    while not holds():
        if time.monotonic() > ends:
            return False
        time.sleep(0.01)
    return True


class World:
    """One office behind one gate, in a folder."""

    def __init__(self, folder: pathlib.Path, settings: str) -> None:
        self.folder = folder
        folder.mkdir(parents=True)
        self.file, self.settings = folder / "office.db", folder / "access"
        self.place, self.journal, self.state = folder / "socket", folder / "journal", folder / "state"
        self.catalogue = folder / "catalogue"
        self.state.mkdir()
        (folder / "token").write_text(TOKEN)
        self.port = free_port()
        self.listener: socket.socket | None = None
        self.more: dict[str, str] = {}
        # whether the office decides too, and whether it goes by the settings of the gate
        self.decides, self.is_alike = False, bool(ALIKE)
        if self.is_alike:
            self.decide("")
        self.settle(settings)
        self.office: subprocess.Popen | None = None
        self.gate: subprocess.Popen | None = None
        self.log = (folder / "log").open("wb")

    # ---- processes

    def start_office(self) -> None:
        verb, more = ("gate", self.deciding()) if self.decides else ("serve", [])
        self.office = subprocess.Popen([OFFICE, verb, str(self.file), str(self.port), "1000000", *more],
                                       stdout=subprocess.PIPE, stderr=self.log)
        STARTED.append(self.office)
        assert self.office.stdout.readline().startswith(b"listening")

    def stop_office(self) -> None:
        """Ends the program by SIGKILL: what was answered is in FILE and its log."""
        if self.office:
            self.office.kill()
            self.office.wait()
            self.office.stdout.close()
            self.office = None

    def words(self) -> list[str]:
        words = [PYTHON, "-I", GATE, "serve", "--settings", self.settings, "--office", f"127.0.0.1:{self.port}",
                 "--journal", self.journal,
                 "--state", self.state, "--token", self.folder / "token", "--socket", self.place,
                 "--catalogue", self.catalogue, "--closed", self.folder / "closed"]
        if self.decides:
            words += ["--office-token", self.folder / "office-token", "--office-reader", READER]
        return list(map(str, words))

    # ---- an office that decides too

    def decide(self, settings: str) -> None:
        """Has the office decide too, by settings of its own, from its next start on."""
        self.decides = True
        (self.folder / "office-token").write_text(OFFICE_TOKEN)
        self.office_access(settings)

    def office_access(self, settings: str, zone: str = "UTC") -> None:
        """Gives such an office other settings, which count for its next request."""
        new = self.folder / "office-access.new"
        new.write_text(SITE.format(zone=zone) + settings)
        new.rename(self.folder / "office-access")

    def deciding(self) -> list[str]:
        """Returns the operands of an office that decides: its settings, its secret, and no journal of its own."""
        return [*(str(self.folder / name) for name in ("office-access", "office-token")), "-"]

    def office_column(self, query: str) -> list[Any]:
        """Reads a copy of FILE and its log: each act that was answered is in it."""
        place = self.folder / "read.db"
        for end in ("", "-wal"):
            source, copy = pathlib.Path(f"{self.file}{end}"), pathlib.Path(f"{place}{end}")
            copy.unlink(missing_ok=True)
            if source.exists():
                shutil.copyfile(source, copy)
        with contextlib.closing(sqlite3.connect(place)) as db:
            return [row[0] for row in db.execute(query)]

    def start_gate(self) -> None:
        self.gate = subprocess.Popen(self.words(), stdout=subprocess.PIPE, stderr=self.log,
                                     env=os.environ | self.more, close_fds=self.listener is None,
                                     preexec_fn=self.as_systemd if self.listener else None)
        STARTED.append(self.gate)
        assert self.gate.stdout.readline().startswith(b"listening"), (self.folder / "log").read_text()

    def listen(self) -> None:
        """Listens in the place of systemd: a gate gets the socket at its start, and leaves it at its end."""
        self.listener = socket.socket(socket.AF_UNIX, socket.SOCK_STREAM)
        self.listener.bind(str(self.place))
        self.listener.listen(4096)

    def as_systemd(self) -> None:
        """Passes the socket on, in the process that becomes the gate."""
        os.dup2(self.listener.fileno(), 3)
        os.execve(PYTHON, self.words(), os.environ | self.more | {"LISTEN_PID": str(os.getpid()), "LISTEN_FDS": "1"})

    def stop_gate(self, number: signal.Signals = signal.SIGTERM) -> int:
        assert self.gate is not None
        self.gate.send_signal(number)
        status = self.gate.wait()
        self.gate.stdout.close()
        self.gate = None
        return status

    def start_without_facts(self, number: signal.Signals = signal.SIGTERM) -> None:
        """Starts the gate anew without the facts, which it then derives from its journal."""
        self.stop_gate(number)
        for path in self.state.glob("facts.db*"):
            path.unlink()
        self.start_gate()

    def cut_off(self, name: str, *acts: dict[str, Any]) -> None:
        """Kills the gate while the office has a list, whose line is in the journal, and starts it anew."""
        self.office.send_signal(signal.SIGSTOP)
        count = sum(line["what"] == "asked" for line in self.lines())
        client = threading.Thread(target=self.act, args=(name, *acts))
        client.start()
        while sum(line["what"] == "asked" for line in self.lines()) == count:
            time.sleep(0.02)
        # the office has the request by then
        time.sleep(0.3)
        self.stop_gate(signal.SIGKILL)
        client.join()
        self.office.send_signal(signal.SIGCONT)
        self.start_gate()

    def settle(self, settings: str, zone: str = "UTC") -> None:
        """Writes the settings of the gate, and gives them to an office that goes by the same ones."""
        if self.is_alike:
            settings += READING
            self.office_access(settings, zone)
        self.settings.write_text(SITE.format(zone=zone) + settings)

    def reload(self, settings: str, zone: str = "UTC") -> None:
        """Gives the gate other settings, and waits until they count."""
        self.settle(settings, zone)
        count = len(self.lines())
        self.gate.send_signal(signal.SIGHUP)
        if not until(lambda: any(it["what"] == "settings" for it in self.lines()[count:])):
            raise AssertionError("the settings were not taken")

    def hang_up(self) -> None:
        """Has the gate read its settings anew."""
        assert self.gate is not None
        self.gate.send_signal(signal.SIGHUP)

    def prints(self, text: str) -> bool:
        """Waits until the gate printed something."""
        return until(lambda: text in (self.folder / "log").read_text())

    def end(self) -> None:
        if self.gate:
            self.stop_gate()
        self.stop_office()
        self.log.close()

    # ---- requests

    def connected(self, data: bytes) -> socket.socket:
        """Connects, sends some bytes, and leaves it at that."""
        link = socket.socket(socket.AF_UNIX, socket.SOCK_STREAM)
        link.connect(str(self.place))
        link.sendall(data)
        return link

    def raw(self, data: bytes, half: bool = False, later: float = 0) -> bytes:
        """Sends bytes to the gate, and returns all that come back. With `half` it says that no more come, perhaps later."""
        with socket.socket(socket.AF_UNIX, socket.SOCK_STREAM) as link:
            link.settimeout(300)
            link.connect(str(self.place))
            link.sendall(data)
            if half:
                time.sleep(later)
                link.shutdown(socket.SHUT_WR)
            return rest_of(link)

    def ask(self, name: str, method: str, path: str, body: bytes | None = None,
            lines: dict[str, str] | None = None) -> tuple[int, bytes]:
        """Asks as nginx does for a name that signed in."""
        head = {**HERE, "Office-Token": TOKEN, "Office-Name": name, "Office-From": "192.0.2.7", **(lines or {})}
        if body is not None:
            head["Content-Length"] = str(len(body))
        text = "".join(f"{key}: {value}\r\n" for key, value in head.items())
        found = self.raw(f"{method} {path} HTTP/1.1\r\n{text}\r\n".encode() + (body or b""))
        return parted(found)

    def get(self, name: str, path: str) -> tuple[int, object]:
        status, body = self.ask(name, "GET", path)
        return status, said(body)

    def act(self, name: str, *acts: object, **lines: str) -> tuple[int, object]:
        """Sends acts; each has today as its day if it has none."""
        given = [{"day": today(), **it} if isinstance(it, dict) and it.get("act") != "run-step" else it for it in acts]
        more = {it.replace("_", "-"): value for it, value in lines.items()}
        status, body = self.ask(name, "POST", "/acts", json.dumps(given).encode(), more)
        return status, said(body)

    def text(self, name: str, body: str | bytes) -> tuple[int, object]:
        """Sends a body as it is written."""
        status, found = self.ask(name, "POST", "/acts", body if isinstance(body, bytes) else body.encode())
        return status, said(found)

    def direct(self, method: str, path: str, body: bytes | None = None) -> tuple[int, bytes]:
        """Asks the office past the gate."""
        it = http.client.HTTPConnection("127.0.0.1", self.port, timeout=60)
        it.request(method, path, body)
        answer = it.getresponse()
        found = answer.status, answer.read()
        it.close()
        return found

    # ---- the journal

    def lines(self) -> list[dict]:
        return [json.loads(it) for it in self.journal.read_bytes().split(b"\n") if it]

    def last(self, what: str) -> dict:
        return next(it for it in reversed(self.lines()) if it["what"] == what)

    def check(self, *more: object) -> subprocess.CompletedProcess:
        return subprocess.run([PYTHON, "-I", JOURNAL, "check", self.journal, *map(str, more)], capture_output=True,
                              text=True, check=False)


def parted(found: bytes) -> tuple[int, bytes]:
    head, _, body = found.partition(b"\r\n\r\n")
    words = head.split(b" ", 2)
    return int(words[1]) if len(words) > 1 and words[1].isdigit() else 0, body


def said(body: bytes) -> object:
    try:
        return json.loads(body)
    except ValueError:
        return body
