"""Machines of a trial: on each an etcd and a member, on loopback or in a network of its own."""
from __future__ import annotations

import http.client
import json
import os
import pathlib
import re
import shutil
import signal
import subprocess
import sys
import time
from typing import Any, NamedTuple

from replicas.networks import socket_in

TOP = pathlib.Path(__file__).resolve().parent.parent.parent
OFFICE = str(pathlib.Path(os.environ.get("OFFICE", TOP / "crates/office/out/office")).resolve())
REPLICAS = pathlib.Path(os.environ.get("REPLICAS", TOP / "companions/members")).resolve()
"""the program of a member"""
LONGEST_WAIT = float(os.environ.get("TRIAL_PATIENCE", "900"))
FAULTS = (OSError, http.client.HTTPException, ValueError)


class Reply(NamedTuple):
    """An answer over HTTP, whole."""

    status: int
    lines: dict[str, str]
    body: bytes

    @property
    def position(self) -> int:
        return int(self.lines.get("office-position", -1))


class Place(NamedTuple):
    """Where a port is: of loopback, or of a network's loopback."""

    port: int
    network: str | None = None


def ask(place: Place, method: str, path: str, body: bytes | None = None,
        lines: dict[str, str] | None = None, timeout: float = 40) -> Reply:
    """One request and its answer. OSError or HTTPException where there is none, or a part."""
    head = f"{method} {path} HTTP/1.1\r\nHost: trial\r\n"
    head += "".join(f"{name}: {value}\r\n" for name, value in (lines or {}).items())
    if body is not None and "Content-Length" not in (lines or {}):
        head += f"Content-Length: {len(body)}\r\n"
    with socket_in(place.network) as link:
        link.settimeout(timeout)
        link.connect(("127.0.0.1", place.port))
        link.sendall(head.encode("latin-1") + b"\r\n" + (body or b""))
        raw = b"".join(iter(lambda: link.recv(65536), b""))
    head_bytes, end, told = raw.partition(b"\r\n\r\n")
    if not end:
        raise http.client.HTTPException("no whole head")
    parts = [line.partition(b":") for line in head_bytes.split(b"\r\n")]
    found = {name.strip().lower().decode(): value.strip().decode() for name, _, value in parts[1:]}
    if method != "HEAD" and int(found["content-length"]) != len(told):
        raise http.client.HTTPException("no whole body")
    return Reply(int(head_bytes.split()[1]), found, told)


class Cluster:
    """Machines 0, 1, .. with the folders FOLDER/mN and ports from `base` on."""

    def __init__(self, folder: pathlib.Path, base: int, count: int = 3,
                 networks: list[str] | None = None, **settings: Any) -> None:
        self.folder, self.base, self.count = folder, base, count
        self.networks, self.settings = networks, settings
        self.office, self.quota = OFFICE, 4 * 1024**3
        self.tls: pathlib.Path | None = None
        self.units: dict[str, pathlib.Path] = {}
        """of `etcd` and `member`: the unit whose system calls it may use"""
        self.environment: dict[str, str] = {}
        """what the environment of all parts has besides, or otherwise"""
        self.processes: dict[str, subprocess.Popen[bytes]] = {}
        shutil.rmtree(folder, ignore_errors=True)
        folder.mkdir(parents=True)

    # ---- places

    def network(self, machine: int) -> str | None:
        return self.networks[machine] if self.networks and machine < len(self.networks) else None

    def port(self, machine: int, which: str) -> int:
        return self.base + 10 * machine + ["client", "peer", "listen", "office"].index(which)

    def place(self, machine: int) -> Place:
        """Where the member takes clients."""
        return Place(self.port(machine, "listen"), self.network(machine))

    def peer_address(self, machine: int) -> str:
        host = "127.0.0.1" if self.networks is None else f"10.77.0.{machine + 1}"
        return f"{self.scheme()}://{host}:{self.port(machine, 'peer')}"

    def etcd_address(self, machine: int) -> str:
        return f"{self.scheme()}://127.0.0.1:{self.port(machine, 'client')}"

    def scheme(self) -> str:
        return "https" if self.tls else "http"

    def home(self, machine: int) -> pathlib.Path:
        return self.folder / f"m{machine}"

    def file(self, machine: int) -> pathlib.Path:
        return self.home(machine) / "work" / "office.db"

    def snapshots(self, machine: int) -> list[pathlib.Path]:
        """The snapshots of a member, the newest last."""
        found = (self.home(machine) / "snapshots").iterdir()
        return sorted(it for it in found if it.name.isdigit())

    def journal(self, name: str) -> str:
        """What a process printed."""
        path = self.folder / f"{name}.log"
        return path.read_text(errors="replace") if path.exists() else ""

    # ---- processes

    def start(self, name: str, machine: int, words: list[str]) -> None:
        network = self.network(machine)
        prefix = [] if network is None else ["nsenter", f"--net=/run/netns/{network}", "--"]
        unit = self.units.get(name.rstrip("0123456789"))
        if unit is not None:
            prefix += [sys.executable, str(TOP / "tests/unit_filter.py"), str(unit)]
        with open(self.folder / f"{name}.log", "ab") as log:
            self.processes[name] = subprocess.Popen(
                [*prefix, *words], stdin=subprocess.DEVNULL, stdout=log, stderr=subprocess.STDOUT,
                start_new_session=True, env={**os.environ, **self.environment})
        if "TRIAL_NICE" in os.environ:
            # beside the work of others: each process has a scheduling group of its own
            path = pathlib.Path(f"/proc/{self.processes[name].pid}/autogroup")
            path.write_text(os.environ["TRIAL_NICE"])

    def start_etcd(self, machine: int) -> None:
        peers = ",".join(f"e{it}={self.peer_address(it)}" for it in range(self.count))
        words = ["etcd", "--name", f"e{machine}", "--data-dir", str(self.folder / f"etcd{machine}"),
                 "--listen-client-urls", self.etcd_address(machine),
                 "--advertise-client-urls", self.etcd_address(machine),
                 "--listen-peer-urls", self.peer_address(machine),
                 "--initial-advertise-peer-urls", self.peer_address(machine),
                 "--initial-cluster", peers, "--initial-cluster-token", self.folder.name,
                 "--auto-compaction-mode", "periodic", "--auto-compaction-retention", "24h",
                 "--quota-backend-bytes", str(self.quota), "--backend-batch-interval", "1s",
                 "--log-level", "warn", "--logger", "zap"]
        for prefix in ("", "peer-") if self.tls else ():
            words += [f"--{prefix}cert-file", f"{self.tls}/m{machine}.crt",
                      f"--{prefix}key-file", f"{self.tls}/m{machine}.key",
                      f"--{prefix}trusted-ca-file", f"{self.tls}/ca.crt",
                      f"--{prefix or 'client-'}crl-file", f"{self.tls}/ca.crl",
                      f"--{prefix}client-cert-auth"]
        self.start(f"etcd{machine}", machine, words)

    def write_settings(self, machine: int, etcd: int | None = None, **more: Any) -> pathlib.Path:
        """The settings of a member; `etcd` is the machine whose etcd it uses, if not its own."""
        home = self.home(machine)
        home.mkdir(exist_ok=True)
        uses = machine if etcd is None else etcd
        told = {"name": f"m{machine}", "log": "city", "folder": str(home), "office": self.office,
                "office_port": self.port(machine, "office"),
                "listen": self.port(machine, "listen"),
                "etcd": f"127.0.0.1:{self.port(uses, 'client')}",
                "snapshot_every": 150, "snapshot_pause": 0, "snapshot_at": 50 * machine, "compare_every": 20}
        if self.tls:
            told.update(ca=f"{self.tls}/ca.crt", certificate=f"{self.tls}/m{uses}.crt",
                        key=f"{self.tls}/m{uses}.key")
        path = home / "settings.json"
        path.write_text(json.dumps({**told, **self.settings, **more}))
        return path

    def start_member(self, machine: int) -> None:
        self.start(f"member{machine}", machine,
                   [sys.executable, str(REPLICAS / "member"),
                    str(self.home(machine) / "settings.json")])

    def found(self, file: pathlib.Path | None = None) -> None:
        """Begins the log at machine 0, and copies its snapshots to the others."""
        words = [sys.executable, str(REPLICAS / "found"),
                 str(self.home(0) / "settings.json"), *([str(file)] if file else [])]
        network = self.network(0)
        prefix = [] if network is None else ["nsenter", f"--net=/run/netns/{network}", "--"]
        done = None
        for _ in range(100):
            done = subprocess.run([*prefix, *words], capture_output=True, text=True, check=False)
            if done.returncode == 0:
                break
            shutil.rmtree(self.home(0) / "snapshots", ignore_errors=True)
            time.sleep(0.3)
        else:
            raise SystemExit(f"not founded: {done}")
        for machine in range(1, self.count):
            shutil.copytree(self.home(0) / "snapshots", self.home(machine) / "snapshots")

    def start_all(self, file: pathlib.Path | None = None) -> None:
        """Afterwards all members answer."""
        for machine in range(self.count):
            self.write_settings(machine)
            self.start_etcd(machine)
        self.found(file)
        for machine in range(self.count):
            self.start_member(machine)
        for machine in range(self.count):
            self.wait_for(machine)

    def kill(self, *names: str, how: int = signal.SIGKILL) -> list[int]:
        """Sends a signal to processes at once, and waits for their ends; gives their statuses."""
        ended = [self.processes.pop(name) for name in names]
        for process in ended:
            process.send_signal(how)
        return [process.wait(60) for process in ended]

    def signal(self, name: str, what: int) -> None:
        self.processes[name].send_signal(what)

    def make_snapshot(self, machine: int) -> None:
        """SIGHUP, and then the snapshot at the member's position, or none within two minutes."""
        place = self.home(machine) / "snapshots" / f"{self.position(machine):016d}"
        self.signal(f"member{machine}", signal.SIGHUP)
        began = time.monotonic()
        while not place.is_dir() and time.monotonic() - began < 120:
            time.sleep(0.05)

    def office_process(self, machine: int) -> int | None:
        """The office that is the child of a member."""
        process = self.processes.get(f"member{machine}")
        if process is None:
            return None
        try:
            children = pathlib.Path(f"/proc/{process.pid}/task/{process.pid}/children").read_text()
            for child in children.split():
                words = pathlib.Path(f"/proc/{child}/cmdline").read_bytes().split(b"\0")
                if b"serve" in words and not any(it.endswith(b"child.py") for it in words):
                    return int(child)
        except OSError:
            pass
        return None

    def stop_all(self) -> None:
        for kind in ("member", "etcd"):
            for name in [it for it in self.processes if it.startswith(kind)]:
                self.signal(name, signal.SIGCONT)
                self.signal(name, signal.SIGTERM)
            for name in [it for it in self.processes if it.startswith(kind)]:
                process = self.processes.pop(name)
                try:
                    process.wait(20)
                except subprocess.TimeoutExpired:
                    process.kill()
                    process.wait()

    # ---- what they say

    def state(self, machine: int) -> dict[str, Any] | None:
        """What /replica tells, or None."""
        try:
            reply = ask(self.place(machine), "GET", "/replica", timeout=5)
            told: dict[str, Any] = json.loads(reply.body)
            return told
        except FAULTS:
            return None

    def metrics(self, machine: int) -> dict[str, int]:
        """What /metrics tells, whole numbers alone."""
        try:
            told = ask(self.place(machine), "GET", "/metrics", timeout=5).body.decode()
        except FAULTS:
            return {}
        return {name: int(value) for name, value in re.findall(r"^(\w+)\{[^}]*\} (\d+)$", told, re.M)}

    def position(self, machine: int) -> int:
        told = self.state(machine)
        return -1 if told is None else int(told["position"])

    def wait_for(self, machine: int, position: int = 0, seconds: float = LONGEST_WAIT) -> float:
        """The seconds until a member answers and is at a position. An end where it does not."""
        began = time.monotonic()
        while time.monotonic() - began < seconds:
            told = self.state(machine)
            if told is not None and told["answers"] and told["position"] >= position:
                return time.monotonic() - began
            time.sleep(0.02)
        raise SystemExit(f"member {machine} does not answer: {self.state(machine)}\n"
                         + self.journal(f"member{machine}")[-1500:])

    def etcdctl(self, machine: int, *words: str) -> subprocess.CompletedProcess[str]:
        network = self.network(machine)
        prefix = [] if network is None else ["nsenter", f"--net=/run/netns/{network}", "--"]
        secure = []
        if self.tls:
            secure = ["--cacert", f"{self.tls}/ca.crt", "--cert", f"{self.tls}/m{machine}.crt",
                      "--key", f"{self.tls}/m{machine}.key"]
        return subprocess.run(
            [*prefix, "etcdctl", "--endpoints", self.etcd_address(machine), *secure, *words],
            env={**os.environ, "ETCDCTL_API": "3"}, capture_output=True, text=True, check=False)

    def leader(self) -> int | None:
        """The machine whose etcd leads."""
        for machine in range(self.count):
            if f"etcd{machine}" in self.processes:
                done = self.etcdctl(machine, "endpoint", "status", "-w", "json")
                try:
                    told = json.loads(done.stdout)[0]["Status"]
                    if told["leader"] == told["header"]["member_id"]:
                        return machine
                except (ValueError, KeyError, IndexError):
                    pass
        return None
