"""Three machines of an office as processes of this one, for docs/REPLICAS.md: archive1 by the files of the page."""
import json
import os
import re
import signal
import subprocess
import time
import uuid
from collections.abc import Callable
from typing import NamedTuple

from pages.commands import TOP
from pages.shell import Shell

WAIT = 240
CONF, SETTINGS = "/etc/office/etcd.conf", "/etc/office/city.json"


class Told(NamedTuple):
    status: int
    body: bytes


def prefix(number: int) -> list[str]:
    """What a command begins with on that machine: archive1 is here, the others have networks of their own."""
    return [] if number == 1 else ["nsenter", f"--net=/run/netns/archive{number}", "--"]


def wait_until(holds: Callable[[], bool]) -> bool:
    """Whether it holds within some minutes."""
    began = time.monotonic()
    while time.monotonic() - began < WAIT:
        if holds():
            return True
        time.sleep(0.2)
    return False


def asked(number: int, path: str, body: bytes | None = None) -> Told:
    """What the member of a machine answers, at whatever age; status 0 where it does not."""
    words = ["curl", "--silent", "--max-time", "60", "--write-out", "\n%{http_code}", "--header", "Office-Read: any",
             f"http://127.0.0.1:8181{path}"]
    if body is not None:
        words += ["--header", f"Idempotency-Key: {uuid.uuid4().hex}", "--data-binary", "@-"]
    done = subprocess.run([*prefix(number), *words], input=body or b"", stdout=subprocess.PIPE, check=False)
    told, _, status = done.stdout.rpartition(b"\n")
    return Told(int(status), told)


def act(number: int, body: bytes) -> Told:
    return asked(number, "/acts", body)


def run(words: str) -> None:
    subprocess.run(words.split(), check=True)


class Machines:
    """What runs on archive1, archive2 and archive3."""

    def __init__(self) -> None:
        self.running: dict[str, subprocess.Popen[bytes]] = {}
        self.shell: Shell | None = None

    def begin(self, shell: Shell) -> None:
        """The machines at their addresses, and what systemd makes for the unit of etcd."""
        self.shell = shell
        run("ip link add offices type bridge")
        run("ip addr add 192.0.2.11/24 dev offices")
        run("ip link set offices up")
        for number in (2, 3):
            name = f"archive{number}"
            run(f"ip netns add {name}")
            run(f"ip link add {name} type veth peer name eth0 netns {name}")
            run(f"ip link set {name} master offices up")
            run(f"ip -n {name} addr add 192.0.2.1{number}/24 dev eth0")
            run(f"ip -n {name} link set eth0 up")
            run(f"ip -n {name} link set lo up")
        shell.run("install -d -o office-etcd -g office-etcd -m 700 /var/lib/office-etcd")

    def start(self, name: str, number: int, words: list[str], env: dict[str, str]) -> None:
        with open(self.shell.path(f"{name}.log"), "ab") as log:
            self.running[name] = subprocess.Popen([*prefix(number), *words], stdin=subprocess.DEVNULL, stdout=log,
                                                  stderr=log, env=env, cwd=self.shell.folder, start_new_session=True)

    def etcd_env(self, number: int, state: str | None) -> dict[str, str]:
        """The variables of the page's file; of another machine with its name, address and files."""
        lines = open(CONF).read().splitlines()
        env = dict(line.split("=", 1) for line in lines if re.match("ETCD_", line))
        if number != 1:
            files = str(self.shell.path("certificates"))
            for name, value in env.items():
                value = value.replace("/etc/office/etcd/machine", f"{files}/archive{number}")
                value = value.replace("/etc/office/etcd", files)
                if name not in ("ETCD_INITIAL_CLUSTER", "ETCD_FORCE_NEW_CLUSTER"):
                    value = value.replace("192.0.2.11", f"192.0.2.1{number}").replace("archive1", f"archive{number}")
                env[name] = value
            env.update(ETCD_NAME=f"archive{number}", ETCD_DATA_DIR=str(self.shell.path(f"etcd{number}")))
        if state is not None:
            env["ETCD_INITIAL_CLUSTER_STATE"] = state
        return {"PATH": os.environ["PATH"], **env}

    def start_etcd(self, number: int, state: str | None = None) -> None:
        user = ["setpriv", "--reuid", "office-etcd", "--regid", "office-etcd", "--init-groups"] if number == 1 else []
        self.start(f"etcd{number}", number, [*user, "/usr/bin/etcd"], self.etcd_env(number, state))

    def start_member(self, number: int) -> None:
        """The member of archive1 as its unit calls it; another one with settings of its own."""
        path = SETTINGS
        user: list[str] = []
        if number == 1:
            unit = (TOP / "companions/members/units/office-member@.service").read_text()
            words = re.search("^ExecStart=(.*)$", unit, re.M)[1].replace("%i", "city").split()
            user = ["setpriv", "--reuid", "office", "--regid", "office", "--init-groups"]
        else:
            settings = json.loads(open(SETTINGS).read())
            files = str(self.shell.path("certificates"))
            settings.update(name=f"archive{number}", ca=f"{files}/ca.crt",
                            folder=str(self.shell.path("second" if number == 2 else "third")),
                            certificate=f"{files}/archive{number}.crt", key=f"{files}/archive{number}.key")
            path = str(self.shell.path(f"archive{number}.json"))
            with open(path, "w") as file:
                json.dump(settings, file)
            words = ["/usr/local/lib/office-replicas/member", path]
        self.start(f"member{number}", number, [*user, *words], dict(os.environ))

    def answers(self, number: int) -> bool:
        """Whether its member answers clients within some minutes."""
        return wait_until(lambda: b'"answers":true' in asked(number, "/replica").body)

    def get(self, number: int, path: str) -> int:
        return asked(number, path).status

    def is_healthy(self, number: int) -> bool:
        name = "machine" if number == 1 else f"archive{number}"
        files = "/etc/office/etcd" if number == 1 else "certificates"
        return self.shell.run(
            f"ETCDCTL_API=3 {' '.join(prefix(number))} etcdctl --endpoints https://127.0.0.1:2379 "
            f"--cacert {files}/ca.crt --cert {files}/{name}.crt --key {files}/{name}.key endpoint health").status == 0

    def stop_member(self, number: int) -> None:
        """Its member ends as systemd ends it."""
        process = self.running.pop(f"member{number}")
        process.send_signal(signal.SIGTERM)
        process.wait(WAIT)

    def signal(self, number: int, what: int) -> None:
        self.running[f"member{number}"].send_signal(what)

    def kill(self, number: int) -> None:
        """Etcd and member of a machine, at once."""
        for name in (f"member{number}", f"etcd{number}"):
            process = self.running.pop(name, None)
            if process is not None:
                process.send_signal(signal.SIGKILL)
                process.wait()

    def end(self) -> None:
        for number in (1, 2, 3):
            self.kill(number)
