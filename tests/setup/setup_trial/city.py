"""A fresh Debian that systemd runs, with the package beside it: commands there, and requests to the site as a client."""
from __future__ import annotations

import json
import os
import pathlib
import re
import shutil
import subprocess

import small_debian
from kit.commands import TOP, Done, run
from kit.judging import same
from kit.systemd import Boot
from setup_trial.first import PASSWORD

PROGRAM = pathlib.Path(os.environ.get("OFFICE", TOP / "crates/office/out/office")).resolve()
MAKE = TOP / "deploy/packaging/make"
NOTHING = "0 differences\n"
SITE = "records.city.example"
"""the name of the machine in docs/SETUP.md"""
CURL = f"curl --silent --max-time 120 --cacert /etc/nginx/office/office.crt --header 'Origin: https://{SITE}'"
OWN_FILES = {"etc/hosts": f"127.0.0.1 localhost {SITE}\n", "etc/apt/apt.conf.d/90yes": 'APT::Get::Assume-Yes "true";\n'}
"""what the trial lays out: the name is this machine's, and somebody answers yes"""


def package(place: pathlib.Path, version: str | None = None) -> pathlib.Path:
    """Makes the package in a folder, as it is or with a later version."""
    done = run(MAKE, PROGRAM, "package", place)
    assert done.status == 0, done
    file = pathlib.Path(done.out.strip())
    if version is None:
        return file
    top = place / "changed"
    run("dpkg-deb", "--raw-extract", file, top)
    control = top / "DEBIAN/control"
    control.write_text(re.sub("^Version: .*$", f"Version: {version}", control.read_text(), flags=re.M))
    for name in ("http.conf", "gated.conf"):
        path = top / "usr/share/office/nginx" / name
        path.write_text(path.read_text() + f"# of {version}\n")
    later = place / "later.deb"
    done = run("dpkg-deb", "--root-owner-group", "-Zxz", "-z0", "--build", top, later)
    assert done.status == 0, done
    shutil.rmtree(top)
    return later


class City:
    """The machine with the office, which runs from `start` to `end`."""

    def __init__(self, top: pathlib.Path) -> None:
        small_debian.unpack("setup", top)
        self.top, self.passwords = top, {"": ""}
        self.boot = Boot(top, "--private-network")

    def start(self) -> None:
        self.boot = Boot(self.top, "--private-network")
        self.boot.start()

    def end(self) -> None:
        """Shuts it down; its logs can be removed then."""
        self.run("chattr -a /var/log/office/*")
        self.boot.stop()

    def run(self, command: str) -> Done:
        """Runs a command of bash there, in the folder of root, and notes the passwords that it shows."""
        arguments = self.boot.enter(f"cd /root; {command}", "DEBIAN_FRONTEND=noninteractive")
        done = subprocess.run(arguments, stdin=subprocess.DEVNULL, stdout=subprocess.PIPE, stderr=subprocess.PIPE, check=False,
                              timeout=900)
        out = done.stdout.decode(errors="replace")
        self.passwords.update(PASSWORD.findall(out))
        return Done(done.returncode, out, done.stderr.decode(errors="replace"))

    def text(self, path: str) -> str:
        """Reads a file of the machine; one that is not there is empty."""
        file = self.top / path.lstrip("/")
        return file.read_text(encoding="utf-8") if file.exists() else ""

    def put(self, path: str, text: str, mode: int = 0o644) -> None:
        """Lays out a file."""
        (self.top / path).write_text(text, encoding="utf-8")
        (self.top / path).chmod(mode)

    def ask(self, name: str, path: str, body: object = None) -> str:
        """Asks the site as a name, and returns the body and the status. An empty text is sent as a body without bytes."""
        login = f"--user {name}:{self.passwords[name]}" if name else ""
        data = "" if body is None else f"--data-binary '{body and json.dumps(body)}'"
        return self.run(f"{CURL} {login} {data} --write-out ' %{{http_code}}' https://{SITE}{path}").out

    def judge_same(self, name: str) -> None:
        """Nothing differs from the files, and no unit of an office failed."""
        done = self.run("office-setup check; systemctl --failed --no-legend --plain list-units 'office*'")
        same(f"{name}: nothing differs, and nothing failed", done.out, NOTHING)


def booted(place: pathlib.Path) -> City:
    """Boots a machine that has two versions of the package lying there, or says why none can be booted here."""
    city = City(place / "machine")
    shutil.copy(package(place), city.top / "root")
    shutil.copy(package(place, "1000.0.0"), city.top / "root/later.deb")
    for path, text in OWN_FILES.items():
        city.put(path, text)
    city.start()
    return city
