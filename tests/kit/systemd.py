"""Boots a small Debian by systemd-nspawn, in control groups of its own, so that several may run beside one another."""
from __future__ import annotations

import contextlib
import os
import pathlib
import shutil
import signal
import subprocess
import tempfile
import time
from typing import Self

from skips import Skipped

# systemd in two machines with the same control groups would take the processes of one for the other's
ENTER = 'for group in $OWN_GROUPS; do echo 0 >"$group/cgroup.procs" || exit 1; done; unset OWN_GROUPS; exec "$@"'
NSPAWN = ["systemd-nspawn", "--quiet", "--register=no", "--keep-unit", "--boot", "--console=pipe"]
PATH = "PATH=/usr/local/bin:/usr/sbin:/usr/bin:/sbin:/bin"
# a machine with much else to do boots in minutes
SECONDS = 300


def hierarchies() -> list[pathlib.Path]:
    """Lists this process's own groups in the hierarchies by which systemd follows processes."""
    mounts = [line.split() for line in pathlib.Path("/proc/self/mounts").read_text().splitlines()]
    own = dict(line.split(":", 2)[1:] for line in pathlib.Path("/proc/self/cgroup").read_text().splitlines())
    unified = [pathlib.Path(place) for _, place, kind, *_ in mounts if kind == "cgroup2"]
    named = [pathlib.Path(place) for _, place, kind, options, *_ in mounts
             if kind == "cgroup" and "name=systemd" in options.split(",")]
    return [top / own.get(key, "/").strip("/") for key, places in (("", unified), ("name=systemd", named))
            for top in places[:1]]


class Boot:
    """A Debian in a folder, which systemd-nspawn boots and ends."""

    def __init__(self, top: pathlib.Path, *options: str) -> None:
        self.top, self.options, self.init = top, options, 0
        self.groups: list[pathlib.Path] = []
        self.process: subprocess.Popen[bytes] | None = None
        self.log = top.with_name(f"{top.name}.log")

    def start(self) -> None:
        """Starts it and waits until its systemd has started all units."""
        if shutil.which("systemd-nspawn") is None:
            raise Skipped("systemd-nspawn is missing here (apt-get install systemd-container)")
        try:
            self.groups = [pathlib.Path(tempfile.mkdtemp(prefix="office-trial-", dir=it)) for it in hierarchies()]
        except OSError as error:
            raise Skipped(f"no control group can be made here: {error}") from error
        words = ["sh", "-c", ENTER, "sh", *NSPAWN, *self.options, f"--directory={self.top}"]
        with open(self.log, "ab") as log:
            self.process = subprocess.Popen(words, stdin=subprocess.DEVNULL, stdout=log, stderr=log,
                                            env={**os.environ, "OWN_GROUPS": " ".join(map(str, self.groups))},
                                            start_new_session=True)
        end = time.monotonic() + SECONDS
        while not self.is_up():
            if self.process.poll() is not None:
                self.remove_groups()
                raise Skipped(f"systemd-nspawn cannot boot here: {self.log.read_text(errors='replace')[-300:].strip()}")
            if time.monotonic() > end:
                self.stop()
                raise SystemExit(f"a small Debian did not boot within {SECONDS} seconds: {self.log}")
            time.sleep(0.2)

    def is_up(self) -> bool:
        """Whether its systemd has started all units."""
        assert self.process is not None
        with contextlib.suppress(OSError):
            children = pathlib.Path(f"/proc/{self.process.pid}/task/{self.process.pid}/children").read_text().split()
            self.init = int(children[0]) if children else 0
        if not self.init:
            return False
        done = subprocess.run(self.enter("systemctl is-system-running"), stdin=subprocess.DEVNULL,
                              stdout=subprocess.PIPE, stderr=subprocess.DEVNULL, check=False)
        return done.stdout in (b"running\n", b"degraded\n")

    def enter(self, command: str, *environment: str) -> list[str]:
        """Returns the arguments that run a command of bash within it, as root."""
        root = f"/proc/{self.init}/root"
        return ["nsenter", "-t", str(self.init), "-m", "-u", "-i", "-n", "-p", f"-r{root}", f"-w{root}",
                "env", "-i", PATH, "HOME=/root", "LC_ALL=C", *environment, "/bin/bash", "-c", command]

    def lose(self) -> None:
        """Ends all its processes at one moment, as a loss of power does."""
        assert self.process is not None
        os.kill(self.init, signal.SIGKILL)
        self.process.wait()
        self.remove_groups()

    def stop(self, seconds: float = 120) -> None:
        """Shuts it down, if it runs."""
        if self.process is not None and self.process.poll() is None:
            self.process.terminate()
            try:
                self.process.wait(timeout=seconds)
            except subprocess.TimeoutExpired:
                self.process.kill()
                self.process.wait()
        self.remove_groups()

    def remove_groups(self) -> None:
        """Removes its control groups, which the kernel holds for a moment after its last process has ended."""
        for _ in range(50):
            for group in self.groups:
                for place, _, _ in os.walk(group, topdown=False):
                    with contextlib.suppress(OSError):
                        os.rmdir(place)
            self.groups = [it for it in self.groups if it.exists()]
            if not self.groups:
                break
            time.sleep(0.1)
        self.groups = []


class Booted:
    """A Debian in a folder, with a network of its own, which runs until the end of a `with`."""

    def __init__(self, top: pathlib.Path) -> None:
        self.top, self.boot = top, Boot(top, "--private-network")

    def __enter__(self) -> Self:
        self.boot.start()
        return self

    def __exit__(self, *_: object) -> None:
        self.boot.stop()
