"""A small Debian in a folder, and commands that run there."""
import os
import pathlib
import shutil
import subprocess
from typing import NamedTuple

import small_debian

# processes, network and mounts of its own
SPACE = ["unshare", "--mount", "--net", "--pid", "--fork", "--kill-child", "--mount-proc"]
# a busy machine packs a program in minutes
SECONDS = 1200


class Done(NamedTuple):
    """How a command ended, and what it wrote."""

    status: int
    out: str
    err: str


def run(words: list[object], **env: str) -> Done:
    done = subprocess.run([str(it) for it in words], stdin=subprocess.DEVNULL, stdout=subprocess.PIPE,
                          stderr=subprocess.PIPE, timeout=SECONDS, env={**os.environ, "LC_ALL": "C", **env})
    return Done(done.returncode, done.stdout.decode(errors="replace"), done.stderr.decode(errors="replace"))


class Machine:
    """A Debian of its own, below a folder."""

    def __init__(self, top: pathlib.Path) -> None:
        self.top = top
        small_debian.unpack("package", top)

    def run(self, command: str) -> Done:
        """Runs a command of bash there as root, as if the machine had nothing but loopback."""
        env = "/usr/bin/env -i PATH=/usr/sbin:/usr/bin:/sbin:/bin HOME=/root LC_ALL=C DEBIAN_FRONTEND=noninteractive"
        outside = f'ip link set lo up; exec chroot "{self.top}" {env} /bin/bash -c "$1"'
        return run([*SPACE, "bash", "-c", outside, "-", f"mount -t proc proc /proc; {command}"])

    def put(self, file: pathlib.Path, to: str) -> None:
        (self.top / to.strip("/")).parent.mkdir(parents=True, exist_ok=True)
        shutil.copy(file, self.top / to.strip("/"))

    def path(self, name: str) -> pathlib.Path:
        return self.top / name.strip("/")
