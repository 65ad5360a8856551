"""A place of its own for a run of a trial: its mounts, network and processes end with it.

No port of this machine is used, and nothing of it changes. So runs go beside each other.
"""
from __future__ import annotations

import os
import pathlib
import shutil
import signal
import subprocess
import sys
import tempfile
import time
from collections.abc import Sequence

SPACE = ["unshare", "--mount", "--net", "--pid", "--fork", "--kill-child", "--mount-proc"]


def can_be_made() -> bool:
    """Whether this user may make such a place on this machine."""
    return subprocess.run([*SPACE, "true"], stdin=subprocess.DEVNULL, capture_output=True,
                          check=False).returncode == 0


def ended_by_signal(*_: object) -> None:
    """Ends this process once, however often it is asked to, so that what follows is done."""
    signal.signal(signal.SIGTERM, signal.SIG_IGN)
    sys.exit(143)


def run_in_own(script: str, operands: Sequence[str]) -> int:
    """Runs `script --inside FOLDER OPERAND ..` in a place of its own, and gives its status.

    FOLDER is new, below the folder that TRIAL_FOLDER names, else below /var/tmp. At the end it is
    gone, unless TRIAL_KEPT is set. Whatever ends this process ends all of the run.
    """
    signal.signal(signal.SIGTERM, ended_by_signal)
    place = tempfile.mkdtemp(prefix=f"{pathlib.Path(script).name}-",
                             dir=os.environ.get("TRIAL_FOLDER", "/var/tmp"))
    os.chmod(place, 0o755)
    words = ["setpriv", "--pdeathsig", "KILL", *SPACE, sys.executable, script, "--inside", place,
             *operands]
    child = None
    try:
        # in a group of its own, so that a signal to this one's group comes here alone
        child = subprocess.Popen(words, stdin=subprocess.DEVNULL, process_group=0)
        return child.wait()
    finally:
        if child is not None:
            child.kill()
            child.wait()
        remove(place)


def remove(place: str) -> None:
    """Takes the folder away once the last process there has ended, or says where it stays."""
    if os.environ.get("TRIAL_KEPT"):
        print(f"kept: {place}")
        return
    if shutil.which("chattr"):
        # a file that can only be appended to cannot be taken away
        subprocess.run(["chattr", "-R", "-f", "-a", place], check=False,
                       stderr=subprocess.DEVNULL)
    for _ in range(300):
        shutil.rmtree(place, ignore_errors=True)
        if not os.path.exists(place):
            return
        time.sleep(0.1)


def make(place: pathlib.Path, copied: Sequence[str] = (), linked: Sequence[str] = (),
         empty: Sequence[str] = (), made: Sequence[str] = ()) -> None:
    """Within such a place: lays folders of the run over those of this machine.

    Afterwards a run writes into copies of `copied`, into folders with links to what is in
    `linked`, and into empty ones at `empty` and /run. The folders `made` are there, and loopback
    is up.
    """
    for at, name in enumerate((*copied, *linked, *empty)):
        own = place / f"own-{at}"
        if name in copied:
            subprocess.run(["cp", "-a", name, own], check=True)
        elif name in linked:
            link(name, place / f"before-{at}", own)
        else:
            own.mkdir()
        subprocess.run(["mount", "--bind", own, name], check=True)
    subprocess.run(["mount", "-t", "tmpfs", "-o", "mode=755", "tmpfs", "/run"], check=True)
    for name in made:
        os.mkdir(name)
    subprocess.run(["ip", "link", "set", "lo", "up"], check=True)


def link(name: str, before: pathlib.Path, own: pathlib.Path) -> None:
    """Makes a folder with a link to each thing that is in `name`, and shows that at `before`.

    What is the office's own or nginx's is left out, so that a run finds none and writes into none.
    """
    before.mkdir()
    own.mkdir()
    subprocess.run(["mount", "--bind", name, before], check=True)
    for it in os.listdir(name):
        if it.startswith("office") or it == "nginx":
            continue
        there = os.path.realpath(os.path.join(name, it))
        within = os.path.relpath(there, name)
        (own / it).symlink_to(there if within.startswith("..") else before / within)
