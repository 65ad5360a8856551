"""Interrupts .ci/preview at the moment at which it has started `rt`, and prints whether that ended: interrupted.py CLONE WORDS."""
import importlib.machinery
import importlib.util
import os
import pathlib
import signal
import subprocess
import sys
import time
from typing import Any

sys.dont_write_bytecode = True
CLONE, WORDS = map(pathlib.Path, sys.argv[1:])
sys.path.insert(0, str(CLONE / ".ci"))
loader = importlib.machinery.SourceFileLoader("preview", str(CLONE / ".ci/preview"))
preview: Any = importlib.util.module_from_spec(importlib.machinery.ModuleSpec("preview", loader))
loader.exec_module(preview)
started: list[int] = []


class Interrupted(subprocess.Popen[bytes]):
    """A process; the signal comes before whoever starts `rt` knows of it."""

    def __init__(self, command: list[str], **how: Any) -> None:
        super().__init__(command, **how)
        if command[0] == "rt":
            while not WORDS.exists():
                time.sleep(0.02)
            started.append(self.pid)
            os.kill(os.getpid(), signal.SIGINT)
            # the handler of Python runs in one of these steps, if it runs now
            time.sleep(0.1)


def is_running(process: int) -> bool:
    """Whether a process is there, and is not one that has ended."""
    stat = pathlib.Path(f"/proc/{process}/stat")
    return stat.exists() and stat.read_text().rpartition(")")[2].split()[0] != "Z"


preview.subprocess.Popen = Interrupted
status = preview.main(["office"])
print(status, *("rt runs" if is_running(it) else "rt has ended" for it in started))
