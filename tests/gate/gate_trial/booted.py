"""A small Debian that systemd runs, booted by systemd-nspawn, on which the commands of the pages are done as they stand."""
import pathlib
import re
import shutil
import subprocess

import small_debian
from kit.systemd import Booted
from kit.judging import judge
from gate_trial.world import OFFICE, TOP

SOURCES = "/root/office"
PARTS = ("companions", "deploy", "page")


def section(page: str, heading: str) -> str:
    """Returns what stands under a heading of a page."""
    text = (TOP / "docs" / page).read_text()
    found = re.search(rf"^## {re.escape(heading)}\n(.*?)(?=^## |\Z)", text, re.DOTALL | re.MULTILINE)
    assert found, (page, heading)
    return found[1]


def commands(page: str, heading: str) -> list[str]:
    """Lists the blocks of commands under a heading, without those that install packages, and what commands print."""
    blocks = re.findall(r"(?:^    .*\n)+", section(page, heading), re.MULTILINE)
    plain = ["".join(it[4:] for it in block.splitlines(keepends=True) if not it.startswith("    apt-get "))
             for block in blocks]
    # fail2ban is not on this machine: tests/nginx/try tries its filter
    return [it for it in plain if it and not it.startswith(("$ ", "{")) and "fail2ban" not in it]


class Machine(Booted):
    """A Debian of its own, below a folder."""

    def __init__(self, top: pathlib.Path) -> None:
        super().__init__(top)
        small_debian.unpack("gate", top)
        for it in PARTS:
            shutil.copytree(TOP / it, top / SOURCES[1:] / it, symlinks=True,
                            ignore=shutil.ignore_patterns("__pycache__"))
        (top / "usr/local/bin").mkdir(parents=True, exist_ok=True)
        shutil.copy(shutil.which(OFFICE) or OFFICE, top / "usr/local/bin/office")

    def begin(self, command: str) -> subprocess.Popen[bytes]:
        """Begins a command there, in the folder of the repository's parts."""
        words = self.boot.enter(f"set -e; cd {SOURCES}\n{command}", "PASSWORD=one for all", "MONITOR=one for all")
        return subprocess.Popen(words, stdin=subprocess.DEVNULL, stdout=subprocess.PIPE, stderr=subprocess.STDOUT)

    def run(self, command: str) -> tuple[int, str]:
        """Runs a command there; returns its status and what it printed."""
        it = self.begin(command)
        said, _ = it.communicate(timeout=900)
        return it.returncode, said.decode(errors="replace").strip()

    def done(self, command: str, what: str = "") -> str:
        """Runs a command that has to end well."""
        status, said = self.run(command)
        judge(what or command.strip().replace("\n", "; ")[:120], status == 0, (status, said[-500:]))
        return said
