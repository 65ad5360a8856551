"""The machine that is set up: its files below a root, its users by number, and the commands that it runs."""
import os
import shutil
import stat
import subprocess
from dataclasses import dataclass
from pathlib import Path
from typing import NamedTuple

from office_common.errors import IMPOSSIBLE, USAGE, Refused

OFFICES = "/etc/office"
NGINX = "/etc/nginx/office"
SHARES = ("/usr/share/office", "/usr/local/share/office")
"""where the product's files are: with the package, and without it"""


class Owner(NamedTuple):
    """A user, a group and a mode of a file."""

    user: str
    group: str
    mode: int

    def __str__(self) -> str:
        return f"{self.user}:{self.group} {self.mode:04o}"


class Ended(NamedTuple):
    """An exit status of a command, and what it wrote."""

    status: int
    text: str


ROOT_OWNED = Owner("root", "root", 0o644)


@dataclass(frozen=True)
class Machine:
    """A machine: this one, or for a trial one whose files are below a folder."""

    root: Path

    @property
    def is_real(self) -> bool:
        return self.root == Path("/")

    def at(self, path: str | Path) -> Path:
        """Returns where a path of the machine is."""
        return self.root / str(path).lstrip("/")

    def share(self) -> str:
        """Returns the folder of the product's files, as a path of the machine."""
        for folder in SHARES:
            if self.at(folder).joinpath("nginx").is_dir():
                return folder
        raise Refused(USAGE, f"there is no {SHARES[0]}/nginx: install the package office")

    def shipped(self, name: str) -> str:
        """Reads a file of the product."""
        return self.at(f"{self.share()}/{name}").read_text(encoding="utf-8")

    # ---- users

    def entries(self, file: str) -> list[list[str]]:
        lines = self.at(file).read_text(encoding="utf-8").splitlines()
        return [line.split(":") for line in lines if line.count(":") >= 2]

    def number(self, file: str, name: str) -> int:
        for entry in self.entries(file):
            if entry[0] == name:
                return int(entry[2])
        raise Refused(USAGE, f"there is no {name} in {file}: install the package office, and nginx")

    def ids(self, owner: Owner) -> tuple[int, int]:
        """Returns the numbers of a user and a group."""
        return self.number("/etc/passwd", owner.user), self.number("/etc/group", owner.group)

    def name_of(self, file: str, number: int) -> str:
        return next((entry[0] for entry in self.entries(file) if entry[2] == str(number)), str(number))

    def owner_of(self, path: str) -> Owner:
        """Returns whose a file is, and its mode."""
        state = self.at(path).lstat()
        return Owner(self.name_of("/etc/passwd", state.st_uid), self.name_of("/etc/group", state.st_gid),
                     stat.S_IMODE(state.st_mode))

    def own(self, path: str, owner: Owner) -> None:
        """Gives a file or a folder its owner and its mode."""
        os.chown(self.at(path), *self.ids(owner), follow_symlinks=False)
        self.at(path).chmod(owner.mode)

    # ---- commands

    def run(self, *arguments: str | Path, text: str = "") -> Ended:
        """Runs a command that reads a text, and returns how it ended."""
        try:
            done = subprocess.run([str(each) for each in arguments], input=text, stdout=subprocess.PIPE,
                                  stderr=subprocess.STDOUT, encoding="utf-8", errors="replace", check=False,
                                  env={**os.environ, "LC_ALL": "C"})
        except FileNotFoundError:
            return Ended(127, f"there is no {arguments[0]}")
        return Ended(done.returncode, done.stdout.strip())

    def must(self, *arguments: str | Path, text: str = "") -> str:
        """Runs a command that has to succeed, and returns what it wrote."""
        done = self.run(*arguments, text=text)
        if done.status:
            raise Refused(IMPOSSIBLE, f"{' '.join(str(each) for each in arguments)}: {done.text}")
        return done.text

    def must_as(self, user: str, *arguments: str | Path) -> str:
        """Runs a command as a user of the machine, whose group has the same name."""
        uid, gid = self.ids(Owner(user, user, 0))
        return self.must("setpriv", f"--reuid={uid}", f"--regid={gid}", "--clear-groups", "--", *arguments)

    def has_command(self, name: str) -> bool:
        return shutil.which(name) is not None
