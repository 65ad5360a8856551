"""A folder with what the pages name, and the environment in which their commands run."""
import os
import pathlib
import shutil
import subprocess
from typing import NamedTuple

from pages.commands import TOP

PROGRAM = pathlib.Path(os.environ.get("OFFICE", TOP / "crates/office/out/office")).resolve()
SECONDS = 300
# what the commands of the pages name
FOLDERS = ("companions", "deploy", "examples", "page")


class Done(NamedTuple):
    """How a command ended, and what it wrote."""

    status: int
    out: str
    err: str


def launcher(folder: pathlib.Path) -> None:
    """Puts the launcher into a folder, over the program that is tried. Its sources there are one file alone."""
    shutil.copy(TOP / "office", folder / "office")
    shutil.copy(TOP / "crates.txt", folder / "crates.txt")
    out = folder / "crates/office/out"
    out.mkdir(parents=True)
    shutil.copy(PROGRAM, out / "office")
    sums = subprocess.run(["cksum", "crates.txt"], cwd=folder, check=True, stdout=subprocess.PIPE)
    (out / "launcher.sources").write_bytes(sums.stdout)


class Shell:
    """Runs commands in a new folder. Used by `with`, what it started and still serves is ended at the end."""

    def __init__(self, folder: pathlib.Path) -> None:
        self.folder = folder
        folder.mkdir()
        for name in FOLDERS:
            shutil.copytree(TOP / name, folder / name)
        launcher(folder)
        for name in ("copies", "second", "DIR"):
            (folder / name).mkdir()
        # the commands that users run are on the PATH of a machine
        commands = [str(folder / "companions" / name) for name in ("sheets", "transfer")]
        self.env = {**os.environ, "PATH": ":".join([*commands, os.environ["PATH"]]), "http": "http://127.0.0.1:8080",
                    "PASSWORD": "a long one", "MONITOR": "another long one", "LC_ALL": "C"}
        self.servers: list[subprocess.Popen[bytes]] = []
        # what is taken off the mode of a new file; -1: as this script's
        self.umask = -1
        self.seconds = SECONDS

    def __enter__(self) -> "Shell":
        return self

    def __exit__(self, *_: object) -> None:
        while self.servers:
            self.end(kill=True)

    def run(self, command: str) -> Done:
        done = subprocess.run(["bash", "-c", command], cwd=self.folder, env=self.env, stdin=subprocess.DEVNULL,
                              stdout=subprocess.PIPE, stderr=subprocess.PIPE, timeout=self.seconds, umask=self.umask)
        return Done(done.returncode, done.stdout.decode(errors="replace"), done.stderr.decode(errors="replace"))

    def serve(self, command: str) -> str:
        """Starts a command that serves, and waits for its line."""
        server = subprocess.Popen(["bash", "-c", f"exec {command.removesuffix('&')}"], cwd=self.folder, env=self.env,
                                  stdin=subprocess.DEVNULL, stdout=subprocess.PIPE)
        self.servers.append(server)
        return server.stdout.readline().decode()

    def end(self, kill: bool = False) -> int:
        """Ends the last server, or waits until it has ended by itself."""
        server = self.servers.pop()
        if kill:
            server.kill()
        return server.wait(timeout=SECONDS)

    def path(self, name: str) -> pathlib.Path:
        return self.folder / name
