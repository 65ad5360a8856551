"""A machine below a folder, on which office-setup works: its users, nginx's own files, and stand-ins for systemd."""
from __future__ import annotations

import fcntl
import hashlib
import os
import pathlib
import shutil
import stat
import sys
from typing import NamedTuple

from kit.commands import OFFICE, TOP, Done, run

sys.path.append(str(TOP / "deploy/packaging"))
from making import listed, staging  # noqa: E402

SOURCES = pathlib.Path(os.environ.get("SETUP_SOURCES", TOP / "companions"))
"""the companions that are tried: those of the repository, or a copy with a mistake"""
STUB = pathlib.Path(__file__).with_name("stub")
STAND_INS = ("systemctl", "nginx", "nft", "timedatectl")
USERS = ("office", "office-gate", "office-vault", "www-data", "office-sign-in")
FIRST_UID = 64_900
GROUPS = (*USERS, "adm")
NGINX_CONF = "user www-data;\nevents {\n\tworker_connections 768;\n}\nhttp {\n\tinclude /etc/nginx/sites-enabled/*;\n}\n"
ALL_RULES = "#!/usr/sbin/nft -f\nflush ruleset"
FOLDERS = ("etc/office", "etc/nginx/sites-available", "etc/nginx/sites-enabled", "etc/nginx/modules-enabled",
           "etc/logrotate.d", "var/log/nginx", "var/lib", "run")
SHARE = "usr/share/office"
GET_FLAGS, SET_FLAGS, APPEND_ONLY = 0x80086601, 0x40086602, 0x20
SITE = "records.city.example"


class Entry(NamedTuple):
    """A file, folder or link: its kind, mode, owner, whether it is only appended to, and its content or target."""

    kind: str
    mode: int
    user: int
    group: int
    is_log: bool
    content: str


def flags_of(file: pathlib.Path) -> int:
    """Returns the marks of a file, as chattr has them."""
    with open(file, "rb") as opened:
        data = bytearray(8)
        fcntl.ioctl(opened, GET_FLAGS, data)
    return int.from_bytes(data, sys.byteorder)


def set_log(file: pathlib.Path, is_log: bool) -> None:
    """Sets or takes off the mark of a file that is only appended to."""
    flags = flags_of(file)
    with open(file, "rb") as opened:
        fcntl.ioctl(opened, SET_FLAGS, (flags | APPEND_ONLY if is_log else flags & ~APPEND_ONLY).to_bytes(8, sys.byteorder))


def has_logs(folder: pathlib.Path) -> bool:
    """Whether the file system of a folder knows files that are only appended to."""
    file = folder / "log"
    file.touch()
    try:
        set_log(file, True)
        set_log(file, False)
    except OSError:
        return False
    return True


def entry_of(file: pathlib.Path) -> Entry:
    """Returns what is at a path."""
    state = file.lstat()
    if file.is_symlink():
        return Entry("link", 0, state.st_uid, state.st_gid, False, os.readlink(file))
    mode = stat.S_IMODE(state.st_mode)
    if file.is_dir():
        return Entry("folder", mode, state.st_uid, state.st_gid, False, "")
    digest = hashlib.sha256(file.read_bytes()).hexdigest()
    return Entry("file", mode, state.st_uid, state.st_gid, bool(flags_of(file) & APPEND_ONLY), digest)


class Room:
    """The machine of a part. Used by `with`, since logs that are only appended to have to be freed at the end."""

    def __init__(self, folder: pathlib.Path) -> None:
        self.folder, self.root, self.commands = folder, folder / "root", folder / "bin"
        self.calls = folder / "calls"

    def __enter__(self) -> Room:
        for path in ("units", "loaded", "bin"):
            (self.folder / path).mkdir(parents=True)
        for name in STAND_INS:
            shutil.copy(STUB, self.commands / name)
        self.put_program()
        for path in FOLDERS:
            (self.root / path).mkdir(parents=True)
        self.put_share()
        lines = [f"{name}:x:{FIRST_UID + at}" for at, name in enumerate(GROUPS)]
        (self.root / "etc/passwd").write_text("".join(f"{line}:{FIRST_UID}::/:/bin/false\n" for line in ["root:x:0", *lines]))
        (self.root / "etc/group").write_text("".join(f"{line}:\n" for line in ["root:x:0", *lines]))
        (self.root / "etc/nginx/nginx.conf").write_text(NGINX_CONF)
        (self.root / "etc/nftables.conf").write_text(ALL_RULES)
        (self.root / "etc/timezone").write_text("Europe/Berlin\n")
        return self

    def put_program(self) -> None:
        """Puts the program where the users of the machine reach it; the launcher works at its own place alone."""
        is_launcher = pathlib.Path(OFFICE).read_bytes()[:2] == b"#!"
        program = self.commands / "office"
        if is_launcher:
            program.write_text(f'#!/bin/sh\nexec {OFFICE} "$@"\n')
            program.chmod(0o755)
        else:
            shutil.copy(OFFICE, program)

    def put_share(self) -> None:
        """Lays out the product's files as the package does."""
        for source, folder, name in listed.listed():
            if folder.startswith(SHARE) and name != "web":
                for file in staging.files_below(source):
                    staging.put_file(file, self.root / folder / name / file.relative_to(source))

    def __exit__(self, *_: object) -> None:
        for file in (self.root / "var/log").rglob("*"):
            if file.is_file() and not file.is_symlink():
                set_log(file, False)

    # ---- the machine

    def at(self, path: str) -> pathlib.Path:
        return self.root / path.lstrip("/")

    def text(self, path: str) -> str:
        """Reads a file of the machine, or the one that a link there leads to."""
        file = self.at(path)
        return self.text(os.readlink(file)) if file.is_symlink() and os.readlink(file)[0] == "/" else file.read_text()

    def put(self, path: str, text: str) -> pathlib.Path:
        self.at(path).parent.mkdir(parents=True, exist_ok=True)
        self.at(path).write_text(text)
        return self.at(path)

    def change(self, path: str, old: str, new: str) -> None:
        """Changes a text that is once in a file."""
        text = self.text(path)
        assert text.count(old) == 1, (path, old, text)
        self.at(path).write_text(text.replace(old, new))

    def tree(self) -> dict[str, Entry]:
        """Returns all that is on the machine, but for the notes that office-setup keeps of its own work."""
        paths = sorted(path for path in self.root.rglob("*") if not self.is_note(path))
        return {f"/{path.relative_to(self.root)}": entry_of(path) for path in paths}

    def is_note(self, path: pathlib.Path) -> bool:
        name = str(path.relative_to(self.root))
        return name.startswith(("run/", "var/lib/office-setup"))

    def units(self, state: str = "active") -> set[str]:
        return {file.name.removesuffix(f".{state}") for file in (self.folder / "units").glob(f"*.{state}")}

    def switch(self, unit: str, state: str, is_there: bool) -> None:
        """Enables, disables, starts or stops a unit past office-setup."""
        file = self.folder / "units" / f"{unit}.{state}"
        if is_there:
            file.touch()
        else:
            file.unlink()

    def uid(self, name: str) -> int:
        return 0 if name == "root" else FIRST_UID + GROUPS.index(name)

    def forget_calls(self) -> None:
        self.calls.unlink(missing_ok=True)

    def called(self) -> list[str]:
        """Returns the calls of the stand-ins, without those that only look."""
        lines = self.calls.read_text().splitlines() if self.calls.exists() else []
        looks = ("systemctl show", "systemctl is-", "nft list", "nginx -t")
        return [line for line in lines if not line.startswith(looks)]

    # ---- office-setup

    def variables(self) -> dict[str, str]:
        """Returns the environment in which office-setup finds the commands of this machine."""
        folders = [self.commands, *(SOURCES / name for name in ("gate", "vault", "signin")), "/usr/sbin:/usr/bin:/sbin:/bin"]
        return {"PATH": ":".join(map(str, folders)), "ROOM": str(self.folder), "OFFICE": str(self.commands / "office")}

    def setup(self, *arguments: object) -> Done:
        """Runs office-setup on this machine."""
        return run(SOURCES / "setup/office-setup", "--root", self.root, *arguments, **self.variables())

    def made(self, name: str = "city") -> Done:
        """Writes the file of an office, and applies it."""
        done = self.setup("new", name, "--site", SITE)
        assert done.status == 0, done
        done = self.setup("apply")
        assert done.status == 0, done
        return done
