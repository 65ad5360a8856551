"""Kinds of parts: each compares itself with the machine, and corrects the machine if it differs."""
import os
import re
from collections.abc import Callable
from pathlib import Path

from office_common import files
from office_setup import append_only
from office_setup.machine import ROOT_OWNED, Machine, Owner
from office_setup.made import Made

Command = tuple[str, ...]


class Thing:
    """A part of an office or of the machine. `path` is the file that it changes, `then` are the commands to run after a
    change, and `is_of_nginx` is set if nginx reads the file. If nginx refuses its files, `restores` are put back too, and
    the commands `back` run. An upgrade leaves a thing with `waits` to a person."""

    path: str | None = None
    then: tuple[Command, ...] = ()
    restores: tuple[str, ...] = ()
    back: tuple[Command, ...] = ()
    is_of_nginx = False
    waits = False

    def difference(self) -> str | None:
        """Returns a line that describes the difference, or None."""
        raise NotImplementedError

    def make(self, made: Made) -> list[str]:
        """Corrects the machine, and returns further lines to print."""
        raise NotImplementedError

    def for_nginx(self) -> "Thing":
        """Marks this as a file of nginx, and returns it."""
        self.is_of_nginx = True
        return self


def owner_difference(machine: Machine, path: str, owner: Owner) -> str | None:
    """Describes a wrong owner or mode of a file."""
    own = machine.owner_of(path)
    return None if own == owner else f"{path}: is of {own} in place of {owner}"


def make_parents(machine: Machine, path: str) -> None:
    """Makes the folders above a path, which anybody may enter."""
    for folder in reversed(Path(path).parents):
        if not machine.at(folder).exists():
            machine.at(folder).mkdir()
            machine.at(folder).chmod(0o755)


class Folder(Thing):
    """A folder with its owner and its mode."""

    def __init__(self, machine: Machine, path: str, owner: Owner = Owner("root", "root", 0o755)) -> None:
        self.machine, self.folder, self.owner = machine, path, owner

    def difference(self) -> str | None:
        if not self.machine.at(self.folder).is_dir():
            return f"{self.folder}: there is no such folder"
        return owner_difference(self.machine, self.folder, self.owner)

    def make(self, made: Made) -> list[str]:
        make_parents(self.machine, self.folder)
        self.machine.at(self.folder).mkdir(exist_ok=True)
        self.machine.own(self.folder, self.owner)
        return []


class File(Thing):
    """A generated file, which is rewritten whenever it differs. A change that somebody made is kept aside."""

    def __init__(self, machine: Machine, path: str, text: Callable[[], str], owner: Owner = ROOT_OWNED,
                 then: tuple[Command, ...] = ()) -> None:
        self.machine, self.path, self.text, self.owner, self.then = machine, path, text, owner, then

    def difference(self) -> str | None:
        assert self.path is not None
        file = self.machine.at(self.path)
        if not file.is_file() or file.is_symlink():
            return f"{self.path}: there is no such file"
        if file.read_bytes() != self.text().encode():
            return f"{self.path}: has another text"
        return owner_difference(self.machine, self.path, self.owner)

    def make(self, made: Made) -> list[str]:
        assert self.path is not None
        data = self.text().encode()
        file = self.machine.at(self.path)
        aside = None
        if not file.is_file() or file.read_bytes() != data:
            aside = made.keep_aside(self.path)
        make_parents(self.machine, self.path)
        files.write(file, data, self.owner.mode, self.machine.ids(self.owner))
        made.note(self.path, data)
        return kept_lines(self.path, aside)


class Once(Thing):
    """A file that is written once, such as a secret. Later only its owner and mode are corrected."""

    def __init__(self, machine: Machine, path: str, text: Callable[[], str], owner: Owner,
                 then: tuple[Command, ...] = ()) -> None:
        self.machine, self.path, self.text, self.owner, self.then = machine, path, text, owner, then

    def difference(self) -> str | None:
        assert self.path is not None
        if not self.machine.at(self.path).is_file():
            return f"{self.path}: there is no such file"
        return owner_difference(self.machine, self.path, self.owner)

    def make(self, made: Made) -> list[str]:
        assert self.path is not None
        if self.machine.at(self.path).is_file():
            self.machine.own(self.path, self.owner)
        else:
            make_parents(self.machine, self.path)
            files.write(self.machine.at(self.path), self.text().encode(), self.owner.mode, self.machine.ids(self.owner))
        return []


class Log(Thing):
    """An append-only file."""

    def __init__(self, machine: Machine, path: str, owner: Owner) -> None:
        self.machine, self.path, self.owner = machine, path, owner

    def difference(self) -> str | None:
        assert self.path is not None
        file = self.machine.at(self.path)
        if not file.is_file():
            return f"{self.path}: there is no such file"
        if not append_only.is_set(file):
            return f"{self.path}: can be rewritten (chattr +a is missing)"
        return owner_difference(self.machine, self.path, self.owner)

    def make(self, made: Made) -> list[str]:
        assert self.path is not None
        file = self.machine.at(self.path)
        make_parents(self.machine, self.path)
        if not file.exists():
            os.close(os.open(file, os.O_WRONLY | os.O_CREAT | os.O_EXCL, 0o600))
        append_only.change(file, False)
        self.machine.own(self.path, self.owner)
        append_only.change(file, True)
        return []


class Link(Thing):
    """A link to a file of the product or of the city, so that a change there counts at once."""

    def __init__(self, machine: Machine, path: str, target: str) -> None:
        self.machine, self.path, self.target = machine, path, target

    def difference(self) -> str | None:
        assert self.path is not None
        file = self.machine.at(self.path)
        if file.is_symlink() and os.readlink(file) == self.target:
            return None
        return f"{self.path}: is no link to {self.target}"

    def make(self, made: Made) -> list[str]:
        assert self.path is not None
        file = self.machine.at(self.path)
        make_parents(self.machine, self.path)
        # a copy of the product's own file is nobody's change
        is_copy = file.is_file() and not file.is_symlink() and file.read_bytes() == self.content()
        aside = None if is_copy else made.keep_aside(self.path)
        new = file.with_name(f".{file.name}.new")
        new.unlink(missing_ok=True)
        new.symlink_to(self.target)
        new.replace(file)
        made.forget(self.path)
        return kept_lines(self.path, aside)

    def content(self) -> bytes | None:
        """Returns the bytes of the target, if they can be read."""
        assert self.path is not None
        target = self.target if self.target.startswith("/") else str(Path(self.path).parent / self.target)
        file = self.machine.at(target)
        return file.read_bytes() if file.is_file() else None


def kept_lines(path: str, aside: str | None) -> list[str]:
    return [] if aside is None else [f"{path}: somebody changed it, and it is kept as {aside}"]


class Entry(Thing):
    """A line in somebody else's file: a pattern that must match, and a function that adds the line."""

    def __init__(self, machine: Machine, path: str, pattern: str, change: Callable[[str], str], line: str) -> None:
        self.machine, self.path, self.change, self.line = machine, path, change, line
        self.pattern = re.compile(pattern, re.M)

    def read(self) -> str | None:
        assert self.path is not None
        file = self.machine.at(self.path)
        return file.read_text(encoding="utf-8") if file.is_file() else None

    def difference(self) -> str | None:
        text = self.read()
        if text is None:
            return f"{self.path}: there is no such file"
        return None if self.pattern.search(text) else f"{self.path}: the line `{self.line}` is missing"

    def make(self, made: Made) -> list[str]:
        assert self.path is not None
        text = self.read() or ""
        owner = self.machine.owner_of(self.path) if self.machine.at(self.path).exists() else ROOT_OWNED
        make_parents(self.machine, self.path)
        files.write(self.machine.at(self.path), self.change(text).encode(), owner.mode, self.machine.ids(owner))
        return []


class Unit(Thing):
    """A unit of systemd that is enabled and active, or that is neither."""

    waits = True

    def __init__(self, machine: Machine, name: str, is_on: bool = True) -> None:
        self.machine, self.name, self.is_on = machine, name, is_on

    def difference(self) -> str | None:
        text = self.machine.run("systemctl", "show", "-p", "UnitFileState", "-p", "ActiveState", self.name).text
        states = dict(line.partition("=")[::2] for line in text.splitlines())
        enabled, active = states.get("UnitFileState", ""), states.get("ActiveState", "")
        is_right = (enabled == "enabled", active in ("active", "reloading")) == (self.is_on, self.is_on)
        wanted = "on" if self.is_on else "off"
        return None if is_right else f"{self.name}: is {enabled or 'unknown'} and {active or 'unknown'}, and not {wanted}"

    def make(self, made: Made) -> list[str]:
        self.machine.must("systemctl", "enable" if self.is_on else "disable", "--now", self.name)
        return []


class Deed(Thing):
    """Anything else: the message if it is missing, a test for it, and a function that creates it."""

    def __init__(self, text: str, is_done: Callable[[], bool], do: Callable[[], list[str]], waits: bool = False) -> None:
        self.text, self.is_done, self.do, self.waits = text, is_done, do, waits

    def difference(self) -> str | None:
        return None if self.is_done() else self.text

    def make(self, made: Made) -> list[str]:
        return self.do()
