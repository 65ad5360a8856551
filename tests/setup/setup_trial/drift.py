"""Drift: each thing of an office is changed, removed or given to somebody else, one at a time."""
from __future__ import annotations

import os
import pathlib
import shutil
import sys
from collections.abc import Callable, Iterator
from typing import NamedTuple

from kit.judging import judge, same
from setup_trial.first import UNITS, changed
from setup_trial.room import SOURCES, STUB, Entry, Room, set_log

sys.path[:0] = [str(SOURCES), str(SOURCES / "setup")]
from office_setup import applying, machine  # noqa: E402

SECRET = ("/etc/office/city.token", "/etc/office/city.key", "/etc/nginx/office/office.crt", "/etc/nginx/office/office.key")
"""what is made once: another text there is nobody's to mend"""
KEYS = ("/etc/office/city.key", "/etc/office/city.key.pub", "/etc/office/city.signers", *SECRET)
INSIDE = ("/var/lib/office/city/", "/var/lib/office-vaults/city/", "/var/lib/office-vault-backups/city/")
"""what the services have in their folders"""
OTHERS = ("/etc/passwd", "/etc/group", "/etc/timezone", "/etc/office/city.toml", "/etc/nginx/nginx.conf", "/etc/nftables.conf")


class Plant(NamedTuple):
    """A drift: what is done past office-setup, what `check` has to name, and whether all is as before once it is mended."""

    name: str
    do: Callable[[], object]
    named: str
    is_as_before: bool = True


def append(file: pathlib.Path) -> None:
    with open(file, "a", encoding="utf-8") as opened:
        opened.write("# drift\n")


def replace_by_copy(file: pathlib.Path, content: bytes) -> None:
    file.unlink()
    file.write_bytes(content)


def replace_by_link(file: pathlib.Path) -> None:
    shutil.move(file, file.with_name("elsewhere"))
    file.symlink_to("elsewhere")


def retarget(file: pathlib.Path) -> None:
    file.unlink()
    file.symlink_to("/dev/null")


def of_link(room: Room, path: str) -> Iterator[Plant]:
    file = room.at(path)
    target = room.at(str(file.parent / os.readlink(file)).removeprefix(str(room.root)))
    yield Plant(f"{path} is removed", file.unlink, path)
    yield Plant(f"{path} is a copy", lambda: replace_by_copy(file, target.read_bytes()), path)
    yield Plant(f"{path} is a link to something else", lambda: retarget(file), path)


def of_log(room: Room, path: str) -> Iterator[Plant]:
    file = room.at(path)

    def give() -> None:
        set_log(file, False)
        os.chown(file, 0, 0)
        set_log(file, True)
    yield Plant(f"{path} can be rewritten", lambda: set_log(file, False), path)
    yield Plant(f"{path} is root's", give, path)


def of_file(room: Room, path: str, entry: Entry) -> Iterator[Plant]:
    file = room.at(path)
    if path not in SECRET or path == "/etc/office/city.token":
        yield Plant(f"{path} can be read by everybody", lambda: file.chmod(0o666), path)
        yield Plant(f"{path} is somebody else's", lambda: os.chown(file, 64_999, 64_999), path)
    if path.startswith("/var/log/nginx/"):
        return
    if path.endswith("htpasswd"):
        name = "monitor" if "monitor" in path else "legal"
        yield Plant(f"{name} is taken out of {path}", lambda: file.write_text("".join(
            line for line in file.read_text().splitlines(True) if not line.startswith(f"{name}:"))), path, False)
        yield Plant(f"{path} is removed", file.unlink, path, False)
    elif path not in KEYS and not path.endswith("actors.conf"):
        yield Plant(f"{path} has another line", lambda: append(file), path, False)
        yield Plant(f"{path} is removed", file.unlink, path)
        yield Plant(f"{path} is a link", lambda: replace_by_link(file), path, False)


def of_secrets(room: Room) -> Iterator[Plant]:
    """What is made once is made again if it is lost, and what names it follows."""
    token, tokens = "/etc/office/city.token", "/etc/nginx/office/gate_tokens.conf"
    yield Plant("the token is lost", room.at(token).unlink, token, False)
    yield Plant("the token is another one", lambda: room.put(token, "0" * 64 + "\n"), tokens, False)
    yield Plant("the key of the seals is lost", lambda: [room.at(f"/etc/office/city.key{end}").unlink() for end in ("", ".pub")],
                "/etc/office/city.key", False)
    yield Plant("the line of the key is lost", room.at("/etc/office/city.signers").unlink, "/etc/office/city.signers", False)
    for name in ("crt", "key"):
        path = f"/etc/nginx/office/office.{name}"
        yield Plant(f"{path} is lost", room.at(path).unlink, "/etc/nginx/office/office.crt", False)
    yield Plant("actors.conf is lost", room.at("/etc/nginx/office/actors.conf").unlink, "/etc/nginx/office/actors.conf")


def of_units(room: Room) -> Iterator[Plant]:
    for unit in sorted({*UNITS, "nginx.service"}):
        yield Plant(f"{unit} is stopped", lambda unit=unit: room.switch(unit, "active", False), unit)
        yield Plant(f"{unit} is disabled", lambda unit=unit: room.switch(unit, "enabled", False), unit)
    yield Plant("nftables does not start with the machine", lambda: room.switch("nftables.service", "enabled", False),
                "nftables.service")


def of_others(room: Room) -> Iterator[Plant]:
    """Lines in files of others, and the loaded rules."""
    loaded = room.folder / "loaded"
    yield Plant("nginx takes fewer connections", lambda: room.change("/etc/nginx/nginx.conf", "8192", "768"),
                "/etc/nginx/nginx.conf")
    for name in ("office.nft", "office-gate.nft"):
        yield Plant(f"{name} is not included", lambda name=name: room.change(
            "/etc/nftables.conf", f'include "/etc/{name}"\n', ""), "/etc/nftables.conf", False)
        yield Plant(f"the rules of {name} are flushed", (loaded / name).unlink, "the rules of nftables")
    yield Plant("another port is loaded", lambda: (loaded / "office-gate.nft").write_text(
        (loaded / "office-gate.nft").read_text().replace("8081", "8085")), "the rules of nftables")


def plants(room: Room, tree: dict[str, Entry]) -> Iterator[Plant]:
    """Returns the drifts of an office that was set up."""
    for path, entry in tree.items():
        if path.startswith(("/usr/", *INSIDE)) or path in OTHERS:
            continue
        is_ours = "office" in path or path.startswith(("/etc/logrotate.d/", "/etc/nginx/modules-enabled/"))
        if not is_ours:
            continue
        if entry.kind == "link":
            yield from of_link(room, path)
        elif entry.is_log:
            yield from of_log(room, path)
        elif entry.kind == "folder":
            yield Plant(f"{path} can be written by everybody", lambda path=path: room.at(path).chmod(0o777), path)
        elif path not in ("/etc/office/city.key.pub", "/etc/office/city.signers"):
            yield from of_file(room, path, entry)
    yield from of_secrets(room)
    yield from of_units(room)
    yield from of_others(room)


def settled(room: Room) -> dict[str, Entry]:
    """Returns the machine without what was kept aside, and without what others write."""
    return {path: entry for path, entry in room.tree().items() if ".before-setup" not in path and not path.startswith(INSIDE)
            and not path.endswith("elsewhere")}


def passed(room: Room, work: Callable[..., int]) -> tuple[int, str]:
    """Runs a pass of office-setup within this process, which is quicker, and returns its count and what it printed."""
    lines: list[str] = []
    return work(machine.Machine(room.root), None, lines.append), "\n".join(lines)


def drift(folder: pathlib.Path) -> None:
    """Each drift is named by `check` and mended by `apply`; the next one is planted on what that left."""
    with Room(folder) as room:
        room.made()
        # the gate took the settings just now
        shutil.copy(STUB, room.commands / "office-gate")
        os.environ.update(room.variables())
        every = list(plants(room, room.tree()))
        judge("there are drifts of each kind", len(every) > 120, len(every), always=True)
        for plant in every:
            before, units = settled(room), (room.units(), room.units("enabled"))
            plant.do()
            count, text = passed(room, applying.check)
            judge(f"{plant.name}: `check` names it", count and plant.named in text, text, is_quiet=True)
            judge(f"{plant.name}: `apply` mends it", passed(room, applying.apply)[0], is_quiet=True)
            same(f"{plant.name}: the same units are on", (room.units(), room.units("enabled")), units)
            if plant.is_as_before:
                same(f"{plant.name}: all is as before", changed(before, settled(room)), {})
            else:
                same(f"{plant.name}: nothing differs then", passed(room, applying.check), (0, ""))
