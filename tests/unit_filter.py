#!/usr/bin/env python3
"""Runs a command with no more system calls than a unit of systemd allows, where no systemd runs.

    tests/unit_filter.py UNIT COMMAND ..

It reads SystemCallFilter= (one list of sets that are allowed, and lists with `~` that are taken from it) and
SystemCallErrorNumber= of the unit and its drop-ins, asks systemd-analyze for the members of each set, and loads the
filter by libseccomp. Every other line of the unit is left out. It also sets NoNewPrivileges, as the units do.
"""
import ctypes
import errno
import os
import pathlib
import re
import subprocess
import sys

sys.dont_write_bytecode = True

from kit.units import text_of  # noqa: E402

KILL, ALLOW, ERRNO, NO_NEW_PRIVS = 0x80000000, 0x7FFF0000, 0x00050000, 38


def members(names: list[str]) -> set[str]:
    """The system calls of these sets, and of the sets in them."""
    calls: set[str] = set()
    for name in names:
        if not name.startswith("@"):
            calls.add(name)
            continue
        listed = subprocess.run(["systemd-analyze", "syscall-filter", "--no-pager", name], check=True, text=True,
                                stdout=subprocess.PIPE).stdout
        found = [line.strip() for line in listed.splitlines()[1:]]
        calls |= members([it for it in found if it and not it.startswith("#")])
    return calls


def allowed(unit: str) -> tuple[set[str], int]:
    """The system calls that a unit allows, and what becomes of another one."""
    calls = members(["@default"])
    for line in re.findall(r"^SystemCallFilter=(.+)$", unit, re.M):
        if line.startswith("~"):
            calls -= members(line[1:].split())
        else:
            calls |= members(line.split())
    name = re.findall(r"^SystemCallErrorNumber=(\w+)$", unit, re.M)[-1:]
    return calls, KILL if name in ([], ["kill"]) else ERRNO | getattr(errno, name[0])


def load(calls: set[str], otherwise: int) -> None:
    lib = ctypes.CDLL("libseccomp.so.2")
    lib.seccomp_init.restype = ctypes.c_void_p
    context = ctypes.c_void_p(lib.seccomp_init(ctypes.c_uint32(otherwise)))
    for name in calls:
        number = lib.seccomp_syscall_resolve_name(name.encode())
        if number >= 0:
            lib.seccomp_rule_add(context, ctypes.c_uint32(ALLOW), ctypes.c_int(number), ctypes.c_uint(0))
    if ctypes.CDLL(None).prctl(NO_NEW_PRIVS, 1, 0, 0, 0) or lib.seccomp_load(context):
        sys.exit("tests/unit_filter.py: the filter is not loaded")


if __name__ == "__main__":
    load(*allowed(text_of(pathlib.Path(sys.argv[1]))))
    os.execvp(sys.argv[2], sys.argv[2:])
