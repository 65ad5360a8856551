"""Runs a program that ends with the process that started it, whatever becomes of that one.

    child.py PARENT PROGRAM NAME ARGUMENT ..
    child.py --without-syncs PARENT PROGRAM NAME ARGUMENT ..

PROGRAM is a path, or the number of a descriptor that reads the program. NAME is what it is called. It has this
process's number. `setpriv --pdeathsig` would do the same, but it asks for capabilities, which the units forbid.

Without syncs a filter of system calls answers `done` to fsync and fdatasync; whoever starts the program syncs its files
when that is due. If the kernel does not take the filter, each sync is done, which is slower and never wrong.
"""
import ctypes
import os
import signal
import struct
import sys

PARENT_DEATH_SIGNAL = 1
NO_NEW_PRIVILEGES, SECCOMP, FILTER = 38, 22, 2
LOAD, IS_EQUAL, RETURN = 0x20, 0x15, 0x06
CALL_AT, MACHINE_AT = 0, 4
ALLOW, DONE = 0x7FFF0000, 0x00050000
# of a machine: how the kernel names it, and its numbers of fsync and fdatasync
MACHINES = {"x86_64": (0xC000003E, 74, 75), "aarch64": (0xC00000B7, 82, 83)}


class Filter(ctypes.Structure):
    """`struct sock_fprog`: how many instructions, and where they are."""

    _fields_ = [("count", ctypes.c_ushort), ("code", ctypes.c_char_p)]


def instructions(machine: int, *calls: int) -> bytes:
    """Returns a filter by which these system calls of a machine do nothing and return 0; every other call is done."""
    last = len(calls) + 1
    lines = [(LOAD, 0, 0, MACHINE_AT), (IS_EQUAL, 0, last, machine), (LOAD, 0, 0, CALL_AT)]
    lines += [(IS_EQUAL, last - number, 0, call) for number, call in enumerate(calls, 1)]
    return b"".join(struct.pack("HBBI", *line) for line in [*lines, (RETURN, 0, 0, ALLOW), (RETURN, 0, 0, DONE)])


def leave_syncs_out(libc: ctypes.CDLL) -> None:
    """From now on this process syncs nothing. Nothing changes if the kernel does not take that."""
    if os.uname().machine in MACHINES:
        code = instructions(*MACHINES[os.uname().machine])
        libc.prctl(NO_NEW_PRIVILEGES, 1, 0, 0, 0)
        libc.prctl(SECCOMP, FILTER, ctypes.byref(Filter(len(code) // 8, code)), 0, 0)


def main(args: list[str]) -> None:
    libc = ctypes.CDLL(None)
    is_synced = args[0] != "--without-syncs"
    parent, program, *rest = args if is_synced else args[1:]
    if libc.prctl(PARENT_DEATH_SIGNAL, int(signal.SIGKILL), 0, 0, 0) != 0:
        sys.exit("child.py: the kernel does not take it")
    if os.getppid() != int(parent):
        sys.exit("child.py: the parent has ended already")
    if not is_synced:
        leave_syncs_out(libc)
    os.execve(int(program) if program.isdigit() else program, rest, os.environ)


if __name__ == "__main__":
    main(sys.argv[1:])
