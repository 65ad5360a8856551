"""The attribute of append-only files, which `chattr +a` sets."""
import array
import fcntl
import os
from pathlib import Path

from office_common.errors import USAGE, Refused

GET_FLAGS, SET_FLAGS = 0x80086601, 0x40086602
APPEND_ONLY = 0x20


def flags_of(descriptor: int) -> int:
    """Returns the attributes of an open file, none if its file system has no attributes."""
    flags = array.array("L", [0])
    try:
        fcntl.ioctl(descriptor, GET_FLAGS, flags)
    except OSError:
        return 0
    return flags[0]


def is_set(file: Path) -> bool:
    """Returns whether a file is append-only."""
    descriptor = os.open(file, os.O_RDONLY)
    try:
        return bool(flags_of(descriptor) & APPEND_ONLY)
    finally:
        os.close(descriptor)


def change(file: Path, is_wanted: bool) -> None:
    """Sets or clears the attribute of a file."""
    descriptor = os.open(file, os.O_RDONLY)
    try:
        flags = flags_of(descriptor)
        if bool(flags & APPEND_ONLY) != is_wanted:
            fcntl.ioctl(descriptor, SET_FLAGS, array.array("L", [flags ^ APPEND_ONLY]))
    except OSError as error:
        raise Refused(USAGE, f"{file}: its file system has no append-only files: {error.strerror}") from error
    finally:
        os.close(descriptor)
