"""Whose rights a command works with: root goes on as the owner of the files, so that no owner leads root astray."""
import os
import pwd
import stat
from collections.abc import Iterator
from pathlib import Path
from typing import NamedTuple

from office_common.errors import WRONG, Refused

MOST_LINKS = 40
"""the links that the kernel follows on the way to a file"""


class Owner(NamedTuple):
    """The owner of a file: number, name and groups. One without a name, as in a container, has the file's group."""

    number: int
    name: str
    group: int
    groups: list[int]


def owner_in(file: os.stat_result) -> Owner:
    """Returns the owner of a file."""
    try:
        user = pwd.getpwuid(file.st_uid)
    except KeyError:
        return Owner(file.st_uid, str(file.st_uid), file.st_gid, [])
    return Owner(user.pw_uid, user.pw_name, user.pw_gid, os.getgrouplist(user.pw_name, user.pw_gid))


def is_anothers(file: os.stat_result) -> bool:
    """Returns whether root runs this, and somebody else owns a file."""
    return os.geteuid() == 0 and file.st_uid != 0


def become_owner(file: os.stat_result) -> None:
    """Gives up root's rights for good, for those of a file's owner. Nothing happens if root owns it, or does not run
    this."""
    if is_anothers(file):
        owner = owner_in(file)
        os.setgroups(owner.groups)
        os.setresgid(owner.group, owner.group, owner.group)
        os.setresuid(owner.number, owner.number, owner.number)


def way_to(path: Path, links: int = MOST_LINKS) -> Iterator[os.stat_result]:
    """Looks at each folder, each link and the file on the way to a path, as namei does."""
    for step in (*reversed(path.absolute().parents), path.absolute()):
        state = os.lstat(step)
        yield state
        if stat.S_ISLNK(state.st_mode):
            if not links:
                raise OSError(f"too many links lead to {path}")
            yield from way_to(Path(os.path.realpath(step.parent), os.readlink(step)), links - 1)


def is_of(step: os.stat_result, user: int) -> bool:
    """Returns whether a step of a way belongs to root or to a user, and nobody else may put another in its place. In a
    folder like /tmp nobody removes what belongs to another."""
    is_shared = stat.S_ISDIR(step.st_mode) and step.st_mode & 0o022 and not step.st_mode & stat.S_ISVTX
    return step.st_uid in (0, user) and not is_shared


def is_only_theirs(path: Path, user: int) -> bool:
    """Returns whether root and a user alone decide where a path leads."""
    try:
        return all(is_of(step, user) for step in way_to(path))
    except OSError:
        return False


def check_owner(path: Path) -> os.stat_result:
    """Refuses everybody but root and the owner of a path, and root if others decide where the path leads."""
    file = path.stat()
    if os.geteuid() not in (0, file.st_uid):
        raise Refused(WRONG, f"only root and the owner of {path} may run this")
    if os.geteuid() == 0 and not is_only_theirs(path, file.st_uid):
        names = "root and " * (file.st_uid != 0) + owner_in(file).name
        raise Refused(WRONG, f"others than {names} decide where {path} leads (namei -l {path})")
    return file
