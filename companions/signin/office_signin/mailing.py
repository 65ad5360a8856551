"""Mails about local names: the service leaves them as files, and another user of the machine sends them."""
import os
import pwd
import shutil
from collections.abc import Sequence
from pathlib import Path

ADDRESSES, MAILS = "addresses", "mails"
MOST = 100
MOST_BYTES = 10_000


def hand_over(addresses: Sequence[str], mails: Path, to: Path, user: str | None) -> None:
    """Copies the mails that wait into a folder of whoever sends them, with the addresses."""
    shutil.rmtree(to / MAILS, ignore_errors=True)
    (to / MAILS).mkdir(mode=0o700)
    (to / ADDRESSES).write_text(" ".join(addresses), encoding="ascii")
    for name in sorted(os.listdir(mails))[:MOST]:
        # the folder is another user's: no link of it is followed
        descriptor = os.open(mails / name, os.O_RDONLY | os.O_NOFOLLOW | os.O_NONBLOCK)
        with open(descriptor, "rb") as file:
            (to / MAILS / name).write_bytes(file.read(MOST_BYTES))
    if user is not None:
        owner = pwd.getpwnam(user)
        for path in [to, to / ADDRESSES, to / MAILS, *(to / MAILS).iterdir()]:
            os.chown(path, owner.pw_uid, owner.pw_gid)


def remove_sent(mails: Path, to: Path) -> None:
    """Removes the mails that were handed over, once they are sent."""
    for path in (to / MAILS).iterdir():
        (mails / path.name).unlink(missing_ok=True)
