"""The copies of the settings and of the secret that root gives an office which decides who may do what.

The office reads its settings anew for each connection. A copy is there whole at once, so the office never reads a part.
"""
import grp
import os
import sys
from pathlib import Path

GROUP = "office"
"""the group that reads the copies"""
COPIES = ("access", "token")
"""the copies of the settings and of the secret"""


def hand_over(access: Path, token: Path, folder: Path) -> None:
    """Gives an office copies of its settings and its secret, each whole at once. Without a secret it does nothing."""
    if not token.exists():
        return
    folder.mkdir(mode=0o755, parents=True, exist_ok=True)
    for source, name in zip((access, token), COPIES, strict=True):
        replace(folder / name, source.read_bytes())


def replace(path: Path, data: bytes) -> None:
    """Puts a file in the place of another one, for root and the group of the office."""
    new = path.with_name(f"{path.name}.new")
    new.unlink(missing_ok=True)
    with os.fdopen(os.open(new, os.O_WRONLY | os.O_CREAT | os.O_EXCL | os.O_CLOEXEC, 0o400), "wb") as file:
        file.write(data)
        lend(file.fileno())
    new.rename(path)


def lend(file: int) -> None:
    """Lets the group of the office read a file; only root can."""
    if os.geteuid() != 0:
        return
    try:
        os.fchown(file, -1, grp.getgrnam(GROUP).gr_gid)
        os.fchmod(file, 0o440)
    except KeyError:
        print(f"office-serve: there is no group {GROUP}, so root alone reads the copies", file=sys.stderr)
