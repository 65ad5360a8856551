"""Other commands of the companions: found, and run to their end, also as another user."""
import os
import subprocess
import sys
from collections.abc import Mapping
from pathlib import Path
from types import MappingProxyType
from typing import IO, Any

from office_common.rights import Owner

SETTINGS = ("PATH", "OFFICE", "OFFICE_DISK", "OFFICE_PAUSE")
"""what of root's environment another user gets"""


def path_of(name: str) -> str:
    """Returns the path of a command: beside the one that runs or, in the repository, in the folder of its companion."""
    here = Path(sys.argv[0]).resolve().parent
    return str(next((path for path in (here / name, *here.parent.glob(f"*/{name}")) if path.is_file()), here / name))


def run(args: list[str], out: IO[bytes] | None = None, owner: Owner | None = None,
        lent: Mapping[str, int] = MappingProxyType({})) -> int:
    """Runs a command to its end, and returns its status. If this process is stopped, it stops the command too.

    For another user it begins anew: with nothing of root's environment, and in a session of its own, since whoever
    controls that user could else type into the terminal of root. This user gets the descriptors that are lent, each
    named by a setting.
    """
    settings: dict[str, Any] = {} if owner is None else {
        "user": owner.number, "group": owner.group, "extra_groups": owner.groups, "cwd": "/", "start_new_session": True,
        "env": {name: os.environ[name] for name in SETTINGS if name in os.environ}
        | {name: str(descriptor) for name, descriptor in lent.items()}, "pass_fds": tuple(lent.values())}
    with subprocess.Popen(args, stdin=subprocess.DEVNULL, stdout=out, **settings) as process:
        try:
            return process.wait()
        except BaseException:
            process.terminate()
            raise
