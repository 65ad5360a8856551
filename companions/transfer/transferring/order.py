"""The order for a receipt: a challenge beside the folder, and the command by which the archive answers it.

The archive's list has, for each file, the SHA-256 of the challenge followed by the file. Nothing in the folder has these
sums, so only whoever has the files can write them.
"""
from __future__ import annotations

import os
import re
import secrets
from pathlib import Path

from office_common.errors import USAGE, Refused
from office_common.files import sync
from transferring.folder import new_folder
from transferring.payload import PLAIN

ENDING = ".order.txt"
CHALLENGE = re.compile(r"^CHALLENGE ([0-9a-f]{64})$", re.MULTILINE)
TEXT = """ORDER FOR A RECEIPT
FOLDER {name}
CERTIFICATE {run}
CHALLENGE {challenge}

To the archive: please show that you hold each file of the folder {name}. Run this command in the folder, as you keep
it, with any shell of POSIX, and send back the file list.txt that it makes:

    find {base} -type f | while IFS= read -r it; do printf '%s  %s\\n' "$({{ printf %s {challenge}; cat "$it"; }} | \
sha256sum | cut -c 1-64)" "$it"; done > ../list.txt

Each line has the SHA-256 of the challenge followed by the file, and the name of the file. The plain SHA-256 of each file
is in the folder itself, so a list of these would show nothing.
"""


def place_of(folder: Path) -> Path:
    """Returns where the order for a folder is: beside it."""
    return folder.absolute().with_name(folder.name + ENDING)


def write(folder: Path, base: str, run: int) -> None:
    """Writes the order for a folder, unless it has one: an archive may be answering that."""
    place = place_of(folder)
    text = TEXT.format(name=folder.name, run=run, base=base, challenge=secrets.token_hex(32))
    with new_folder(folder) as beside:
        file = beside.put("order.txt", [text.encode()], PLAIN)
        try:
            os.link(beside.path / file.name, place)
        except FileExistsError:
            challenge_in(place)
        sync(place.parent)


def challenge_in(place: Path) -> str:
    """Reads the challenge of an order."""
    try:
        match = CHALLENGE.search(place.read_text())
    except (OSError, UnicodeDecodeError) as why:
        raise Refused(USAGE, f"the order {place} cannot be read: {why}") from why
    if match is None:
        raise Refused(USAGE, f"{place} is no order of office-transfer: it has no challenge")
    return match[1]
