"""An office that decides who may do what: its files, and the lines that state by which name the local readers ask."""
import re
import time
from dataclasses import dataclass
from pathlib import Path

from office_common.errors import IMPOSSIBLE, USAGE, Refused

NAME = re.compile(r"[A-Za-z0-9._@-]{1,64}")
"""a NAME of the settings"""


@dataclass(frozen=True)
class Door:
    """The settings, the file of the secret, the name of those who ask at the socket for readings, and the journal."""

    access: Path
    token: Path
    reader: str
    journal: str = "-"
    """a file, or - for none"""

    def secret(self) -> str:
        """Reads the secret. The program reads it next, and refuses what is none."""
        try:
            return self.token.read_text("ascii").removesuffix("\n")
        except (OSError, UnicodeDecodeError) as error:
            raise Refused(IMPOSSIBLE, f"{self.token} cannot be read: {error}") from error

    def lines(self, secret: str) -> bytes:
        """Returns the lines that state the reader. If a client sends such a line too, the office answers 403 `token`."""
        # no reading depends on the day
        day = time.strftime("%Y-%m-%d", time.gmtime())
        return f"Office-Token: {secret}\r\nOffice-Name: {self.reader}\r\nOffice-Day: {day}\r\n".encode("ascii")


def door_of(access: Path | None, token: Path | None, reader: str | None, readings: str | None,
            journal: str | None = None) -> Door | None:
    """Returns the door that the options describe; None without them."""
    if access is None and token is None and reader is None and journal is None:
        return None
    if access is None or token is None:
        raise Refused(USAGE, "--access and --token need each other, and --reader and --journal need both")
    if readings is not None and reader is None:
        raise Refused(USAGE, "--readings needs --reader, by which the office knows who asks there")
    if reader is not None and not NAME.fullmatch(reader):
        raise Refused(USAGE, f"--reader '{reader}' is no name of settings")
    return Door(access, token, reader or "", journal or "-")
