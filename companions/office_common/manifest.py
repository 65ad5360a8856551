"""The manifest: the content of a record that names files in the vault, three lines for each, one group after another.

    SHA256 <64 lower-case hexadecimal digits>
    LENGTH <bytes, without leading zeros>
    PLACE <a name, which is shown and never opened>
"""
import re
from dataclasses import dataclass

from office_common.facts import LONGEST_CONTENT

MOST_BYTES = LONGEST_CONTENT
MOST_PLACE = 1024
LEAST_BYTES = 64
"""a shorter content names nothing, whatever it is"""
MOST_SLIP = 72
"""the longest run of hexadecimal digits in which each 64 of them may be the digest that was meant"""
GROUP = re.compile(r"SHA256 ([0-9a-f]{64})\nLENGTH (0|[1-9][0-9]{0,17})\nPLACE ([^\x00-\x1f\x7f-\x9f]+)\n")
RUN = re.compile(rb"[0-9a-f]{64,}")


@dataclass(frozen=True)
class Named:
    """A file that a manifest names."""

    digest: str
    length: int
    place: str

    def text(self) -> str:
        return f"SHA256 {self.digest}\nLENGTH {self.length}\nPLACE {self.place}\n"


def read(content: bytes) -> list[Named] | None:
    """Returns the files that a manifest names, or None if the content is no manifest."""
    if not LEAST_BYTES <= len(content) <= MOST_BYTES:
        return None
    try:
        text = content.decode()
    except UnicodeDecodeError:
        return None
    found, at = [], 0
    while at < len(text):
        group = GROUP.match(text, at)
        if group is None or len(group[3].encode()) > MOST_PLACE:
            return None
        found.append(Named(group[1], int(group[2]), group[3]))
        at = group.end()
    return found


def text_of(files: list[Named]) -> str:
    """Writes the manifest of these files, and refuses what would not read back as them."""
    text = "".join(it.text() for it in files)
    if read(text.encode()) != files:
        raise ValueError("these files make no manifest: a name is empty, too long or has control characters, or they "
                         "are too many")
    return text


@dataclass(frozen=True)
class Reading:
    """What a content keeps in the vault: digests with their lengths, and whether it is a whole manifest or none."""

    names: tuple[tuple[str, int | None], ...]
    is_sound: bool


def keeps(content: bytes) -> Reading:
    """Reads what a content keeps. What begins as a manifest and is none keeps each digest that it contains.

    So no slip in a manifest, and no form of a later version, costs an object; the check reports it.
    """
    files = read(content)
    if files is not None:
        return Reading(tuple({it.digest: (it.digest, it.length) for it in files}.values()), True)
    # also what an editor saved as UTF-16, or with a byte order mark
    plain = content.replace(b"\0", b"").lstrip(b" \t\r\n\v\f\xef\xbb\xbf\xff\xfe").lower()
    if not plain.startswith(b"sha256"):
        return Reading((), True)
    found = sorted({it for run in RUN.findall(plain) for it in digests_in(run.decode())})
    return Reading(tuple((it, None) for it in found), not found)


def digests_in(run: str) -> list[str]:
    """Returns what may be a digest in a run of hexadecimal digits. A long run is cut, from both of its ends."""
    if len(run) <= MOST_SLIP:
        return [run[at:at + 64] for at in range(len(run) - 63)]
    whole = len(run) // 64 * 64
    return [part[at:at + 64] for part in (run[:whole], run[-whole:]) for at in range(0, whole, 64)]
