"""Compares the certificates of a bag with the seals in it, and has office-verify judge the seals."""
import re
import subprocess
from collections.abc import Iterator
from pathlib import Path

from office_common.errors import IMPOSSIBLE, Refused

from office_exchange import bag, commands

SEALED = re.compile(r"certificate-([1-9][0-9]*)\.txt")


def sealed(folder: Path) -> Iterator[tuple[int, Path]]:
    """Lists the sealed texts of certificates with their numbers, the oldest seal first."""
    for name, _ in bag.walk(folder):
        if match := SEALED.fullmatch(Path(name).name):
            yield int(match[1]), folder / name


def compare(folder: Path, signers: Path | None) -> list[str]:
    """Compares each certificate with the last text that was sealed of its number. Returns what is not proved."""
    place, seals = folder / "data/certificates", folder / "data/seals"
    numbers = {int(file.stem) for file in place.glob("*.txt") if file.stem.isdecimal()} if place.is_dir() else set()
    if not numbers:
        return []
    if not seals.is_dir():
        return [f"certificates: {len(numbers)}, taken on the word of the bag, since it has no seals"]
    last = dict(sealed(seals))
    for number in sorted(set(last) | numbers):
        if number in last and number not in numbers:
            raise bag.differs(f"certificate {number} is sealed, and is not in the bag")
        if number in last and last[number].read_bytes() != (place / f"{number}.txt").read_bytes():
            raise bag.differs(f"certificate {number} is not the sealed one")
    notes = [f"certificates without a seal: {len(numbers - set(last))}"] if numbers - set(last) else []
    if signers is None:
        return [*notes, "the seals are not verified: --signers FILE names the keys that may sign"]
    verify(seals, signers)
    return notes


def verify(seals: Path, signers: Path) -> None:
    """Has office-verify judge the seals."""
    command = [commands.path_of("office-verify"), str(seals), str(signers), "--quiet"]
    done = subprocess.run(command, stdin=subprocess.DEVNULL, capture_output=True, text=True, check=False)
    if done.returncode == 1:
        raise bag.differs(f"office-verify: {done.stdout.splitlines()[0]}")
    if done.returncode:
        raise Refused(IMPOSSIBLE, f"the seals are not verified: {done.stderr.strip()}")
