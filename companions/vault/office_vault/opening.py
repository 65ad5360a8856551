"""Opens the office that a command names: an address or a socket at which it is served, FILE, or a folder of copies."""
import contextlib
from collections.abc import Iterator
from pathlib import Path

from office_common.errors import IMPOSSIBLE, Refused
from office_common.files import copies_in

from office_vault.asking import Served
from office_vault.copies import Copied, copy_of
from office_vault.offices import Office


@contextlib.contextmanager
def opened(place: str, work: Path, lines: dict[str, str]) -> Iterator[Office]:
    """Opens what a command names as the office: an address, a socket, FILE (it is copied now), or a folder of copies."""
    if place.startswith("http://") or Path(place).is_socket():
        yield Served(place, lines)
        return
    path = Path(place)
    if path.is_dir():
        copies = copies_in(path)
        if not copies:
            raise Refused(IMPOSSIBLE, f"there is no copy in {path}")
        with contextlib.closing(Copied(copies[-1])) as office:
            yield office
        return
    with copy_of(path, work) as copy, contextlib.closing(Copied(copy)) as office:
        yield office
