"""Gets the certificates of an office, one after another, and keeps each as a file beside the office."""
import hashlib
import pathlib
import re
import time

from office_common import files
from office_common.client import Client
from office_common.errors import IMPOSSIBLE, WRONG, NoAnswer, Refused

SECONDS = 300
DAY = 86_400
NAME = re.compile(r"certificate-([1-9][0-9]{0,9})\.txt")
LAST = len(b"SHA256 \n") + 64
ADVICE = ("was a backup restored, or was FILE changed by somebody else? Find out which, with the text that is kept; "
          "only after a restore: office-seal fetch --restored, and office-seal sign --restored")


def kept(folder: pathlib.Path) -> dict[int, pathlib.Path]:
    """Returns the certificates in a folder, by their numbers in order."""
    files = {int(name[1]): it for it in folder.iterdir() if (name := NAME.fullmatch(it.name))}
    return dict(sorted(files.items()))


def certificate(place: str, number: int) -> bytes | None:
    """Asks the office for a certificate; None if it has none of this number."""
    try:
        answer = Client(place, SECONDS).ask("GET", f"/certificates/{number}")
    except NoAnswer as why:
        raise Refused(IMPOSSIBLE, f"the office at {place} does not answer: {why}") from why
    body = answer.body
    if answer.status == 404 and body == b'{"error":"certificate"}':
        return None
    if answer.status != 200:
        raise Refused(IMPOSSIBLE, f"the office answers {answer.status} for certificate {number}")
    last = f"SHA256 {hashlib.sha256(body[:-LAST]).hexdigest()}\n".encode()
    if not body.startswith(f"CERTIFICATE {number}\n".encode()) or body[-LAST:] != last:
        raise Refused(WRONG, f"certificate {number} of the office is not the one that its last line seals")
    return body


def fetch(place: str, folder: pathlib.Path, is_restored: bool) -> int:
    """Keeps each certificate that is missing, and returns how many. The position is the last one that is there.

    The office must still have that one with the same bytes. After a restore, and only with the word for it, all are
    compared, and those that the office has no more are taken out: their seals keep them.
    """
    with files.locked(folder):
        there = kept(folder)
        last = max(there, default=0)
        if last and not is_restored and certificate(place, last) != there[last].read_bytes():
            raise Refused(WRONG, f"the office has another certificate {last} than {there[last]}, or has it no more: "
                                 f"{ADVICE}")
        number, new = (0 if is_restored else last) + 1, 0
        while (text := certificate(place, number)) is not None:
            if number not in there or there[number].read_bytes() != text:
                files.write(folder / f"certificate-{number}.txt", text)
                new += 1
            number += 1
        for beyond in (it for it in there if it >= number):
            there[beyond].unlink()
        files.sync(folder)
        return new


def check_sealed(certificates: pathlib.Path, seals: pathlib.Path) -> None:
    """Refuses a certificate that is kept for more than a day without a seal, if the office has ever sealed one."""
    sealed = {int(name[1]) for it in seals.glob("[0-9]*/certificate-*.txt") if (name := NAME.fullmatch(it.name))}
    old = time.time() - DAY
    late = [number for number, file in kept(certificates).items() if number not in sealed and file.stat().st_mtime < old]
    if sealed and late:
        raise Refused(WRONG, f"certificate {late[0]} is here for more than a day and has no seal ({len(late)} in all): see "
                             "why the unit office-seal@ does not seal it")
