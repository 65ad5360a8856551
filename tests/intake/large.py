"""Mailboxes and mails of any size: what a mail takes is bounded, and small ones are read as they always were."""
from __future__ import annotations

import hashlib
import io
import mailbox
import pathlib
import random
import re
import time
import tracemalloc
from collections.abc import Callable

import headers
from intaking.files import Left, documents
from intaking.folders import Aggregation
from intaking.mails import fields_of, identity_of, mail_of
from intaking.records import Asked, Record, record_of

START = b"From a@example.org Thu Jan  1 00:00:00 2019\n"
HEAD = b"Subject: A letter\nDate: Wed, 05 Jun 2019 1:02:03 +0200\nMessage-ID: <a@example.org>\n"
MEGABYTE = 1_048_576
PIECES = [START, b"From \n", b"From x", b"\n", b"\n", b"\r\n", b"text\n", b"text", b">From a\n", b" From a\n", b"\nFrom a\n", b"x" * 65_533,
          b"From " + b"y" * 70_000, b"\r", b"\0"]


class Held:
    """Stands for a vault, and reads what is put into it piece by piece."""

    def __init__(self) -> None:
        self.length = 0

    def put(self, opened: Callable[[], io.BufferedIOBase], _name: str) -> bytes:
        with opened() as file:
            while piece := file.read(MEGABYTE):
                self.length += len(piece)
        return b"named"


def records_in(place: pathlib.Path, vault: Held | None) -> list[Record]:
    options = Asked("2024-03-01", "{name}", None, False, vault, settle=0)
    return [record_of(each, {".": Aggregation("BP", "", None, None)}, {"BP": 1}, options) for each in documents(place, [])]


def memory(folder: pathlib.Path, same: Callable[..., object]) -> None:
    """A mail of 64 MB, and one whose single line has 64 MB, lie before a small one."""
    (folder / "boxes").mkdir()
    with (folder / "boxes/in.mbox").open("wb") as file:
        file.write(START + HEAD + b"\n" + b"A line of a long letter.\n" * (64 * MEGABYTE // 25))
        file.write(b"\n" + START + HEAD + b"\n" + b"x" * 64 * MEGABYTE)
        file.write(b"\n\n" + START + HEAD + b"\nA small one.\n")
    held = Held()
    tracemalloc.start()
    records = records_in(folder / "boxes", held)
    for record in records:
        record.made({"BP": 1})
    peak = tracemalloc.get_traced_memory()[1]
    tracemalloc.stop()
    same("three mails are made records, the large ones by the vault", (len(records), held.length > 127 * MEGABYTE), (3, True))
    same("no mail takes more than some megabytes of memory", peak < 12 * MEGABYTE, True)


def seconds(same: Callable[..., object]) -> None:
    """Headers of 256 KB that make a careless reader take the square of that, or nest for ever."""
    nested = b"".join(b"Content-Type: multipart/mixed; boundary=b%d\n\n--b%d\n" % (at, at) for at in range(5000))
    for name, data in {"130,000 fields": b"a:\n" * 87_000, "a field of 65,000 lines": b"Subject: a\n" + b" b\n" * 65_000 + b"Date: x\n",
                       "5,000 multiparts": HEAD + nested, "a date of parentheses": b"Date: " + b"(" * 250_000,
                       "a subject of charsets": b"Subject: " + b"=?utf-8?q?=" * 24_000, "one name without an end": b"a" * 262_144,
                       "a Received of semicolons": b"Received: " + b";" * 250_000}.items():
        start = time.process_time()
        mail_of(data[:262_144])
        identity_of(data[:262_144], io.BytesIO(data))
        same(f"a mail with {name} is read within three seconds", time.process_time() - start < 3, True)


def identity_before(data: bytes) -> str:
    """The identity as it was when each mail was read whole: mails that are filed have refs of it."""
    own = fields_of(data).get("message-id", "").strip()
    body = re.split(rb"\r?\n\r?\n", data, maxsplit=1)[-1]
    return hashlib.sha256((own.encode() + b"\0" + body if own else data).rstrip(b"\r\n")).hexdigest()[:16]


def as_before(folder: pathlib.Path, same: Callable[..., object]) -> None:
    """Mails and mailboxes made by chance are read as Python's library reads them, and have the refs that they had."""
    rng, place = random.Random(11), folder / "chance"
    place.mkdir()
    other = []
    for _ in range(4000):
        data = rng.choice((headers.random_mail(rng), HEAD + b"".join(rng.choices(PIECES[3:9], k=rng.randrange(9))),
                           b"".join(rng.choices([b"\n", b"\r\n", b"\r", b"a", b"Message-ID: <b>"], k=rng.randrange(9)))))
        if identity_of(data, io.BytesIO(data)) != identity_before(data):
            other.append(data)
    same("each mail has the identity that it had", other, [])
    for at in range(400):
        (place / f"{at:03}.mbox").write_bytes(b"".join(rng.choices(PIECES, k=rng.randrange(12))))
    left: list[Left] = []
    read: dict[str, list[bytes]] = {}
    for document in documents(place, left):
        read.setdefault(document.path.name, []).append(document.data())
    boxes = {file.name: mailbox.mbox(file, create=False) for file in sorted(place.iterdir())}
    wanted = {name: [box.get_bytes(key) for key in range(len(box))] for name, box in boxes.items() if len(box)}
    same("each mailbox has the mails that Python finds in it", [each for each in wanted if wanted[each] != read.get(each)] + sorted(read.keys() - wanted), [])
    unnamed = [file.name for file in sorted(place.iterdir()) if re.match(rb"\s*(?!From )\S", file.read_bytes())
               and not any(each.name == file.name and "are no mail" in each.why for each in left)]
    same("and what stands before the first mail is named", unnamed, [])
