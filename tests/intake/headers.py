"""Mails whose headers are broken: none of them stops an intake, and each file beside them is filed."""
from __future__ import annotations

import json
import pathlib
import random
import time
from collections.abc import Callable

GOOD = b"Subject: Letter %d\nDate: Wed, 05 Jun 2019 1:02:03 +0200\nMessage-ID: <%d@example.org>\n\nA letter.\n"
# each of these stopped a whole intake
BROKEN = {
    "base64 of one letter": b"Subject: =?utf-8?b?A?=\nDate: Wed, 05 Jun 2019 1:02:03 +0200",
    "a zone of 14 digits": b"Subject: a\nDate: Wed, 05 Jun 2019 1:02:03 +99999999999999",
    "a year of 20 digits": b"Subject: a\nDate: Wed, 05 Jun 20190000000000000000 1:02:03 +0200",
    "a codec that is no charset": b"Subject: =?zip?q?x?=\nDate: Wed, 05 Jun 2019 1:02:03 +0200",
    "a codec of domains": b"Subject: =?idna?q?=80?=\nDate: Wed, 05 Jun 2019 1:02:03 +0200",
    "half a character": b"Subject: =?raw_unicode_escape?q?\\ud800?=\nDate: Wed, 05 Jun 2019 1:02:03 +0200",
    "half a character in UTF-7": b"Subject: =?utf-7?q?+2AA-?=\nDate: Wed, 05 Jun 2019 1:02:03 +0200",
    "a charset with NUL": b"Subject: =?utf\0-8?q?x?=\nDate: Wed, 05 Jun 2019 1:02:03 +0200",
    "digits of 5,000": b"Subject: a\nDate: Wed, " + b"5" * 5000 + b" Jun 2019 1:02:03 +0200",
    "no header": b"",
    "bytes by chance": bytes(random.Random(5).randrange(256) for _ in range(3000)),
}
# those of them that have a day all the same, and their titles
FILED = {"base64 of one letter": "=?utf-8?b?A?=", "a codec that is no charset": "x", "a codec of domains": "\x80",
         "half a character": "\\ud800", "half a character in UTF-7": "+2AA-", "a charset with NUL": "x"}
PIECES = [b"=?utf-8?b?", b"=?utf-8?q?", b"=?a?q?_x", b"?=", b"=?", b"=?zlib?b?", b"=?utf-16?q?", b"=?iso-2022-jp?b?", b"=", b"\r\n ", b"\n\t",
          b"\0", b"\xff\xfe", b"\xed\xa0\x80", b"Date:", b"Subject:", b"Received:", b"Message-ID:", b"; ", b"+9999", b"-0000", b"31", b"Feb", b"Jun",
          b"2019", b"99999999999", b"\xe2\x80\xae", b"(", b")", b"<", b">", b"\"", b"@", b",", b"A", b" ", b"\n", b"\n\n", b":", b"\x1b[2J"]
FIELDS = (b"Subject", b"Date", b"Received", b"Message-ID", b"From", b"X")


def random_mail(rng: random.Random) -> bytes:
    """A mail whose header is made of pieces that readers of mails stumble over."""
    lines = [rng.choice(FIELDS) + b": " + b"".join(rng.choice(PIECES) for _ in range(rng.randrange(12)))
             for _ in range(rng.randrange(1, 7))]
    return b"\n".join(lines) + rng.choice((b"\n\nA letter.\n", b"", b"\r\n\r\n"))


def broken(folder: pathlib.Path, filed: Callable[[pathlib.Path], tuple[int, dict[str, str], str]], same: Callable[..., object]) -> None:
    """Each broken mail lies between two good ones, and so do some thousands that are made by chance."""
    place = folder / "each"
    for at, head in enumerate(BROKEN.values()):
        (place / str(at)).mkdir(parents=True)
        (place / f"{at}/a.eml").write_bytes(GOOD % (1, 1))
        (place / f"{at}/b.eml").write_bytes(head + b"\n\nA letter.\n")
        (place / f"{at}/c.eml").write_bytes(GOOD % (2, 2))
    status, titles, said = filed(place)
    for at, name in enumerate(BROKEN):
        same(f"beside a mail with {name} the others are filed", (titles.get(f"{at}/a.eml"), titles.get(f"{at}/c.eml")),
             ("Letter 1", "Letter 2"))
        wanted = FILED[name].replace("\x80", "").strip() or "b" if name in FILED else None
        same(f"and that mail is filed, or named as left out ({name})",
             (titles.get(f"{at}/b.eml"), f"left out: {at}/b.eml: " in said), (wanted, wanted is None))
    same("some were left out", status, 1)
    rng, place = random.Random(20261129), folder / "many"
    place.mkdir()
    for at in range(3000):
        (place / f"m{at:04}.eml").write_bytes(random_mail(rng))
    for at in range(0, 3000, 100):
        (place / f"m{at:04}_good.eml").write_bytes(GOOD % (at, at))
    box = b"".join(b"From a@example.org Thu Jan  1 00:00:00 2019\n" + random_mail(rng).replace(b"\nFrom ", b"\n>From ") + b"\n" for _ in range(500))
    (place / "post.mbox").write_bytes(box + b"From a@example.org Thu Jan  1 00:00:00 2019\n" + GOOD % (3000, 3000))
    status, titles, said = filed(place)
    good = {f"m{at:04}_good.eml": f"Letter {at}" for at in range(0, 3000, 100)}
    same("beside 3,500 mails made by chance each good one is filed", ({it: titles.get(it) for it in good}, "Letter 3000" in titles.values()),
         (good, True))
    named = {it.split(": ")[1] for it in said.splitlines() if it.startswith("left out: ")}
    mails = {f"m{at:04}.eml" for at in range(3000)}
    same("and each of the others is filed or named", (mails <= named | set(titles), status in (0, 1), "Traceback" in said), (True, True, False))


def seconds(mail_of: Callable[[bytes], object], same: Callable[..., object]) -> None:
    """A subject of 64 KB that looks like words of many charsets takes no more time than it has bytes."""
    spent = []
    for size in (16_000, 64_000):
        data = b"Date: Wed, 05 Jun 2019 1:02:03 +0200\nSubject: " + b"=?a?q?_x" * (size // 8) + b"\n\n"
        start = time.process_time()
        mail_of(data)
        spent.append(time.process_time() - start)
    same("the time for a long subject grows with its length at most", spent[1] < 6 * max(spent[0], 0.05), True)


def days(folder: pathlib.Path, filed: Callable[..., tuple[int, dict[str, str], str]], same: Callable[..., object]) -> None:
    """A day of the sender that is far from that of the server is named."""
    place = folder / "days"
    place.mkdir()
    received = b"Received: from a by b; Tue, 2 Jan 2024 10:00:00 +0100\nReceived: from c by a; Fri, 5 Jan 1990 10:00:00 +0100\n"
    for name, day in (("old", b"Mon, 1 Jan 1990 10:00:00 +0000"), ("near", b"Mon, 1 Jan 2024 10:00:00 +0000")):
        (place / f"{name}.eml").write_bytes(received + b"Subject: " + name.encode() + b"\nDate: " + day + b"\n\nA letter.\n")
    status, titles, said = filed(place)
    lines = [it for it in said.splitlines() if it.startswith("look at ")]
    same("a mail whose sender has another day than the server is one to look at", (status, sorted(titles), lines), (
        0, ["BP", "near.eml", "old.eml"], ["look at old.eml: by its sender it is of 1990-01-01, and it was received on 2024-01-02: "
                                     "--mail-day received takes that day"]))
    filed(place, "--mail-day", "received")
    acts = json.loads(place.with_name("days.json").read_text())
    same("with the day of the server both are of that", [it["originated"] for it in acts if it["act"] == "add-record"], ["2024-01-02"] * 2)
