"""Mailboxes that change between two intakes: each mail is filed once, whatever comes, goes or moves."""
from __future__ import annotations

import base64
import http.client
import json
import pathlib
import random
from collections.abc import Callable

START = b"From a@example.org Thu Jan  1 00:00:00 2019\n"


def mail(number: int) -> bytes:
    """A mail of its own; some have no Message-ID, and some one that another has too."""
    own = b"" if number % 5 == 0 else b"Message-ID: <%d@example.org>\n" % (number if number % 7 else 7)
    return b"Subject: Mail %d\nDate: Wed, 05 Jun 2019 1:02:03 +0200\n%s\nLetter %d.\n" % (number, own, number)


def box(numbers: list[int]) -> bytes:
    return b"".join(START + mail(it) + b"\n" for it in numbers)


def shuffled(folder: pathlib.Path, take: Callable[[pathlib.Path], tuple[int, str, str]], titles: Callable[[], list[str]],
             same: Callable[..., object]) -> None:
    """Mails are taken out, moved within a box and to another, and new ones come: the set of records is that of all mails."""
    rng, place = random.Random(4), folder / "mails"
    place.mkdir()
    boxes: dict[str, list[int]] = {"in.mbox": [1, 2], "old.mbox": []}
    seen: set[int] = set()
    last, wrong = 2, []
    for step in range(12):
        for name, numbers in boxes.items():
            (place / name).write_bytes(box(numbers))
            seen.update(numbers)
        status, _, said = take(place)
        if status or "0 left out" not in said:
            wrong.append((step, status, said))
        for _ in range(rng.randrange(1, 4)):
            one, other = rng.sample(list(boxes.values()), 2)
            what = rng.randrange(4)
            if what == 0 and one:
                one.remove(rng.choice(one))
            elif what == 1 and one:
                other.insert(rng.randrange(len(other) + 1), one.pop(rng.randrange(len(one))))
            elif what == 2:
                rng.shuffle(one)
            last += 1
            one.insert(rng.randrange(len(one) + 1), last)
    for name, numbers in boxes.items():
        (place / name).write_bytes(box(numbers))
        seen.update(numbers)
    take(place)
    same("twelve intakes of mailboxes that change leave no mail out", wrong, [])
    same("and each mail is filed once", titles(), [f"Mail {it}" for it in sorted(seen)])
    (place / "in.mbox").write_bytes(box([*boxes["in.mbox"], boxes["in.mbox"][0]]))
    status, told, _ = take(place)
    same("a mail that lies in a box twice is one record", (status, "the same mail as" in told, titles()),
         (0, True, [f"Mail {it}" for it in sorted(seen)]))
    marked = next(it for it in [*boxes["in.mbox"], *boxes["old.mbox"]] if b"Message-ID" in mail(it))
    for name, numbers in boxes.items():
        (place / name).write_bytes(box(numbers).replace(b"Subject: Mail %d\n" % marked, b"Subject: Mail %d\nStatus: RO\n" % marked))
    status, told, _ = take(place)
    same("a mail that was marked as read since is not filed again", (status, told.count("refused 4"), titles()),
         (1, 1, [f"Mail {it}" for it in sorted(seen)]))
    forged(place, take, titles, same)
    journal = json.loads(place.with_name("mails.intake.json").read_text())
    same("the journal is of the form that has mails", sorted(journal), ["aggregations", "mails"])


def forged(place: pathlib.Path, take: Callable[[pathlib.Path], tuple[int, str, str]], titles: Callable[[], list[str]],
           same: Callable[..., object]) -> None:
    """Mails with one Message-ID: none of other bytes goes in silence."""
    first, marked = mail(91), mail(91).replace(b"\n\n", b"\nStatus: RO\nX-Keywords: seen\n\n", 1)
    subject, text = first.replace(b"Subject: Mail 91", b"Subject: Other 91"), first.replace(b"Letter 91", b"Reply 91").replace(b"Mail", b"Text")
    (place / "in.mbox").write_bytes(b"".join(START + each + b"\n" for each in (first, marked, subject, text)))
    (place / "old.mbox").write_bytes(b"")
    status, answers, errors = take(place)
    same("one with another text is filed too, one with marks is the same mail", ({"Mail 91", "Text 91", "Other 91"} & set(titles()),
         answers.count("in.mbox mail 2: the same mail as in.mbox mail 1")), ({"Mail 91", "Text 91"}, 1))
    same("and one with another header is named", (status, [line for line in errors.splitlines() if line.startswith("left out: ")]), (1, [
        "left out: in.mbox mail 3: it has the Message-ID and the text of in.mbox mail 1, and another header: the other is taken"]))


def act_of(number: int, place: int, aggregation: int) -> dict:
    """The act by which an earlier version filed a mail, with its place in the mailbox for a ref."""
    return {"act": "add-record", "day": "2024-03-01", "ref": f"OLD/in/{place:05}", "title": f"Mail {number}", "originated": "2019-06-05",
            "aggregation": aggregation, "class": None, "schedule": None, "content": base64.b64encode(mail(number)).decode()}


def posted(port: int, acts: list[dict]) -> list[dict]:
    conn = http.client.HTTPConnection("127.0.0.1", port)
    conn.request("POST", "/acts", json.dumps(acts), {"Content-Type": "application/json"})
    answers = json.loads(conn.getresponse().read())
    conn.close()
    return answers


def catalogue(folder: pathlib.Path, records: list[dict]) -> pathlib.Path:
    """The parts of a catalogue that have what an office reports."""
    folder.mkdir(exist_ok=True)
    rows = {"schedules": [], "classes": [], "holds": [], "aggregations": [{"number": 1, "ref": "OLD", "closed": None}],
            "records": [[it["number"], it["ref"], it["title"], it["aggregation"], "here"] for it in records]}
    for name, part in rows.items():
        (folder / f"{name}.json").write_text(json.dumps({"moment": "2024-03-01T00:00:00Z", name: part}))
    return folder


def earlier(folder: pathlib.Path, take: Callable[..., tuple[int, str, str]], port: int, records: Callable[[], list[dict]],
            same: Callable[..., object]) -> None:
    """A mailbox that an earlier version took in, with places for refs: none of its mails is filed again."""
    place, journal = folder / "old", folder / "old.intake.json"
    place.mkdir()
    numbers = posted(port, [{"act": "add-aggregation", "day": "2024-03-01", "ref": "OLD", "title": "Old", "parent": None,
                             "class": "PERMITS"}, *(act_of(it, it, 1) for it in (1, 2, 3))])
    same("an earlier version has filed three mails", ["number" in it for it in numbers], [True] * 4)
    journal.write_text(json.dumps({"OLD": 1}))
    (place / "in.mbox").write_bytes(box([3, 2, 4, 6]))
    status, _, said = take(place)
    same("without a catalogue nothing is filed", (status, "say --catalogue DIR once" in said, len(records())), (2, True, 3))
    there = catalogue(folder / "catalogue", records())
    status, told, _ = take(place, "--catalogue", there)
    same("with one those that are there are known, wherever they lie now", (status, told.count("same"), told.count("number")), (0, 2, 2))
    (place / "in.mbox").write_bytes(box([8, 6, 2, 1]))
    status, told, _ = take(place)
    wanted = sorted(["Mail 1", "Mail 2", "Mail 3", "Mail 4", "Mail 6", "Mail 8"])
    same("later ones need none, but for a mail that was away then", (status, told.count("same"), told.count("number"), sorted(
        it["title"] for it in records())), (0, 2, 2, sorted([*wanted, "Mail 1"])))
