"""Folders whose manifests are right and whose files are not: each is refused, with its place, and nothing is made."""
from __future__ import annotations

import json
import os
import pathlib
import re
from collections.abc import Callable
from typing import Any, NamedTuple

from kit.commands import OFFICE
from kit.judging import judge, same
from place import back, back_here, copied, digest, judge_refused, names_in, seal, small_bag, unjudging

Change = Callable[[pathlib.Path], object]


class Case(NamedTuple):
    """A name, what is changed in a folder, what the message names, and whether the program has to judge it."""

    name: str
    change: Change
    parts: tuple[str, ...]
    is_judged: bool = False


def edited(name: str, edit: Callable[[bytes], bytes]) -> Change:
    """Changes the bytes of a file."""
    def change(bag: pathlib.Path) -> None:
        path = bag / "data" / name
        before = path.read_bytes()
        path.write_bytes(edit(before))
        assert path.read_bytes() != before, name
    return change


def replaced(name: str, old: str, new: str) -> Change:
    """Replaces the first text that matches."""
    return edited(name, lambda data: re.sub(old.encode(), new.encode(), data, count=1))


def member(name: str, line: int, **members: Any) -> Change:
    """Changes members of a line, which is written as the form wants it."""
    def edit(data: bytes) -> bytes:
        lines = data.splitlines()
        value = {**json.loads(lines[line]), **members}
        lines[line] = json.dumps(value, ensure_ascii=False, sort_keys=True, separators=(",", ":")).encode()
        return b"".join(each + b"\n" for each in lines)
    return edited(name, edit)


def lines(name: str, edit: Callable[[list[bytes]], list[bytes]]) -> Change:
    """Changes the list of the lines of a file."""
    return edited(name, lambda data: b"".join(each + b"\n" for each in edit(data.splitlines())))


def certificate(old: str, new: str) -> Change:
    """Changes certificate 1, and its last line so that it fits."""
    def edit(data: bytes) -> bytes:
        body = re.sub(old.encode(), new.encode(), data.rpartition(b"SHA256 ")[0], count=1)
        return body + f"SHA256 {digest(body)}\n".encode()
    return edited("certificates/1.txt", edit)


def removed(pattern: str) -> Change:
    """Removes the first file that matches."""
    return lambda bag: next(iter(sorted(path for path in (bag / "data").glob(pattern) if path.is_file()))).unlink()


def added(name: str, data: bytes = b"x\n") -> Change:
    def change(bag: pathlib.Path) -> None:
        path = bag / "data" / name
        path.parent.mkdir(parents=True, exist_ok=True)
        path.write_bytes(data)
    return change


SECOND = "data/records.jsonl, line 2"
LINES = (
    Case("a space in a line", replaced("records.jsonl", '":', '": '), ("records.jsonl, line 1", "not written as")),
    Case("members in another order", replaced("classes.jsonl", r'\{("code":"[^"]*"),("schedule":"[^"]*")', r"{\2,\1"),
         ("classes.jsonl, line 1", "not written as")),
    Case("a letter that is escaped", replaced("classes.jsonl", '"title":"(.)', r'"title":"\\u0041'), ("classes.jsonl, line 1",)),
    Case("no line feed at the end", edited("runs.jsonl", lambda data: data[:-1]), ("runs.jsonl, line 2",)),
    Case("a line feed of Windows", edited("runs.jsonl", lambda data: data.replace(b"\n", b"\r\n")), ("runs.jsonl, line 1",)),
    Case("an empty line", lines("runs.jsonl", lambda every: [*every, b""]), ("runs.jsonl, line 3",)),
    Case("a byte order mark", edited("runs.jsonl", lambda data: b"\xef\xbb\xbf" + data), ("runs.jsonl, line 1",)),
    Case("bytes that are no text", edited("runs.jsonl", lambda data: data.replace(b'"by":"', b'"by":"\xff', 1)), ("runs.jsonl, line 1",)),
    Case("half of a pair of UTF-16", replaced("runs.jsonl", '"by":"', r'"by":"\\ud800'), ("runs.jsonl, line 1",)),
    Case("lists without end", added("runs.jsonl", b"[" * 60000 + b"\n"), ("runs.jsonl, line 1",)),
    Case("a list in place of an object", added("runs.jsonl", b"[]\n"), ("runs.jsonl, line 1",)),
    Case("a line without end", added("runs.jsonl", b"{" + b" " * 200_000 + b"}\n"), ("runs.jsonl, line 1",)),
    Case("a number of many digits", replaced("runs.jsonl", '"number":1', f'"number":{"9" * 5000}'), ("runs.jsonl, line 1",)),
    Case("a member twice", replaced("runs.jsonl", '"number":1', '"number":1,"number":1'), ("runs.jsonl, line 1",)),
    Case("a member more", member("records.jsonl", 1, note="x"), (SECOND, "members")),
    Case("a member less", replaced("runs.jsonl", ',"number":1', ""), ("runs.jsonl, line 1", "members")),
    Case("a fraction", member("records.jsonl", 1, length=1.5), (SECOND, "length is 1.5")),
    Case("a true number", member("records.jsonl", 1, aggregation=True), (SECOND, "aggregation is True")),
    Case("a length below zero", member("records.jsonl", 1, length=-1), (SECOND, "length is -1")),
    Case("a day of no calendar", member("records.jsonl", 1, added="2023-02-30"), (SECOND, "added is '2023-02-30'")),
    Case("a day without hyphens", member("records.jsonl", 1, added="20230228"), (SECOND, "added is")),
    Case("a day that is a number", member("records.jsonl", 1, added=5), (SECOND, "added is 5")),
    Case("a keyword that is none", member("records.jsonl", 1, status="HERE"), (SECOND, "status is 'HERE'")),
    Case("a code with a space", member("records.jsonl", 1, **{"class": "A B"}), (SECOND, "class is 'A B'")),
    Case("a code that ends in a line feed", member("classes.jsonl", 1, schedule="A\n"), ("classes.jsonl, line 2", "schedule is")),
    Case("a text of 201 bytes", member("records.jsonl", 1, title="é" * 100 + "x"), (SECOND, "title is")),
    Case("half of a review", member("records.jsonl", 1, review={"day": "2024-01-02", "by": None}), (SECOND, "by is None")),
    Case("a length that is not that of the content", replaced("records.jsonl", '"length":[0-9]+(?=[^\n]*"status":"here")', '"length":1'),
         ("the bag has not the content of record",)),
    Case("a digest in capitals", member("records.jsonl", 1, digest="A" * 64), (SECOND, "digest is")),
    Case("a number twice", lines("aggregations.jsonl", lambda every: [every[0], *every]), ("those of no office",)),
    Case("a ref twice", lines("aggregations.jsonl", lambda every: [*every, every[0].replace(b'"number":1,', b'"number":999,')]),
         ("those of no office", "aggregations.ref")),
)
ROWS = (
    Case("a record that is gone", lines("records.jsonl", lambda every: [*every[:1], *every[2:]]), ("office: fault 33",), True),
    Case("a target of no record", lines("targets.jsonl", lambda every: [
        *every, every[-1].replace(b'"target":"', b'"target":"9999')]), ("office: fault 33",), True),
    Case("a day after the office's day", member("office.json", 0, day="2001-01-01"), ("office: fault 33",), True),
    Case("a title with a tab", member("records.jsonl", 1, title="a\tb"), ("office: fault 33",), True),
)
BYTES = (
    Case("lines in another order", lines("records.jsonl", lambda every: every[::-1]), ("data/records.jsonl", "other bytes")),
    Case("targets in another order", lines("targets.jsonl", lambda every: every[::-1]), ("data/targets.jsonl", "other bytes")),
    Case("counts that do not fit", replaced("office.json", '"records":[0-9]+', '"records":1'), ("data/office.json", "other bytes")),
    Case("a content that nobody names", lambda bag: added(f"contents/2d/{digest(b'x' + bytes([10]))}")(bag) or rename(bag),
         ("has what would not be in it", "data/contents/")),
    Case("a file that nobody names", lambda bag: added(f"files/{digest(b'y')[:2]}/{digest(b'y')}", b"y")(bag),
         ("has what would not be in it", "data/files/")),
    Case("a certificate of no run", added("certificates/99.txt"), ("office: fault 33",), True),
    Case("a certificate with another name", lambda bag: (bag / "data/certificates/1.txt").rename(bag / "data/certificates/01.txt"),
         ("certificate 1: it is missing",)),
    Case("a certificate by no number", added("certificates/x.txt"), ("data/certificates/x.txt is no certificate",)),
    Case("a file of no kind", added("notes.txt"), ("has what would not be in it", "data/notes.txt")),
    Case("another page", lambda bag: (bag / "README.txt").write_text("x"), ("README.txt",)),
    Case("another schema", lambda bag: (bag / "schema.json").write_text("{}"), ("schema.json",)),
    Case("another description", lambda bag: (bag / "bag-info.txt").write_text("Bagging-Date: 2000-01-01\n"), ("bag-info.txt",)),
    Case("a content that is missing", removed("contents/*/*"), ("the bag has not the content of record",)),
    Case("lines that are missing", removed("events.jsonl"), ("the bag has no data/events.jsonl",)),
    Case("another form", member("office.json", 0, form="office-backup"), ("of the form office-backup 1",)),
    Case("a later form", member("office.json", 0, version=2), ("of the form office-export 2",)),
    Case("an office with a member more", member("office.json", 0, note=1), ("data/office.json has other members",)),
)
CERTIFICATES = (
    Case("a certificate by somebody else", certificate("\nBY [^\n]*", "\nBY Somebody Else"), ("certificate 1", "BY Somebody Else")),
    Case("a certificate of another day", certificate("\nDAY 2", "\nDAY 3"), ("certificate 1", "DAY 3")),
    Case("an entry of a certificate that was confirmed by another", certificate("(ENTRY\t[^\n]*\t)[^\t\n]+(\t[0-9]+\t)", r"\1Forger\2"),
         ("certificate 1", "Forger")),
    Case("a certificate with an entry less", certificate("ENTRY\t[^\n]*\n", ""), ("certificate 1",)),
    Case("a certificate with an aggregation more", certificate("SPENT [0-9]+\n", "SPENT 1\nAGGREGATION\t1\tX\n"), ("certificate 1",)),
    Case("a certificate with another count", certificate("SPENT [0-9]+", "SPENT 77"), ("certificate 1", "SPENT 77")),
    Case("a certificate whose last line is of another text", edited("certificates/1.txt", lambda data: data[:-66] + b"0" * 65 + b"\n"),
         ("certificate 1", "last line")),
    Case("a certificate that goes on", edited("certificates/1.txt", lambda data: data + b"x\n"), ("certificate 1", "last line")),
    Case("a certificate that is no text", edited("certificates/1.txt", lambda data: b"\xff" + data), ("certificate 1: it is no text",)),
    Case("an entry that is gone", lines("entries.jsonl", lambda every: every[1:]), ("certificate 1",)),
    Case("an entry that was confirmed by another", replaced("entries.jsonl", '"confirmed_by":"[^"]*"', '"confirmed_by":"Forger"'),
         ("certificate 1", "Forger")),
    Case("a run that was opened by another", replaced("runs.jsonl", '"by":"[^"]*"', '"by":"Forger"'), ("certificate 1", "Forger")),
    Case("a digest of an ended record", replaced("records.jsonl", '"digest":"[0-9a-f]{4}(?=[^\n]*"status":"ended")', '"digest":"0000'),
         ("certificate 1",)),
)


def rename(bag: pathlib.Path) -> None:
    """Gives a content the folder that its digest wants."""
    path = next((bag / "data/contents").glob(f"2d/{digest(b'x' + bytes([10]))}"))
    (bag / f"data/contents/{path.name[:2]}").mkdir(exist_ok=True)
    path.rename(bag / f"data/contents/{path.name[:2]}/{path.name}")


MANIFESTS: tuple[tuple[str, Change, str], ...] = (
    ("a link", lambda bag: (bag / "data/runs2.jsonl").symlink_to("runs.jsonl"), "data/runs2.jsonl is no file"),
    ("a link to a folder", lambda bag: (bag / "data/other").symlink_to(bag / "data"), "data/other is no file"),
    ("a pipe", lambda bag: os.mkfifo(bag / "data/pipe"), "data/pipe is no file"),
    ("a file outside of the folder", lambda bag: manifest(bag, "data/z/../../../etc/passwd"), "data/z/../../../etc/passwd is missing"),
    ("a file of the machine", lambda bag: manifest(bag, "/etc/passwd"), "no line of a manifest"),
    ("a file twice", lambda bag: manifest(bag, "data/runs.jsonl"), "no line of a manifest"),
    ("a file that no manifest has", lambda bag: (bag / "data/extra").write_text("x"), "no manifest has data/extra"),
    ("no manifest", lambda bag: (bag / "manifest-sha256.txt").unlink(), "it has no manifest-sha256.txt"),
    ("no declaration", lambda bag: (bag / "bagit.txt").unlink(), "it has no bagit.txt"),
    ("another declaration", lambda bag: (bag / "bagit.txt").write_text("BagIt-Version: 0.97\n"), "bagit.txt"),
    ("a name that is another digest", lambda bag: misnamed(bag), "is not named by its SHA-256"),
)


def manifest(bag: pathlib.Path, name: str) -> None:
    """Puts a name into the manifest, at the end, and makes the manifest of tags fit."""
    path = bag / "manifest-sha256.txt"
    path.write_text(path.read_text() + f"{'0' * 64}  {name}\n")
    text = (bag / "tagmanifest-sha256.txt").read_text()
    fits = f"{digest(path.read_bytes())}  manifest-sha256.txt"
    (bag / "tagmanifest-sha256.txt").write_text(re.sub("[0-9a-f]{64}  manifest-sha256.txt", fits, text))


def misnamed(bag: pathlib.Path) -> None:
    """Swaps two contents, with manifests that fit."""
    one, two = sorted((bag / "data/contents").glob("*/*"))[:2]
    first, second = one.read_bytes(), two.read_bytes()
    one.write_bytes(second)
    two.write_bytes(first)
    seal(bag)


def forged(folder: pathlib.Path) -> None:
    bag, program = small_bag(folder), unjudging(folder)
    work = folder / "work"
    work.mkdir()
    for case in (*LINES, *BYTES, *CERTIFICATES, *ROWS):
        wrong = copied(bag, folder / "wrong")
        case.change(wrong)
        seal(wrong)
        own = OFFICE if case.is_judged else program
        judge_refused(case.name, back_here(wrong, work / "new.db", program=own), *case.parts)
        same(f"what is left of {case.name}", names_in(work), [])
    for name, change, part in MANIFESTS:
        wrong = copied(bag, folder / "wrong")
        change(wrong)
        judge_refused(name, back_here(wrong, work / "new.db", program=program), part)
    judge_refused("the last one by the command", back(wrong, work / "new.db", OFFICE=program), MANIFESTS[-1][2])
    judge("the folder as it is comes back by that program too", back(bag, work / "new.db", OFFICE=program).status == 0)
