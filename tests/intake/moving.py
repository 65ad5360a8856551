"""A folder that a service empties: what is filed goes to one place, and what is not to another with its reason."""
from __future__ import annotations

import pathlib
from collections.abc import Callable

START = b"From a@example.org Thu Jan  1 00:00:00 2019\n"
Take = Callable[..., tuple[int, str, str]]


def files_in(folder: pathlib.Path) -> dict[str, str]:
    """The files below a folder with their texts, and its links."""
    return {each.relative_to(folder).as_posix(): each.read_text() for each in sorted(folder.rglob("*")) if not each.is_dir()}


def emptied(folder: pathlib.Path, take: Take, titles: Callable[[], list[str]], same: Callable[..., object]) -> None:
    """Files of all kinds come, some of them again."""
    came, done, look = (folder / each for each in ("in", "done", "look"))
    (came / "sub").mkdir(parents=True)
    (came / "a.txt").write_text("one")
    (came / "sub/b.eml").write_text("Subject: b\nDate: Tue, 31 Dec 2019 23:30:00 GMT\n\nA letter.\n")
    (came / "half.pdf").write_text("%PDF-1.4 half")
    (came / "open.txt").write_text("open")
    (came / "box.mbox").write_bytes(START + b"Subject: m\nDate: Wed, 05 Jun 2019 1:02:03 +0200\n\nA letter.\n\n" + START + b"Subject: n\n\nNo day.\n")
    box = (came / "box.mbox").read_text()
    with (came / "open.txt").open("a"):
        status, _, errors = take(came, done, look)
    same("what is filed goes to one folder", (sorted(files_in(done)), titles()), (["a.txt", "sub/b.eml"], ["a", "b", "m"]))
    seen = files_in(look)
    same("what is not goes to the other", (sorted(seen), seen.get("box.mbox")), (["box.mbox", "box.mbox.why.txt", "half.pdf", "half.pdf.why.txt"], box))
    same("with its reason", (seen["half.pdf.why.txt"], seen["box.mbox.why.txt"][:30], "to look at: 2 files" in errors, status), (
        "half.pdf: it is a PDF without its end: --cut takes it as it is\n", "box.mbox mail 2: it has no day", True, 1))
    same("a file that a program has open stays", files_in(came), {"open.txt": "open"})
    same("days of UTC are told", errors.count("days of UTC"), 1)
    again(came, done, look, take, titles, same)


def again(came: pathlib.Path, done: pathlib.Path, look: pathlib.Path, take: Take, titles: Callable[[], list[str]],
          same: Callable[..., object]) -> None:
    """The same files come again, as after a stop before they were moved, and one of the same name and other bytes."""
    (came / "a.txt").write_text("one")
    (done / "sub/b.eml").rename(came / "sub/b.eml")
    status, _, errors = take(came, done, look)
    same("what comes again is not filed again, and takes no other's place", (status, files_in(came), files_in(done).get("a.txt"),
         files_in(done).get("a-2.txt"), titles(), errors.count("days of UTC")), (0, {}, "one", "one", ["a", "b", "m", "open"], 0))
    (came / "a.txt").write_text("two")
    status, _, _ = take(came, done, look)
    same("other bytes under that name are to be looked at", (status, files_in(look).get("a.txt"), files_in(look).get("a.txt.why.txt")),
         (1, "two", "a.txt: the office refused it: 4\n"))
    same("and then nothing is left to do", (take(came, done, look)[0], files_in(came)), (0, {}))


def stuck(folder: pathlib.Path, take: Take, same: Callable[..., object]) -> None:
    """A file whose place nobody can write keeps none of the others."""
    came, done = folder / "stuck", folder / "done3"
    (came / "a").mkdir(parents=True)
    (came / "a/b.txt").write_text("one")
    (came / "c.txt").write_text("two")
    done.mkdir()
    (done / "a").write_text("no folder")
    status, _, errors = take(came, done, folder / "look3")
    same("a file that cannot be moved stays and is named, and the others are moved", (
        status, "a/b.txt cannot be moved: " in errors, sorted(files_in(came)), sorted(files_in(done))), (1, True, ["a/b.txt"], ["a", "c.txt"]))


def unreached(folder: pathlib.Path, take: Take, same: Callable[..., object]) -> None:
    """Nobody answers: each file stays."""
    came = folder / "waiting"
    came.mkdir()
    (came / "a.txt").write_text("one")
    status, _, _ = take(came, folder / "done2", folder / "look2")
    same("what did not come to the office stays", (status, files_in(came), (folder / "done2").exists(), (folder / "look2").exists()),
         (1, {"a.txt": "one"}, False, False))
    status, _, errors = take(came, came / "done", folder / "look2")
    same("a folder of filed ones in the folder that is filed is refused", (status, "would file what is in it" in errors), (2, True))
