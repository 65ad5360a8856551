"""Copies end: what a script that was cut off left, pruning, and the comparison of a copy (tests/service_scripts)."""
from __future__ import annotations

import os
import pathlib
import shutil
import subprocess
import time

from service_scripts.place import (NOBODY, OFFICE, SECONDS, Served, counted, made, mode_of, path_with, run, script,
                           text_of)
from kit.companions import companion
from kit.judging import judge
from kit.waiting import comes, next_second


def ends(folder: pathlib.Path) -> None:
    file = made(folder, "ends")
    leftovers(folder, file)
    paused(folder, file)
    pruned(folder, file)
    befores(file)
    scrubbed(folder, file)
    encrypted(folder)


def leftovers(folder: pathlib.Path, file: pathlib.Path) -> None:
    """A script that was cut off leaves its folder: the next removes it, and not that of one that is at work."""
    copies = folder / "left"
    copies.mkdir()
    os.chown(copies, NOBODY, NOBODY)
    goes, copying = folder / "goes", folder / "slow-cp/copying"
    slow = path_with(folder / "slow-cp", "cp", f": >{copying}\nwhile ! [ -e {goes} ]; do sleep 0.1; done\nexec /bin/cp \"$@\"")
    copying.parent.chmod(0o777)
    words = [companion("office-backup"), file, copies / "slow.db"]
    at_work = subprocess.Popen(words, user=NOBODY, group=NOBODY, extra_groups=[], stderr=subprocess.DEVNULL,
                               env={**os.environ, "PATH": slow, "OFFICE": OFFICE, "OFFICE_PAUSE": str(SECONDS)})
    comes(copying.exists)
    work = list(copies.glob(".office-backup.*"))
    for name, there in (("backup", copies), ("overdue", copies), ("restore", file.parent), ("compact", file.parent),
                        ("catalogue", copies)):
        left = there / f".office-{name}.abcdef"
        left.mkdir()
        (left / "office.db").write_bytes(text_of(1))
        os.chown(left, NOBODY, NOBODY)
        os.utime(left, (0, 0))
    for it in work:
        os.utime(it, (0, 0))
    other = copies / "city.copies"
    other.mkdir()
    os.utime(other, (0, 0))
    script("office-backup", file, copies / "next.db", user=NOBODY)
    judge("what a backup left that was cut off is gone, and not what is no script's",
          not (copies / ".office-backup.abcdef").exists() and other.is_dir())
    is_there = [each.exists() for each in work]
    goes.touch()
    judge("one that is at work beside it is left alone", is_there == [True] and at_work.wait(SECONDS) == 0
          and counted(copies / "slow.db", "records") == counted(file, "records"), work)
    script("office-overdue", file, copies, "2025-02-02", 30, user=NOBODY)
    script("office-restore", file, copies / "next.db", user=NOBODY)
    next_second()
    script("office-compact", file, user=NOBODY)
    script("office-catalogue", copies / "next.db", copies, user=NOBODY)
    judge("so is what each other script left", not [*copies.glob(".office-*"), *file.parent.glob(".office-*")],
          [it.name for it in (*copies.glob(".office-*"), *file.parent.glob(".office-*"))])


def paused(folder: pathlib.Path, file: pathlib.Path) -> None:
    """One deadline for all of the copying, room for it, and the disk has the copy at the end."""
    noted = folder / "synced"
    there = path_with(folder / "noting", "sync", f"echo \"$*\" >>{noted}\nexec /usr/bin/sync \"$@\"")
    script("office-backup", file, folder / "synced.db", PATH=there)
    judge("the copy and its folder are on the disk at the end", noted.exists() and [
        it.split("/")[-1] for it in noted.read_text().split("\n")] == ["office.db", folder.name, ""])
    served = Served(file)
    slow = path_with(folder / "slow-all", "cp", "sleep 2\nexec /bin/cp \"$@\"")
    path_with(folder / "slow-all", "cmp", "sleep 2\nexec /usr/bin/cmp \"$@\"")
    try:
        began = time.monotonic()
        status, _, error = script("office-backup", file, folder / "late.db", PATH=slow, OFFICE_PAUSE="3")
        took = time.monotonic() - began
        judge("one deadline is for all of the pause", status == 1 and "within 3 seconds" in error and took < 300
              and served.is_paused(False), f"{took:.0f} s; {error.strip()}")
        full = path_with(folder / "no-room", "stat",
                         "case $* in *%S*) echo '0 * 4096' ;; *) exec /usr/bin/stat \"$@\" ;; esac")
        status, _, error = script("office-backup", file, folder / "late.db", PATH=full)
        judge("without room nothing is paused and nothing copied", status == 1 and "no room" in error
              and not list(folder.glob("late.db*")), error.strip())
    finally:
        served.end()


def pruned(folder: pathlib.Path, file: pathlib.Path) -> None:
    """Of nine copies by age, two of them damaged; the newest good ones stay, however old."""
    run(OFFICE, "init", file, user=NOBODY)
    copies = folder / "backups/city"
    copies.mkdir(parents=True)
    names = [f"2020010{n}T023000Z.db" for n in range(1, 8)]
    hall = copies.parent / "city-hall-20200101T023000Z.db"
    before = copies.parent / "city-20190101T023000Z.db"
    for it in (*(copies / name for name in names), hall, before, copies / "by-hand.db"):
        shutil.copy(file, it)
    for it in (names[6], names[3]):
        (copies / it).write_bytes(file.read_bytes()[:9000])
    for it in (copies.parent, copies, *copies.parent.rglob("*.db")):
        os.chown(it, NOBODY, NOBODY)
    status, out, _ = script("office-prune", copies)
    judge("without a number of days nothing is removed", (status, out) == (0, "") and len(list(copies.iterdir())) == 8)
    status, out, error = script("office-prune", copies, BACKUP_DAYS="30", BACKUP_COPIES="x")
    judge("a setting that is no number removes nothing", status == 1 and len(list(copies.iterdir())) == 8,
          error.strip())
    status, out, error = script("office-prune", copies, BACKUP_DAYS="36500", BACKUP_COPIES="3")
    judge("what is young enough stays, and nothing is opened",
          (status, out) == (0, "") and len(list(copies.iterdir())) == 8)
    status, out, error = script("office-prune", copies, BACKUP_DAYS="30", BACKUP_COPIES="3")
    left = sorted(it.name for it in copies.iterdir())
    judge("three good ones stay, two that are damaged go, and the rest",
          left == [names[2], names[4], names[5], "by-hand.db"], left)
    judge("it says which are damaged, and fails", status == 1 and error.count("does not open") == 2, error.strip())
    judge("the copies of the earlier layout go, those of an office of a longer name stay",
          not before.exists() and hall.exists())
    stands = {it.name: it.read_bytes() for it in copies.iterdir()}
    status, out, error = script("office-prune", copies, BACKUP_DAYS="30", BACKUP_COPIES="3", user=NOBODY)
    judge("what stays is as it was, and another call removes nothing", (status, out) == (0, "")
          and {it.name: it.read_bytes() for it in copies.iterdir()} == stands
          and mode_of(copies / names[5])[1] == NOBODY, out + error)


def befores(file: pathlib.Path) -> None:
    """What a restore and a compaction put aside ends too; FILE under a second name does not."""
    for it in file.parent.glob("office.db.before-*"):
        it.unlink()
    old, young = "20200101T000000Z", time.strftime("%Y%m%dT%H%M%SZ", time.gmtime())
    for name in (old, f"{old}-wal", f"{old}.since", f"{old}.certificate-1", young):
        there = file.with_name(f"office.db.before-{name}")
        there.write_bytes(b"x" * 5000)
        os.chown(there, NOBODY, NOBODY)
    status, out, error = script("office-prune", file, BEFORE_DAYS="30")
    left = sorted(it.name.partition("before-")[2] for it in file.parent.glob("office.db.before-*"))
    judge("an old file goes with its log; its text and its certificates stay", status == 0
          and left == [f"{old}.certificate-1", f"{old}.since", young] and file.exists(), left)
    other = file.with_name("office.db.before-20200102T000000Z")
    os.link(file, other)
    whole = file.read_bytes()
    status, _, error = script("office-prune", file, BEFORE_DAYS="30")
    judge("FILE under a second name is left, and said", status == 1 and file.read_bytes() == whole and other.exists(),
          error.strip())
    other.unlink()


def scrubbed(folder: pathlib.Path, file: pathlib.Path) -> None:
    """A copy with one changed byte, which opens."""
    copies = folder / "scrubbed/city"
    copies.mkdir(parents=True)
    good, bad = copies / "20250101T023000Z.db", copies / "20250102T023000Z.db"
    shutil.copy(file, good)
    there = file.read_bytes()
    at = there.index(text_of(7)[:60]) + 30
    bad.write_bytes(there[:at] + bytes([there[at] ^ 1]) + there[at + 1:])
    for it in (copies.parent, copies, good, bad):
        os.chown(it, NOBODY, NOBODY)
    status, out, error = script("office-scrub", good)
    judge("a copy is as its digests say",
          (status, out.split("\n")[1]) == (0, f"contents compared: {counted(file, 'contents')}"), out + error)
    opened = folder / "opened.db"
    shutil.copy(bad, opened)
    judge("the office opens a copy with a changed byte", run(OFFICE, "init", opened)[0] == 0)
    status, out, error = script("office-scrub", copies)
    judge("of the folder the newest copy is compared, and the record named", status == 1 and f"copy: {bad}\n" in out
          and out.endswith("record 7: its content is not that of its digest\n"), out + error)
    bad.unlink()
    os.rename(good, copies.parent / "city-20250101T023000Z.db")
    status, out, error = script("office-scrub", copies, user=NOBODY)
    judge("a copy of the earlier layout is found", status == 0 and "city-20250101T023000Z.db" in out, out + error)
    status, _, error = script("office-scrub", folder / "none")
    judge("where there is none it says so", status == 3 and "there is no copy" in error, error.strip())


def encrypted(folder: pathlib.Path) -> None:
    """Copies are encrypted to a public key, each once, and end by a number of days of their own."""
    copies, there = folder / "encrypted/copies", folder / "encrypted/there"
    key, recipients = folder / "encrypted/key", folder / "encrypted/recipients"
    young = time.strftime("%Y%m%dT%H%M%SZ.db", time.gmtime())
    for own in (copies, there):
        own.mkdir(parents=True)
    for at, name in enumerate(("20200101T023000Z.db", "20200102T023000Z.db", young, "by-hand.db"), 1):
        (copies / name).write_bytes(text_of(at))
    run("age-keygen", "-o", key)
    recipients.write_text(run("age-keygen", "-y", key)[1])
    for own in (copies, there, *copies.iterdir(), recipients):
        os.chown(own, NOBODY, NOBODY)
    status, _, error = script("office-encrypt", copies, key, there)
    judge("a file that contains a private key is refused", status == 1 and not list(there.iterdir()), error.strip())
    status, out, error = script("office-encrypt", copies, recipients, there)
    names = sorted(each.name for each in there.iterdir())
    judge("each copy of the unit is encrypted, for the owner alone", status == 0 and out.count("encrypted: ") == 3
          and names == ["20200101T023000Z.db.age", "20200102T023000Z.db.age", f"{young}.age"]
          and {mode_of(each) for each in there.iterdir()} == {("0o600", NOBODY)}, out + error)
    whole = subprocess.run(["age", "--decrypt", "--identity", key, there / names[0]], capture_output=True, check=False)
    judge("the private key gives the copy back, and nothing of it can be read without", whole.stdout == text_of(1)
          and not any(b"MEDICAL" in each.read_bytes() for each in there.iterdir()), whole.stderr.decode())
    before = {each: each.stat().st_mtime_ns for each in there.iterdir()}
    status, out, _ = script("office-encrypt", copies, recipients, there, user=NOBODY)
    judge("another call encrypts nothing anew", (status, out) == (0, "")
          and before == {each: each.stat().st_mtime_ns for each in there.iterdir()})
    status, out, _ = script("office-encrypt", copies, recipients, there, ENCRYPTED_DAYS="30", BACKUP_COPIES="2")
    again = script("office-encrypt", copies, recipients, there, ENCRYPTED_DAYS="30", BACKUP_COPIES="2")
    judge("what is old goes, the newest ones stay, and what went is not made anew", (status, again[:2]) == (0, (0, ""))
          and sorted(each.name for each in there.iterdir()) == names[1:] and out.endswith(f"removed: {there / names[0]}\n"),
          out + again[1])
    recipients.write_text("age1none\n")
    (there / names[1]).unlink()
    status, _, error = script("office-encrypt", copies, recipients, there)
    judge("what is no public key is refused, and nothing is left of it", status == 1 and "not encrypted" in error
          and [each.name for each in there.iterdir()] == names[2:], error.strip())
