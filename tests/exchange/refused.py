"""Files and folders that are there, open, old or none, and arguments that mean nothing: nothing is made."""
from __future__ import annotations

import pathlib
import shutil
import sqlite3

from kit.commands import run
from kit.companions import companion
from kit.judging import judge, same
from kit.office import Office
from place import back, digest, export, files_in, judge_refused, names_in, small, small_bag, unjudging


def wrong(folder: pathlib.Path) -> None:
    bag, file = small_bag(folder), folder / "office.db"
    places(folder, bag)
    copies(folder, file)
    arguments(folder, bag)
    foreign(folder, file)
    damaged(folder, file)


def places(folder: pathlib.Path, bag: pathlib.Path) -> None:
    """Nothing that is there is replaced."""
    program, place = unjudging(folder), folder / "place"
    for name, make in (("a file", lambda path: path.write_bytes(b"x")), ("an empty file", lambda path: path.touch()),
                       ("a folder", lambda path: path.mkdir()), ("a link to nothing", lambda path: path.symlink_to("none"))):
        place.mkdir()
        make(place / "new.db")
        before = [(path.name, path.lstat().st_ino, path.lstat().st_mtime_ns) for path in place.iterdir()]
        judge_refused(f"FILE is {name}", back(bag, place / "new.db", OFFICE=program), "is there already")
        same(f"{name} is as it was", [(path.name, path.lstat().st_ino, path.lstat().st_mtime_ns) for path in place.iterdir()], before)
        shutil.rmtree(place)
    for end in ("-wal", "-shm", "-journal"):
        place.mkdir()
        (place / f"new.db{end}").write_bytes(b"x")
        judge_refused(f"FILE{end} is there", back(bag, place / "new.db", OFFICE=program), f"new.db{end} is there")
        same(f"beside FILE{end}", names_in(place), [f"new.db{end}"])
        shutil.rmtree(place)
    judge_refused("no folder for FILE", back(bag, folder / "none/new.db", OFFICE=program), "there is no folder", status=3)
    judge_refused("no folder for FOLDER", export(folder / "office.db", folder / "none/bag"), "there is no folder", status=3)
    other = folder / "other"
    other.mkdir()
    (other / "x").write_bytes(b"x")
    judge_refused("FOLDER is another", export(folder / "office.db", other), "data/schedules.jsonl")
    same("another FOLDER is as it was", files_in(other), {"x": b"x"})
    place.mkdir()
    shutil.copytree(bag, place / "bag")
    (place / "bag/data/extra").write_bytes(b"")
    judge_refused("FOLDER has a file more", export(folder / "office.db", place / "bag"), "data/extra")
    (place / "bag/data/extra").unlink()
    with (place / "bag/data/records.jsonl").open("ab") as file:
        file.write(b"x")
    judge_refused("a file of FOLDER is longer", export(folder / "office.db", place / "bag"), "data/records.jsonl would be shorter")
    shutil.rmtree(place)
    at_once(folder / "at once")


def at_once(place: pathlib.Path) -> None:
    """Somebody takes the name in the last moment: it stays theirs."""
    from office_common.errors import Refused
    from office_exchange import placing
    place.mkdir()
    (place / "new").write_bytes(b"ours")
    (place / "name").write_bytes(b"theirs")
    try:
        placing.place(place / "new", place / "name")
        judge("a name that somebody took is refused", False)
    except Refused as refused:
        judge("a name that somebody took is refused", "is there already" in str(refused), refused)
    same("and is still theirs", files_in(place), {"new": b"ours", "name": b"theirs"})


def copies(folder: pathlib.Path, file: pathlib.Path) -> None:
    """Only a closed copy of this version is exported."""
    judge_refused("no COPY", export(folder / "none.db", folder / "b"), "there is no", status=3)
    (folder / "text.db").write_text("no database\n" * 100)
    judge_refused("COPY is no database", export(folder / "text.db", folder / "b"), "is no office")
    (folder / "empty.file").touch()
    judge_refused("COPY is empty", export(folder / "empty.file", folder / "b"), "is no office")
    shutil.copy(file, folder / "old.db")
    with sqlite3.connect(folder / "old.db") as base:
        base.execute("UPDATE office SET version = 1")
    base.close()
    judge_refused("COPY is of version 1", export(folder / "old.db", folder / "b"), "version 2: open it once")
    (folder / "old.db-wal").write_bytes(b"x" * 56)
    judge_refused("COPY has a log with acts", export(folder / "old.db", folder / "b"), "still has acts", status=3)
    with Office(small(folder)):
        judge_refused("COPY is open", export(file, folder / "b"), "open", status=3)
    judge("nothing was made", not (folder / "b").exists())


def arguments(folder: pathlib.Path, bag: pathlib.Path) -> None:
    for name, command, words in (("no FILE", "office-import", [bag]), ("FILE and --try", "office-import", ["--try", bag, "x"]),
                                 ("--try and a vault", "office-import", ["--try", bag, "--vault", folder]),
                                 ("no FOLDER", "office-export", [bag]), ("an abbreviation", "office-export", [bag, bag, "--vau", bag])):
        done = run(companion(command), *words)
        judge(name, done.status == 2 and "usage:" in done.error and "Traceback" not in done.error, done)
    judge_refused("no program", back(bag, folder / "n.db", OFFICE="/none"), "no program", status=2)
    judge_refused("a program that fails", back(bag, folder / "n.db", OFFICE="/bin/false"), "makes no office", status=3)
    judge_refused("no vault", export(folder / "office.db", folder / "b", "--vault", bag), "is no vault")
    judge_refused("no journal", export(folder / "office.db", folder / "b", "--journal", folder / "none"), "no journal")
    judge_refused("no bag", back(folder / "none", folder / "n.db"), "is no folder")
    judge("nothing was made", not {"n.db", "b"} & set(names_in(folder)))


def foreign(folder: pathlib.Path, file: pathlib.Path) -> None:
    """What a file has besides an office is named, and the office leaves all the same."""
    copy = folder / "foreign.db"
    shutil.copy(file, copy)
    base = sqlite3.connect(copy)
    base.executescript("CREATE TABLE \"notes \"\"x\"(a); INSERT INTO \"notes \"\"x\" VALUES (1), (2); "
                       "CREATE VIEW seen AS SELECT 1; PRAGMA user_version = 7; ANALYZE")
    base.close()
    before = digest(copy.read_bytes())
    done = export(copy, folder / "with")
    judge("tables of others are named", done.status == 1 and done.error.splitlines() == [
        "office-export: left out: the table notes \"x, rows: 2 is no part of an office",
        "office-export: left out: the view seen is no part of an office",
        "office-export: left out: user_version 7 is no part of an office"] and "left out 3" in done.out, done)
    same("and the bag is that of the office", files_in(folder / "with"), files_in(folder / "bag"))
    same("a copy is not changed", digest(copy.read_bytes()), before)


def damaged(folder: pathlib.Path, file: pathlib.Path) -> None:
    """A damaged content is named and counted, and no office is made without it."""
    copy = folder / "damaged.db"
    shutil.copy(file, copy)
    base = sqlite3.connect(copy)
    some = [number for number, in base.execute("SELECT num FROM records WHERE status <> 'ended' AND size > 0 LIMIT 2")]
    base.execute("UPDATE contents SET bytes = zeroblob(length(bytes)) WHERE record = ?", some[:1])
    base.execute("DELETE FROM contents WHERE record = ?", some[1:])
    base.commit()
    base.close()
    done = export(copy, folder / "lacks")
    judge("damaged contents are named", done.status == 1 and sorted(done.error.splitlines()) == sorted(
        f"office-export: left out: record {number}: its content is damaged" for number in some)
        and "left out 2" in done.out and "lacking 2" in done.out, done)
    judge_refused("no office is made without them", back(folder / "lacks", folder / "n.db"), "contents that were damaged",
                  f"2, of records {some[0]}, {some[1]}")
    judge("nothing was made of it", not (folder / "n.db").exists())
    shutil.copy(file, copy)
    base = sqlite3.connect(copy)
    base.execute("UPDATE certificates SET body = replace(body, 'BY ', 'BY Not ') WHERE run = 1")
    base.commit()
    base.close()
    done = export(copy, folder / "certificate")
    judge("a certificate that somebody changed is named", done.status == 1 and done.error.count("\n") == 1
          and "not as it should be: certificate 1: its line 'BY Not" in done.error, done)
    shutil.copy(file, copy)
    base = sqlite3.connect(copy)
    base.execute("UPDATE records SET originated = 99999999 WHERE num = 1")
    base.commit()
    base.close()
    judge_refused("a row that is none of an office", export(copy, folder / "row"), "records, row 1", "originated is 99999999")
    judge("no bag is made of it", not (folder / "row").exists())
