"""What a restore takes back, and the restore that was cut off (tests/service_scripts)."""
from __future__ import annotations

import hashlib
import json
import os
import pathlib
import shutil
import signal

from service_scripts.place import (FIRST, LAST, NOBODY, OFFICE, RECORDS, Served, apply, counted, first_acts, made, path_with,
                           run, run_acts, script, sum_of)
from kit.judging import judge

HOLDS = [{"act": "place-hold", "code": "H-1", "reason": "A lawsuit", "by": "Legal office"},
         {"act": "hold-on", "hold": "H-1", "target": f"record:{2 * RECORDS}"},
         {"act": "place-hold", "code": "H-2", "reason": "An audit", "by": "Legal office"}]
# after the copy and the run
LATER = [{"act": "hold-on", "hold": "H-1", "target": f"record:{2 * RECORDS - 1}"},
         {"act": "lift-hold", "hold": "H-2"},
         {"act": "place-hold", "code": "H-3", "reason": "A claim", "by": "Legal office"},
         {"act": "hold-on", "hold": "H-3", "target": "class:FIN"},
         {"act": "add-aggregation", "ref": "B", "title": "B", "parent": 1},
         {"act": "add-record", "ref": "new", "title": "New", "originated": LAST, "aggregation": 2, "content": ""}]
LAST_HOLD = [{"act": "place-hold", "day": LAST, "code": "H-4", "reason": "In the log alone", "by": "Legal office"}]
# what the text must say, as sections with their rows
TOLD = {
    "holds to place again, and targets to put on again": [
        f"place-hold\tH-3\tA claim (Legal office)\t{LAST}", f"place-hold\tH-4\tIn the log alone (Legal office)\t{LAST}",
        f"hold-on\tH-1\trecord:{2 * RECORDS - 1} r{2 * RECORDS - 1}\t", "hold-on\tH-3\tclass:FIN\t"],
    "holds that were lifted, and targets that were taken off": [f"lift-hold\tH-2\tAn audit\t{LAST}"],
    "aggregations to file again": ["2\tB\tB\t1\t-\t-"],
    "records to file again": [f"{2 * RECORDS + 1}\tnew\tNew\t{LAST}\t{LAST}\t2\t-\t-\t0\t"
                              f"{hashlib.sha256().hexdigest()}\there"],
    "runs whose numbers will be used again": [f"1\t{LAST}\tregistrar\tclosed\t{RECORDS}\t0\t0"],
    "certificates that are saved here": ["1"],
}


def sections(text: str) -> dict[str, list[str]]:
    """The rows of each section of a text: its title, what to do, an empty line, the columns, the rows."""
    found: dict[str, list[str]] = {}
    blocks = text.split("\n\n")
    for head, rows in zip(blocks, blocks[1:]):
        title, _, count = head.split("\n")[0].rpartition(": ")
        if count.isdigit() and len(rows.rstrip("\n").split("\n")) == int(count) + 1:
            found[title] = rows.rstrip("\n").split("\n")[1:]
    return found


def prepared(folder: pathlib.Path) -> tuple[pathlib.Path, pathlib.Path]:
    """An office whose copy lacks a run, holds and a record; its last hold is in the log alone."""
    file = made(folder, "since")
    apply(file, [{**it, "day": FIRST} for it in HOLDS], NOBODY)
    copy = file.with_name("copy.db")
    shutil.copy(file, copy)
    os.chown(copy, NOBODY, NOBODY)
    apply(file, run_acts(), NOBODY)
    run(OFFICE, "resume", file, user=NOBODY)
    apply(file, [{**it, "day": LAST} for it in LATER], NOBODY)
    served = Served(file)
    served.status("POST", "/acts", json.dumps(LAST_HOLD).encode())
    served.end()
    return file, copy


def since(folder: pathlib.Path) -> None:
    file, copy = prepared(folder)
    certificate, stands = counted(file, "certificates"), sum_of(file)
    judge("a hold is in the log alone", certificate == "1" and counted(file, "holds") == "3")
    status, out, error = script("office-restore", file, copy)
    texts = sorted(file.parent.glob("office.db.before-*.since"))
    text = texts[0].read_text() if texts else ""
    told = sections(text)
    for title, rows in TOLD.items():
        judge(f"a restore tells {title}", told.get(title) == rows, told.get(title))
    judge("and nothing that COPY has and FILE lacks, though the ref of an aggregation is a number",
          "things that NEW has and OLD lacks" not in text, text)
    gone = [it.split("\t") for it in told.get("records to destroy or transfer again", [])]
    digests = run("sqlite3", f"file:{copy}?immutable=1",
                  f"SELECT digest FROM records WHERE num <= {RECORDS}")[1].split()
    judge("and each record that was destroyed, with its digest, as there again",
          [it[:1] + it[6:] for it in gone] == [[str(n + 1), it, "here"] for n, it in enumerate(digests)], len(gone))
    judge("it prints the counts, and stops", status == 1 and f"{RECORDS}\trecords to destroy" in out
          and "--since-was-read" in error, error.strip())
    judge("FILE and its log are as they were", sum_of(file) == stands and not list(file.parent.glob("*Z")))
    saved = file.with_name(texts[0].name.replace(".since", ".certificate-1"))
    went_on(file, copy, saved, text)


def went_on(file: pathlib.Path, copy: pathlib.Path, saved: pathlib.Path, text: str) -> None:
    """Once the text was read; not where it is another one by then."""
    apply(file, [{**LAST_HOLD[0], "code": "H-5"}], NOBODY)
    status, _, error = script("office-restore", "--since-was-read", file, copy)
    texts = sorted(file.parent.glob("office.db.before-*.since"))
    judge("where more came meanwhile it stops again, with a new text in the place of the old one",
          status == 1 and len(texts) == 1 and "H-5" in texts[0].read_text() != text, error.strip())
    body = run(OFFICE, "certificate", file, 1, user=NOBODY)[1]
    status, out, error = script("office-restore", "--since-was-read", file, copy)
    old = pathlib.Path(out.split()[-1])
    judge("once it was read, COPY is in the place of FILE", status == 0 and counted(file, "holds") == "2"
          and counted(file, "contents") == str(2 * RECORDS), error.strip())
    judge("the text has the name of the file that it is about", pathlib.Path(f"{old}.since") == texts[0]
          and old.is_file(), old.name)
    judge("the certificate that is lost is saved, byte for byte", saved.read_text() == body and len(body) > 100)
    unreadable(file, copy)
    meanwhile(file.parent.parent, file, copy)
    cut_off(file, copy)


def meanwhile(folder: pathlib.Path, file: pathlib.Path, copy: pathlib.Path) -> None:
    """Somebody opens FILE after the script has looked, while it opens the new file: that is seen before the swap."""
    stands = file.read_bytes()
    held = file.with_name("holder")
    for number, (act, wanted) in enumerate(((f"sleep 60 <{file} >/dev/null 2>&1 & echo $! >{held}", "somebody has"),
                                            (f"touch {file}", "meanwhile"))):
        place = folder / f"meanwhile{number}"
        path_with(place, "office", f"case $* in *init*.??????/office.db) {act} ;; esac\nexec {OFFICE} \"$@\"")
        for name, words in (("office-restore", (file, copy)), ("office-compact", (file,))):
            status, out, error = script(name, *words, user=NOBODY, OFFICE=str(place / "office"))
            judge(f"{name}: {act.split()[0]} while it works leaves FILE as it was",
                  status == 1 and wanted in error and file.read_bytes() == stands, (out + error).strip()[-150:])
            if held.exists():
                os.kill(int(held.read_text()), signal.SIGKILL)
                held.unlink()


def unreadable(file: pathlib.Path, copy: pathlib.Path) -> None:
    """Where nothing can be compared it says so, and wants the word."""
    whole = file.read_bytes()
    file.write_bytes(b"no office" * 1000)
    for name, change in (("FILE that is no office", lambda: None), ("FILE that is lost", file.unlink)):
        change()
        status, _, error = script("office-restore", file, copy)
        judge(f"a {name}: it says that nothing is compared", status == 1 and "compare" in error, error.strip()[-200:])
        status, out, error = script("office-restore", "--since-was-read", file, copy)
        judge(f"a {name}: with the word it is restored", status == 0 and file.read_bytes()[:1000] == whole[:1000],
              (out + error).strip()[-200:])


def cut_off(file: pathlib.Path, copy: pathlib.Path) -> None:
    """A stop after FILE got its second name: the next call takes that name, and FILE's log goes with it."""
    for it in file.parent.glob("office.db.before-*"):
        it.unlink()
    served = Served(file)
    acts = [{**it, "day": LAST, "ref": f"cut-{it['ref']}"} for it in first_acts() if it["act"] == "add-record"][:1]
    served.status("POST", "/acts", json.dumps(acts).encode())
    served.end()
    old = file.with_name("office.db.before-20250102T030405Z")
    os.link(file, old)
    stands = sum_of(file)
    status, out, error = script("office-compact", file)
    judge("a restore that was cut off, and its log still there: a compaction drops the second name, and goes on",
          status == 0 and not old.exists() and counted(file, "records") == str(2 * RECORDS + 1), (out + error)[-150:])
    old = pathlib.Path(out.split()[-1])
    file.unlink()
    old.rename(file)
    log = pathlib.Path(f"{file}-wal")
    log.write_bytes(b"x" * 100)
    os.chown(log, NOBODY, NOBODY)
    old = file.with_name("office.db.before-20250102T030405Z")
    os.link(file, old)
    os.rename(log, f"{old}-wal")
    status, _, error = script("office-compact", file)
    judge("and where its log is away already, a compaction leaves all of it", status == 1 and old.exists()
          and "restore was cut off" in error, error.strip())
    os.rename(f"{old}-wal", log)
    stands = sum_of(file)
    status, out, error = script("office-restore", "--since-was-read", file, copy)
    status, out, error = script("office-restore", "--since-was-read", file, copy) if status else (status, out, error)
    judge("a restore that was cut off is done by the next one, and the log keeps the name of its FILE",
          status == 0 and out.split()[-1] == str(old) and sum_of(old) == stands
          and counted(file, "records") == str(2 * RECORDS), (out + error)[-200:])
