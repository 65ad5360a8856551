"""The catalogue that office-catalogue makes, against the tables that it is made from (tests/service_scripts)."""
import csv
import gzip
import json
import os
import pathlib
import signal
import subprocess
import time

from service_scripts.place import (FIRST, LAST, NOBODY, OFFICE, RECORDS, Served, apply, made, path_with, run,
                           run_acts, script)
from kit.companions import companion
from kit.judging import judge
from kit.waiting import comes

# the columns of the details, in their order
DETAILS = ("originated", "added", "class", "schedule", "length", "due", "held")
# a title with all that JSON and a shell have a meaning for
TITLE = "\"O'Brien\" \\ $(id) `id` %s, Straße \u202e \u2028 \U0001f5c2 {a}"


def read(place: pathlib.Path) -> dict:
    """All that a catalogue has, by the names of its files, and its moments."""
    files = {it.name.removesuffix(".json.gz"): json.loads(gzip.decompress(it.read_bytes())) for it in place.iterdir()}
    return {**{name: it[name] for name, it in files.items()}, "moments": {it["moment"] for it in files.values()}}


def details(copy: pathlib.Path, there: dict) -> None:
    """What the program reports of each record: its register of what is due, and the entries of what has ended."""
    columns = {name: there["details"][at] for at, name in enumerate(DETAILS)}
    day = lambda number: time.strftime("%Y-%m-%d", time.gmtime(number * 86400))
    due = csv.DictReader(run(OFFICE, "export", copy, "2999-12-31")[1].splitlines())
    ended = csv.DictReader(run(OFFICE, "export", copy, "entries")[1].splitlines())
    wanted = {int(row["record"]): (row["class"], row["schedule"], row["due"]) for row in [*ended, *due]}
    codes = lambda part: [it["code"] for it in there[part]]
    told = {at + 1: (codes("classes")[columns["class"][at]], codes("schedules")[columns["schedule"][at]], day(number))
            for at, number in enumerate(columns["due"]) if number is not None}
    judge("class, schedule and due day are those that the program reports", told == wanted and len(told) > RECORDS,
          str([it for it in told.items() if wanted.get(it[0]) != it[1]][:3]))
    held = {int(row["record"]): row["held"] for row in csv.DictReader(run(OFFICE, "export", copy, "2999-12-31")[1].splitlines())}
    named = {at + 1: codes("holds")[number] for at, number in enumerate(columns["held"]) if number is not None}
    judge("so is the hold", {number: hold for number, hold in held.items() if hold}.items() <= named.items() and named,
          str(named))
    lengths = {len(column) for column in there["details"]}
    judge("each column has each record", lengths == {len(there["records"])} and None not in columns["class"], lengths)


def catalogue(folder: pathlib.Path) -> None:
    file, place = made(folder, "catalogue"), folder / "catalogues"
    title = {"act": "add-record", "day": FIRST, "ref": "odd", "title": TITLE, "originated": FIRST, "aggregation": 1,
             "content": ""}
    hold = {"day": FIRST, "code": "H-1", "reason": "A lawsuit", "by": "Legal office", "act": "place-hold"}
    target = {"act": "hold-on", "day": FIRST, "hold": "H-1", "target": "record:41"}
    inner = {"act": "add-aggregation", "day": FIRST, "ref": "B", "title": "B", "parent": 1}
    apply(file, [title, hold, target, inner, *run_acts()], NOBODY)
    run(OFFICE, "resume", file, user=NOBODY)
    place.mkdir()
    os.chown(place, NOBODY, NOBODY - 2)
    place.chmod(0o2750)
    copy = file.with_name("copy.db")
    began = int(time.time())
    script("office-backup", file, copy, user=NOBODY)
    status, _, error = script("office-catalogue", copy, place, user=NOBODY)
    there = read(place / "now")
    judge("a catalogue", status == 0 and len(there) == 12 and there["awaiting"] == [], error.strip() or list(there))
    moment = there["moments"].pop()
    judge("all of it is of the moment of the copy",
          not there["moments"] and time.strftime("%Y-%m-%dT%H:%M:%SZ", time.gmtime(began)) <= moment
          <= time.strftime("%Y-%m-%dT%H:%M:%SZ", time.gmtime(copy.stat().st_mtime)), moment)
    rows = run("sqlite3", "-json", f"file:{copy}?immutable=1",
               "SELECT num, ref, title, aggregation, status FROM records ORDER BY num")[1]
    judge("its records are those of the table", there["records"] == [list(it.values()) for it in json.loads(rows)]
          and len(there["records"]) == 2 * RECORDS + 1, f"{len(there['records'])}")
    details(copy, there)
    judge("a title with quotes and marks is as it was", there["records"][-1][2] == TITLE, there["records"][-1][2])
    judge("its other files say what was done", there["schedules"] == [
        {"code": "D1", "trigger": "added", "unit": "years", "count": 1, "offset": "none", "action": "destroy"}]
        and there["classes"] == [{"code": "FIN", "title": "Finance", "schedule": "D1"}]
        and [(it["number"], it["parent"], it["here"], it["ended"]) for it in there["aggregations"]] == [
            (1, None, RECORDS + 1, RECORDS), (2, 1, 0, 0)]
        and there["holds"] == [{"code": "H-1", "reason": "A lawsuit", "placed": FIRST, "by": "Legal office",
                                "lifted": None, "targets": ["record:41"]}]
        and there["runs"] == [{"number": 1, "day": LAST, "by": "registrar", "closed": True, "ended": RECORDS,
                               "sent": 0, "skipped": 0}], json.dumps({**there, "records": []}, default=list)[:900])
    judge("what waits: nothing was sent, and one file without an open one in it has no record", there["receipts"] == []
          and there["todo"] == [{"sent": [], "received": [], "waiting": [], "idle": [[2, None]]}], there["todo"])
    counts = {"schedules": 1, "classes": 1, "aggregations": 2, "holds": 1, "runs": 1, "records": 2 * RECORDS + 1}
    judge("and how many there are", there["about"] == [{"day": LAST, **counts}], there["about"])
    whole = [it for it in (place / "now").resolve().iterdir()]
    judge("no content is in it", not any(b"MEDICAL-SECRET" in gzip.decompress(it.read_bytes()) for it in whole))
    modes_ = {(oct(it.stat().st_mode & 0o777), it.stat().st_gid) for it in whole}
    judge("the group of the folder may read it, and nobody else", modes_ == {("0o640", NOBODY - 2)}
          and (place / "now").resolve().stat().st_mode & 0o777 == 0o750, modes_)
    refused(folder, file, copy, place)
    first = (place / "now").readlink()
    for _ in range(2):
        script("office-catalogue", copy, place, user=NOBODY)
    left = sorted(it.name for it in place.iterdir())
    judge("a new one takes its place, and the one before is left", len(left) == 3 and first.name not in left, left)


def refused(folder: pathlib.Path, file: pathlib.Path, copy: pathlib.Path, place: pathlib.Path) -> None:
    """Where no catalogue can be made, the one that is there stays, and nothing else is left."""
    damaged, older = file.with_name("damaged.db"), file.with_name("older.db")
    damaged.write_bytes(copy.read_bytes()[:9000])
    older.write_bytes(copy.read_bytes())
    run("sqlite3", older, "UPDATE office SET version = 1")
    stands, served = sorted(place.rglob("*")), Served(file)
    asking = folder / "slow/asking"
    path_with(folder / "slow", "office", f": >{asking}\nsleep 600")
    asking.parent.chmod(0o777)
    # a disk that takes as many bytes of a file
    full = "prlimit", "--fsize=10000"
    try:
        for name, which, how in (("a damaged copy", damaged, ()), ("a copy of version 1", older, ()),
                                 ("a FILE that is served", file, ()), ("a copy, on a full disk", copy, full),
                                 ("a copy that is missing", file.with_name("none.db"), ())):
            status, _, error = run(*how, companion("office-catalogue"), which, place, user=NOBODY)
            judge(f"of {name} none is made", status == 1 and error.count("office-catalogue: ") == 1
                  and sorted(place.rglob("*")) == stands, error.strip())
    finally:
        served.end()
    with copy.open("rb"):
        status, _, error = script("office-catalogue", copy, place)
        judge("of a copy that somebody has open none is made", status == 1 and "somebody has" in error
              and sorted(place.rglob("*")) == stands, error.strip())
    killed = subprocess.Popen([companion("office-catalogue"), copy, place], user=NOBODY, group=NOBODY, extra_groups=[],
                              env={**os.environ, "OFFICE": f"{folder}/slow/office"}, start_new_session=True)
    began = comes(asking.exists)
    killed.kill()
    killed.wait()
    judge("one that is killed leaves the one that is there", began and (place / "now").resolve() in stands
          and len(list((place / "now").iterdir())) == 11)
    os.killpg(killed.pid, signal.SIGKILL)
    left = list(place.glob(".office-catalogue.*"))
    judge("and a folder, which a later one removes", len(left) == 1 and left[0].is_dir(), left)
    for each in left:
        os.utime(each, (0, 0))
