"""An office on real files, worked on and stopped: what `killed_programs` and `full_disks` share.

The rows that stand after so many steps of a word's work are found by doing them one at a time, each by a run of the program of its own.
Of a file of version 1 that is opened, the rows are read before the program opens it again: opening it once more would hide what a stop left.
"""
import base64
import http.client
import json
import os
import pathlib
import shutil
import signal
import socket
import sqlite3
import subprocess
import tempfile
import time

from save_records import OLD_TABLES, TABLES as TEXTS, add, begin

OFFICE = os.environ.get("OFFICE") or str(pathlib.Path(__file__).resolve().parent.parent / "office")
TABLES = [text.split("(")[0].removeprefix("CREATE TABLE ") for text in TEXTS]
OPENED = ("version 2\n", 0)
# the disks on which a trial is: both, or the one that is set
DISKS = [os.environ["OFFICE_DISK"]] if "OFFICE_DISK" in os.environ else ["any", "powersafe"]
RECORDS = 60
# of a file of version 1: as many schedules as there may be, and some thousand records
OLD_SCHEDULES, OLD_RECORDS = 1_000, 5_000
PAGE = 4_096
FIRST, LAST = "2024-01-02", "2025-01-02"


def run(*words, kill_after=None):
    """What the program printed and its exit status; it is killed after so many seconds."""
    with tempfile.TemporaryFile() as out:
        started = subprocess.Popen([OFFICE, *map(str, words)], stdout=out, stderr=subprocess.DEVNULL, stdin=subprocess.DEVNULL)
        if kill_after is not None:
            time.sleep(kill_after)
            started.send_signal(signal.SIGKILL)
        status = started.wait()
        out.seek(0)
        return out.read().decode(), status


def rows_of(file):
    """All rows of an office's file that is closed, told as text."""
    conn = sqlite3.connect(f"file:{file}?mode=ro&immutable=1", uri=True)
    try:
        return "\n".join(str(sorted(map(repr, conn.execute(f"SELECT * FROM {it}")))) for it in TABLES)
    finally:
        conn.close()


def rows_left(file):
    """All rows of a file that may have a log, which a copy of both tells SQLite; a table that is not there tells so."""
    look = pathlib.Path(copied(file, pathlib.Path(f"{file}.look")))
    conn = sqlite3.connect(look)
    try:
        there = {name for (name,) in conn.execute("SELECT name FROM sqlite_schema WHERE type = 'table'")}
        return "\n".join(str(sorted(map(repr, conn.execute(f"SELECT * FROM {it}")))) if it in there else f"no {it}" for it in TABLES)
    finally:
        conn.close()
        for end in ("", "-wal", "-shm"):
            pathlib.Path(f"{look}{end}").unlink(missing_ok=True)


def lowered(file, to):
    """An office's closed file, without its events, as a file of version 1, in the tables that it had, by Python's sqlite3."""
    conn = sqlite3.connect(to, isolation_level=None)
    conn.execute("ATTACH ? AS newer", (str(file),))
    conn.execute("BEGIN")
    for name, text in zip(TABLES, OLD_TABLES):
        conn.execute(text)
        conn.execute(f"INSERT INTO main.{name} SELECT * FROM newer.{'schedules2' if name == 'schedules' else name}")
    conn.execute("UPDATE main.office SET version = 1")
    conn.execute("COMMIT")
    conn.close()
    return to


def copied(file, to):
    for end in ("", "-wal"):
        (pathlib.Path(f"{to}{end}").unlink(missing_ok=True))
        if os.path.exists(f"{file}{end}"):
            shutil.copyfile(f"{file}{end}", f"{to}{end}")
    return to


def begins_at_event(number):
    """Whether the period of that record begins at its event."""
    return number % 6 == 0


def first_acts():
    """An office with records that are due on the last day, some of them once an event is recorded."""
    for code, trigger in (("D1", "added"), ("E1", "event")):
        yield {"act": "add-schedule", "day": FIRST, "code": code, "trigger": trigger, "unit": "years", "count": 1, "offset": "none", "action": "destroy"}
    yield {"act": "add-class", "day": FIRST, "code": "FIN", "title": "Finance", "schedule": "D1"}
    yield {"act": "add-aggregation", "day": FIRST, "ref": "A", "title": "A", "class": "FIN"}
    for n in range(RECORDS):
        content = base64.b64encode(b"letter %d" % n * (1 + n % 7 * 100)).decode()
        yield {"act": "add-record", "day": FIRST, "ref": f"r{n}", "title": f"r{n}", "originated": FIRST, "aggregation": 1, "content": content,
               "schedule": "E1" if begins_at_event(n + 1) else None}


def later_acts():
    """Events, now and then one in place of another, confirmations, holds and refusals, in turn."""
    for n in range(1, RECORDS + 1):
        if begins_at_event(n):
            # by the first day of two it would not be due
            for occurred in [LAST, FIRST] if n % 4 == 0 else [FIRST]:
                yield {"act": "event", "day": LAST, "record": n, "occurred": occurred, "by": "lessee"}
        yield {"act": "confirm", "day": LAST, "record": n, "action": "destroy", "by": "registrar"}
        if n % 9 == 0:
            yield {"act": "place-hold", "day": LAST, "code": f"H-{n}", "reason": "case", "by": "court"}
            yield {"act": "hold-on", "day": LAST, "hold": f"H-{n}", "target": f"record:{n}"}
            yield {"act": "add-class", "day": LAST, "code": "FIN", "title": "again", "schedule": "D1"}


def rows_after_each(file, work, step):
    """The rows at first, and after each of the steps, each done by a run of the program of its own."""
    copied(file, work)
    run("init", work)
    found = [rows_of(work)]
    for words in step:
        run(*words(work))
        found.append(rows_of(work))
    return found


class Trial:
    """One word on an office: its rows after each step, and how long its whole work takes."""

    def __init__(self, room, name, base, steps):
        self.room, self.name, self.base = room, name, base
        self.states = rows_after_each(base, room / f"{name}.steps", steps)
        self.reached, self.lasted = [], None
        began = time.time()
        self.kill(copied(base, room / "whole"), None)
        self.seconds = self.lasted or time.time() - began

    def kill(self, file, after):
        """Does the work, killed after so many seconds: how many steps were answered, and how many more may be done."""
        raise NotImplementedError

    def finish(self, file, done):
        raise NotImplementedError

    def once(self, at, disk, later_disk):
        """What is not as it must be after a kill at that part of the work, on one disk, with what follows on another; none where all is."""
        file = copied(self.base, self.room / "file")
        os.environ["OFFICE_DISK"] = disk
        left = self.kill(file, at * self.seconds)
        os.environ["OFFICE_DISK"] = later_disk
        return self.judge(file, *left)

    def judge(self, file, answered, more):
        """The same of a file whose work was stopped after so many answered steps and at most so many more."""
        told, status = run("init", file)
        if (told, status) != OPENED:
            return f"init: {told!r}, {status}"
        rows = rows_of(file)
        # rows that a refused act leaves are those before it, so there may be several numbers of steps
        done = [n for n, it in enumerate(self.states) if it == rows and answered <= n <= answered + more]
        if not done:
            near = [n for n, it in enumerate(self.states) if it == rows]
            return f"{answered} answered, the rows are those after {near or 'none'}"
        self.reached.append(done[-1])
        self.finish(file, done[0])
        return None if rows_of(file) == self.states[-1] else "the rest leads elsewhere"


class Apply(Trial):
    acts = list(later_acts())

    def kill(self, file, after):
        listed = self.room / "acts.json"
        listed.write_text(json.dumps(self.acts))
        told, _ = run("apply", file, listed, kill_after=after)
        answered = told.count("\n")
        return (answered, len(self.acts) - answered)

    def finish(self, file, done):
        listed = self.room / "rest.json"
        listed.write_text(json.dumps(self.acts[done:]))
        run("apply", file, listed)


class Serve(Apply):
    def kill(self, file, after):
        with socket.socket() as free:
            free.bind(("127.0.0.1", 0))
            port = free.getsockname()[1]
        server = subprocess.Popen([OFFICE, "serve", str(file), str(port), str(len(self.acts))], stdout=subprocess.PIPE, stderr=subprocess.DEVNULL)
        server.stdout.readline()
        ready, answered = time.time(), 0
        killer = None if after is None else subprocess.Popen(["sh", "-c", f"sleep {after:.4f}; kill -9 {server.pid}"])
        try:
            for act in self.acts:
                conn = http.client.HTTPConnection("127.0.0.1", port, timeout=10)
                conn.request("POST", "/acts", body=json.dumps([act]))
                conn.getresponse().read()
                conn.close()
                answered += 1
        except (OSError, http.client.HTTPException):
            pass
        self.lasted = time.time() - ready
        if killer:
            killer.wait()
        server.wait()
        server.stdout.close()
        return (answered, 1)


class Import(Trial):
    lines = [f"i{n},letter {n},{FIRST},{1 if n % 8 else 9},,,{base64.b64encode(b'%d' % n * n * 20).decode()}" for n in range(RECORDS)]
    header = "ref,title,originated,aggregation,class,schedule,content"

    def text(self, lines):
        file = self.room / "rows.csv"
        file.write_text("\n".join([self.header, *lines, ""]))
        return file

    def kill(self, file, after):
        told, _ = run("import", file, LAST, self.text(self.lines), kill_after=after)
        return (told.count("\n"), 1)

    def finish(self, file, done):
        run("import", file, LAST, self.text(self.lines))


class Resume(Trial):
    def kill(self, file, after):
        told, _ = run("resume", file, kill_after=after)
        steps = len(self.states) - 1
        return (steps, 0) if told == "certificate 1\n" else (0, steps)

    def finish(self, file, done):
        run("resume", file)


class Opening(Trial):
    """`init` of a file of version 1, in one step."""

    def __init__(self, room, name, base):
        self.room, self.name, self.base, self.reached, self.lasted, self.begun = room, name, base, [], None, 0
        work = copied(base, room / f"{name}.steps")
        self.states = [rows_left(work)]
        began = time.time()
        if run("init", work) != OPENED:
            raise OSError("a file of version 1 does not open")
        self.seconds = time.time() - began
        self.states.append(rows_left(work))

    def kill(self, file, after):
        return (1, 0) if run("init", file, kill_after=after) == OPENED else (0, 1)

    def judge(self, file, answered, more):
        log = pathlib.Path(f"{file}-wal")
        rows, is_begun = rows_left(file), log.exists() and log.stat().st_size > PAGE
        if rows not in self.states[answered : answered + more + 1]:
            return f"{answered} answered, the rows are those of neither version: {rows[:300]}"
        self.reached.append(self.states.index(rows))
        self.begun += is_begun and not answered
        told = run("init", file)
        if told != OPENED:
            return f"init: {told}"
        return None if rows_left(file) == self.states[-1] else "the opening leads elsewhere"


def old_office(file):
    """A file of version 1 by Python's sqlite3: all the schedules that there may be, and records."""
    conn = sqlite3.connect(file, isolation_level=None)
    begin(conn, OLD_TABLES)
    conn.execute("BEGIN")
    for number in range(2, OLD_SCHEDULES + 1):
        conn.execute("INSERT INTO schedules VALUES (?, 'last-addition', 'months', ?, 'quarter', 'review')", (f"D{number}", number))
    for number in range(1, OLD_RECORDS + 1):
        add(conn, number)
    conn.execute("UPDATE office SET version = 1")
    conn.execute("COMMIT")
    conn.close()
    return file


def one_by_one(room, acts):
    """A run of the program for each act."""
    for n, act in enumerate(acts):
        listed = room / f"act{n}.json"
        listed.write_text(json.dumps([act]))
        yield lambda file, listed=listed: ("apply", file, listed)


def word_trials(room):
    """The trial of each word that works on an office that is there, by its name."""
    first = room / "first.json"
    first.write_text(json.dumps(list(first_acts())))
    base, opened = room / "base", room / "opened"
    run("apply", base, first)
    copied(base, opened)
    listed = room / "open.json"
    listed.write_text(json.dumps([*Apply.acts, {"act": "open-run", "day": LAST, "by": "registrar"}]))
    run("apply", opened, listed)
    rows = []
    for n, line in enumerate(Import.lines):
        file = room / f"row{n}.csv"
        file.write_text("\n".join([Import.header, line, ""]))
        rows.append(lambda work, file=file: ("import", work, LAST, file))
    steps = [{"act": "run-step"}] * (RECORDS + 1)
    return {
        "apply": lambda: Apply(room, "apply", base, list(one_by_one(room, Apply.acts))),
        "serve": lambda: Serve(room, "serve", base, list(one_by_one(room, Apply.acts))),
        "import": lambda: Import(room, "import", base, rows),
        "resume": lambda: Resume(room, "resume", opened, list(one_by_one(room, steps))),
    }


OLD = "init of version 1"
NAMES = ["apply", "serve", "import", "resume", OLD]


def trials(room, names=()):
    """The trials of these names, all where none is given."""
    chosen = [it for it in NAMES if not names or it in names]
    words = word_trials(room) if set(chosen) != {OLD} else {}
    for name in chosen:
        yield Opening(room, name, old_office(room / "old")) if name == OLD else words[name]()
