"""What is looked at after a trial: the log, the rows of FILEs, and a replay of the log."""
from __future__ import annotations

import base64
import collections
import http.client
import json
import pathlib
import shutil
import sqlite3
import subprocess
import threading
import time
from typing import Any, NamedTuple

from replicas.cluster import OFFICE, Cluster, Place, Reply, ask
from replicas.networks import socket_in
from replicas.traffic import Post, Read, Traffic

Rows = dict[str, tuple[str, list[Any]]]


def encoded(text: str) -> str:
    return base64.b64encode(text.encode()).decode()


class Entry(NamedTuple):
    key: str
    kind: str
    body: bytes


class Archivist(threading.Thread):
    """Reads every entry of the log, through any etcd that answers, before it is dropped."""

    def __init__(self, cluster: Cluster, log: str = "city") -> None:
        super().__init__(daemon=True)
        self.cluster, self.top = cluster, f"/office/{log}/"
        self.entries: list[Entry] = []
        self.faults: list[str] = []
        self.stopping = threading.Event()

    def call(self, machine: int, what: dict[str, Any]) -> dict[str, Any]:
        place = Place(self.cluster.port(machine, "client"), self.cluster.network(machine))
        with socket_in(place.network) as link:
            link.settimeout(5)
            link.connect(("127.0.0.1", place.port))
            body = json.dumps(what)
            link.sendall(f"POST /v3/kv/range HTTP/1.0\r\nContent-Length: {len(body)}\r\n\r\n{body}".encode())
            response = http.client.HTTPResponse(link)
            response.begin()
            told: dict[str, Any] = json.loads(response.read())
            if response.status != 200:
                raise OSError(told)
            return told

    def any(self, what: dict[str, Any]) -> dict[str, Any]:
        for _ in range(1200):
            for machine in range(self.cluster.count):
                try:
                    return self.call(machine, what)
                except (OSError, ValueError, http.client.HTTPException):
                    pass
            time.sleep(0.05)
        raise SystemExit("no etcd answers")

    def step(self) -> int:
        """Reads what follows; the number of entries."""
        found = self.any({"key": encoded(f"{self.top}log/{len(self.entries) + 1:016d}"),
                          "range_end": encoded(f"{self.top}log0"), "limit": 100}).get("kvs", ())
        for row in found:
            position = int(base64.b64decode(row["key"]).decode()[-16:])
            if position != len(self.entries) + 1:
                self.faults.append(f"the log has {position} after {len(self.entries)}")
            if row["version"] != "1":
                self.faults.append(f"entry {position} was written {row['version']} times")
            head, _, body = base64.b64decode(row["value"]).partition(b"\n")
            told = json.loads(head)
            self.entries.append(Entry(told["key"], told["kind"], body))
        return len(found)

    def run(self) -> None:
        while not self.stopping.is_set():
            if not self.step():
                self.stopping.wait(0.1)

    def finish(self) -> None:
        self.stopping.set()
        self.join()
        while self.step():
            pass

    def number(self, name: str) -> int:
        """The number that a key has: `tail`, `first`."""
        return int(base64.b64decode(self.any({"key": encoded(self.top + name)})["kvs"][0]["value"]))

    def count(self, name: str) -> int:
        """How many keys begin with this, as `log/`."""
        what = {"key": encoded(self.top + name), "count_only": True,
                "range_end": encoded(self.top + name[:-1] + "0")}
        return int(self.any(what).get("count", 0))


def rows_of(file: pathlib.Path, scratch: pathlib.Path) -> Rows:
    """All rows of all tables, read of a copy of FILE and its log that is removed again."""
    shutil.rmtree(scratch, ignore_errors=True)
    scratch.mkdir()
    for path in (file, pathlib.Path(f"{file}-wal")):
        if path.exists():
            shutil.copy(path, scratch)
    database = sqlite3.connect(scratch / file.name)
    found: Rows = {}
    names = database.execute("SELECT name, sql FROM sqlite_master ORDER BY name").fetchall()
    for name, sql in names:
        is_table = sql is not None and sql.startswith("CREATE TABLE")
        found[name] = (sql, sorted(database.execute(f"SELECT * FROM {name}").fetchall(), key=repr)
                       if is_table else [])
    sound = database.execute("PRAGMA integrity_check").fetchall() == [("ok",)]
    database.close()
    shutil.rmtree(scratch)
    if not sound:
        raise SystemExit(f"{file} is not sound")
    return found


class Bare:
    """One `office serve` on a file of its own, without a log."""

    def __init__(self, file: pathlib.Path, port: int) -> None:
        self.place, self.file = Place(port), file
        self.process = subprocess.Popen([OFFICE, "serve", str(file), str(port), "1000000"],
                                        stdout=subprocess.PIPE, stdin=subprocess.DEVNULL)
        assert self.process.stdout is not None
        if not self.process.stdout.readline().startswith(b"listening"):
            raise SystemExit(f"no office in {file}")

    def post(self, kind: str, body: bytes) -> Reply:
        if kind == "acts":
            return ask(self.place, "POST", "/acts", body, timeout=600)
        return ask(self.place, "POST", "/run/resume", timeout=600)

    def end(self) -> None:
        self.process.kill()
        self.process.wait()


def replay(entries: list[Entry], file: pathlib.Path, port: int,
           reads: list[Read]) -> tuple[list[Reply], list[str]]:
    """The answers to all entries in a new office, and each reading that is another there."""
    for end in ("", "-wal", "-shm"):
        pathlib.Path(f"{file}{end}").unlink(missing_ok=True)
    by_position: dict[int, list[Read]] = collections.defaultdict(list)
    for read in reads:
        by_position[read.position].append(read)
    office, answers, faults = Bare(file, port), [], []
    try:
        for position in range(len(entries) + 1):
            if position:
                answers.append(office.post(entries[position - 1].kind, entries[position - 1].body))
            known: dict[str, Reply] = {}
            for read in by_position.get(position, ()):
                if read.path not in known:
                    known[read.path] = ask(office.place, "GET", read.path, timeout=600)
                reply = known[read.path]
                if (reply.status, reply.body) != (read.status, read.told):
                    faults.append(f"GET {read.path} at {position}: {read}, but {reply}")
    finally:
        office.end()
    return answers, faults


def accepted_kinds(entries: list[Entry], answers: list[Reply]) -> collections.Counter[str]:
    """How many acts of each kind were accepted."""
    found: collections.Counter[str] = collections.Counter()
    for entry, answer in zip(entries, answers):
        if entry.kind == "acts" and answer.status in (200, 409):
            for act, told in zip(json.loads(entry.body), json.loads(answer.body)):
                if "refused" not in told:
                    found[act["act"]] += 1
    return found


def log_faults(entries: list[Entry], traffic: Traffic) -> list[str]:
    """Where the log is not what clients were answered: each answered request once, at its place,
    no entry of nobody, none twice, and none before one that was answered before it began."""
    faults: list[str] = []
    times = collections.Counter(entry.key for entry in entries)
    faults += [f"{key} is in the log {count} times" for key, count in times.items() if count > 1]
    for post in traffic.posts:
        entry = entries[post.position - 1] if 1 <= post.position <= len(entries) else None
        if entry is None or (entry.key, entry.kind, entry.body) != (post.key, post.kind, post.body):
            faults.append(f"not in the log at its position: {post}")
    answered = {post.key for post in traffic.posts}
    lost, not_taken = collections.Counter(traffic.lost), set(traffic.not_taken)
    for entry in entries:
        if entry.body in not_taken:
            faults.append(f"its client was told that this is not in the log: {entry}")
        if entry.key not in answered:
            if lost[entry.body] < 1:
                faults.append(f"an entry that nobody asked for, or one done twice: {entry}")
            lost[entry.body] -= 1
    return faults + order_faults(traffic.posts)


def order_faults(posts: list[Post]) -> list[str]:
    """Requests that began after another was answered, and are before it in the log."""
    ended, highest, at, faults = sorted(posts, key=lambda it: it.ended), 0, 0, []
    for post in sorted(posts, key=lambda it: it.began):
        while at < len(ended) and ended[at].ended < post.began:
            highest = max(highest, ended[at].position)
            at += 1
        if post.position <= highest:
            faults.append(f"{post.position} began after {highest} was answered")
    return faults


def stale(traffic: Traffic, limit: int) -> list[str]:
    """Readings that lack what was answered before: more than the told age before a plain one, and before a newest one;
    those that tell an age above the limit; and those that go back in time for one reader at one member."""
    faults: list[str] = []
    ended, at, highest, had = sorted(traffic.posts, key=lambda it: it.ended), 0, 0, []
    for post in ended:
        highest = max(highest, post.position)
        had.append((post.ended, highest))
    moments = sorted(((it.began - (0 if it.mode == "newest" else it.age + 0.05), it) for it in traffic.reads),
                     key=lambda it: it[0])
    known = 0
    for moment, read in moments:
        while at < len(had) and had[at][0] < moment:
            known, at = had[at][1], at + 1
        if read.position < known:
            faults.append(f"{read.mode} at {read.position}, but {known} was answered before {moment:.2f}: {read}")
        if read.mode != "any" and read.age > limit + 1:
            faults.append(f"older than the limit: {read}")
    last: dict[tuple[int, int], int] = {}
    for read in traffic.reads:
        if read.position < last.get((read.reader, read.machine), 0):
            faults.append(f"back in time: {read}")
        last[read.reader, read.machine] = read.position
    return faults
