"""States that a member must not show again, and entries that it must not do again: what it was is not what it is."""
from __future__ import annotations

import random
import shutil
import signal
import sqlite3
import threading
import time
from typing import Any

from replicas.cluster import FAULTS, Cluster, Reply, ask
from replicas.doors import through_door
from kit.judging import judge
from replicas.posting import begun, get, halts, post, posted, record
from replicas.verdict import same_rows

SETTLED_SECONDS = 2.5
"""without entries: then FILE is settled"""
ASKED_SECONDS = 15
"""until a member has surely asked its etcd in vain for a majority, and then for what it has itself"""
LONG, KILLS = 400, 5
MANY = 12
"""entries of almost a megabyte: more than the connections to an etcd that stands still hold for it"""


def change_file(cluster: Cluster, machine: int) -> None:
    """Changes FILE of a member that has ended, so that its answers are others from now on."""
    database = sqlite3.connect(cluster.file(machine))
    is_office = database.execute("SELECT 1 FROM sqlite_master WHERE name = 'records'").fetchone()
    database.execute("UPDATE records SET title = 'Another'" if is_office else "UPDATE acts SET chain = 'another'")
    database.commit()
    database.execute("PRAGMA wal_checkpoint(TRUNCATE)").fetchall()
    database.close()


def half_done(cluster: Cluster) -> None:
    """A member is killed in the middle of the first entry after a pause, again and again: the entry is done once."""
    begun(cluster)
    source, seconds = random.Random(4), 0.5
    for number in range(KILLS):
        for machine in range(3):
            cluster.wait_for(machine, cluster.position(0))
        time.sleep(SETTLED_SECONDS)
        acts = [record(1000 * (number + 1) + it) for it in range(LONG)]
        client = threading.Thread(target=posted, args=(cluster, 0, acts))
        began = time.monotonic()
        client.start()
        time.sleep(source.uniform(0, seconds))
        cluster.kill("member2")
        client.join()
        seconds = time.monotonic() - began
        cluster.start_member(2)
    for machine in range(3):
        cluster.wait_for(machine, cluster.position(0))
    chains = {str((cluster.state(it) or {}).get("chain")) for it in range(3)}
    judge(f"half done: after {KILLS} kills the members have one hash over their answers", len(chains) == 1, chains)
    restores = cluster.journal("member2").count("from a snapshot")
    judge("half done: some of them were in the middle of an entry", restores > 1, restores, always=True)
    same_rows(cluster, "half done")


class Watcher:
    """Readers of one member, and the positions of what they were answered from a moment on."""

    def __init__(self, cluster: Cluster, machine: int, readers: int = 6) -> None:
        self.cluster, self.machine = cluster, machine
        self.stopping = threading.Event()
        self.seen: list[Reply] = []
        self.threads = [threading.Thread(target=self.read, args=(it,), daemon=True) for it in range(readers)]
        for thread in self.threads:
            thread.start()

    def read(self, number: int) -> None:
        lines = {"Office-Read": "any"} if number % 2 else {}
        while not self.stopping.is_set():
            try:
                reply = ask(self.cluster.place(self.machine), "GET", "/records/1", None, lines)
            except FAULTS:
                time.sleep(0.01)
                continue
            if reply.status == 200:
                self.seen.append(reply)

    def stop(self) -> list[Reply]:
        self.stopping.set()
        for thread in self.threads:
            thread.join(60)
        return self.seen


def judge_seen(what: str, seen: list[Reply], least: int, some: bool = True) -> None:
    before = [it for it in seen if it.position < least]
    judge(f"never back: {what}", not before and bool(seen or not some),
          f"{len(before)} of {len(seen):,} before {least}: {before[:2]}" if before else f"{len(seen):,} readings")


def never_back(cluster: Cluster) -> None:
    """A member does its log anew: no reading is of a state before what the log had as it was started, and none before
    what it has answered itself, though its etcd has less for a while. Nobody limits the age here."""
    cluster.settings.update(age_limit=0, snapshot_every=10**6, snapshot_at=0)
    begun(cluster)
    for number in range(80):
        posted(cluster, number % 2, [record(100 * number + it) for it in range(40)])
    least = cluster.position(0)
    cluster.wait_for(2, least)
    cluster.kill("member2")
    shutil.rmtree(cluster.home(2) / "work")
    cluster.start_member(2)
    watcher = Watcher(cluster, 2)
    cluster.wait_for(2, least)
    judge_seen("a member that does its log anew answers once it is at its end", watcher.stop(), least)
    shorter_etcd(cluster)


def shorter_etcd(cluster: Cluster) -> None:
    """The etcd that member 2 asks has less than it has answered, and no majority: it is machine 1's, which stood still
    meanwhile. FILE of member 2 is lost then."""
    door = through_door(cluster, 2, 0)
    time.sleep(SETTLED_SECONDS)
    shorter = cluster.position(2)
    cluster.signal("etcd1", signal.SIGSTOP)
    for number in range(MANY):
        posted(cluster, 2, [record(20_000 + number, random.Random(number).randbytes(700_000))])
    least, restores = cluster.position(2), cluster.journal("member2").count("from a snapshot")
    door.behind = cluster.port(1, "client")
    cluster.kill("etcd0", "etcd2")
    cluster.signal("etcd1", signal.SIGCONT)
    watcher = Watcher(cluster, 2, 3)
    cluster.file(2).unlink()
    cluster.signal("member2", signal.SIGHUP)
    began = time.monotonic()
    while cluster.journal("member2").count("from a snapshot") == restores and time.monotonic() - began < 120:
        time.sleep(0.1)
    there = int(cluster.etcdctl(1, "get", "--consistency=s", "--print-value-only", "/office/city/tail").stdout)
    while cluster.position(2) < there and time.monotonic() - began < 240:
        time.sleep(0.1)
    time.sleep(ASKED_SECONDS)
    judge("never back: a member whose etcd has less has done what that has",
          shorter <= there == cluster.position(2) < least, (shorter, there, least, cluster.state(2)))
    judge_seen("nor does such a member show what it was before", watcher.stop(), least, False)
    door.behind = cluster.port(2, "client")
    for machine in (0, 2):
        cluster.start_etcd(machine)
    cluster.wait_for(2, least, 120)
    same_rows(cluster, "never back")


def keep_etcd(cluster: Cluster, machines: list[int]) -> list[int]:
    """Copies what etcd has on these machines; each ends for that, and starts again."""
    cluster.kill(*(f"etcd{it}" for it in machines), how=signal.SIGTERM)
    for it in machines:
        shutil.copytree(cluster.folder / f"etcd{it}", cluster.folder / f"kept{it}")
    for it in machines:
        cluster.start_etcd(it)
    for it in range(cluster.count):
        cluster.wait_for(it)
    return machines


def put_back(cluster: Cluster, machines: list[int]) -> None:
    """These etcd are killed, and have what they had then."""
    cluster.kill(*(f"etcd{it}" for it in machines))
    for it in machines:
        shutil.rmtree(cluster.folder / f"etcd{it}")
        shutil.copytree(cluster.folder / f"kept{it}", cluster.folder / f"etcd{it}")
        cluster.start_etcd(it)


def older_log(cluster: Cluster) -> None:
    """Somebody puts an older copy of all three etcd back: nobody is answered of an entry that takes another's place."""
    begun(cluster)
    kept = keep_etcd(cluster, [0, 1, 2])
    for number in range(5):
        posted(cluster, number % 3, [record(10 + number)])
    for machine in range(3):
        cluster.wait_for(machine, cluster.position(0))
    put_back(cluster, kept)
    began, answered = time.monotonic(), []
    while cluster.processes["member0"].poll() is None and time.monotonic() - began < 60:
        try:
            reply: Any = post(cluster, 0, [record(60)])
        except FAULTS:
            continue
        if reply.status != 503:
            answered.append(reply)
        time.sleep(0.1)
    judge("older log: a member that has done more than the log has answers no act", not answered, answered[:2])
    judge("older log: and halts", halts(cluster, 0, 30) == 5, cluster.journal("member0")[-300:])
    cluster.kill("member1", how=signal.SIGTERM)
    cluster.start_member(1)
    judge("older log: so does one that is started", halts(cluster, 1, 60) == 5, cluster.journal("member1")[-300:])


def in_question(cluster: Cluster) -> None:
    """One of three members is away, and the two others answer otherwise: neither answers until the third decides."""
    begun(cluster)
    for machine in range(3):
        cluster.wait_for(machine, cluster.position(0))
    time.sleep(SETTLED_SECONDS)
    cluster.kill("member1", "member2", how=signal.SIGTERM)
    change_file(cluster, 1)
    cluster.start_member(1)
    cluster.wait_for(1, cluster.position(0))
    began = time.monotonic()
    while time.monotonic() - began < 60 and not all(
            "differ" in str((cluster.state(it) or {}).get("why")) for it in (0, 1)):
        for machine in (0, 1):
            post(cluster, machine, [record(1)])
    replies = [get(cluster, it, "/records/1") for it in (0, 1)]
    judge("in question: while nobody knows which of two is right neither answers",
          all(it.body == b'{"error":"recovering"}' for it in replies), [cluster.state(it) for it in (0, 1)])
    cluster.start_member(2)
    judge("in question: once the third decides, the other one halts", halts(cluster, 1, 60) == 5, cluster.journal("member1")[-300:])
    cluster.wait_for(0, 0, 120)
    cluster.wait_for(2, cluster.position(0), 120)
    judge("in question: and the two that agree go on", all(posted(cluster, it, [record(1)]).status == 200 for it in (0, 2)))
    same_rows(cluster, "in question", [0, 2])
