"""Trials of a member to which its etcd's answers come late, or never: it tells no age that is too small, nobody is told
that nothing is in the log while something may be, and its clients get their turn."""
from __future__ import annotations

import random
import signal
import threading
import time

from replicas.checks import stale
from replicas.cluster import FAULTS, Cluster, ask
from replicas.doors import through_door
from kit.judging import judge
from replicas.posting import begun, post, posted, record
from replicas.traffic import Read, Traffic
from replicas.verdict import same_rows

LATE_SECONDS = 2.0
LIMIT = 30
# seconds between two entries, and how long they come
PACES = [(0.3, 20), (2.5, 30)]
FAR_SECONDS, TURNS_SECONDS = 0.05, 15
NEAR_CLIENTS, LEAST_TURNS = 6, 20


def read(cluster: Cluster, traffic: Traffic, reader: int, stopping: threading.Event) -> None:
    """Reads at member 2, plainly or the newest, and notes what it got."""
    source = random.Random(reader)
    while not stopping.wait(0.05):
        mode, began = "plain" if source.random() < 0.95 else "newest", time.time()
        try:
            reply = ask(cluster.place(2), "GET", "/records/1", None, {"Office-Read": mode} if mode == "newest" else {})
        except FAULTS:
            continue
        if reply.status == 200:
            traffic.reads.append(Read("/records/1", 200, reply.body, reply.position, mode, 0,
                                      float(reply.lines["office-age"]), began, reader, 2))


def late(cluster: Cluster) -> None:
    """Etcd's answers reach member 2 two seconds late, while acts come at another member."""
    begun(cluster)
    door, traffic, stopping = through_door(cluster, 2, LATE_SECONDS), Traffic(cluster, 1, 0, 0), threading.Event()
    readers = [threading.Thread(target=read, args=(cluster, traffic, it, stopping), daemon=True) for it in range(4)]
    for reader in readers:
        reader.start()
    for pause, seconds in PACES:
        until = time.monotonic() + seconds
        while time.monotonic() < until:
            traffic.entry_at(0, time.time())
            time.sleep(pause)
    stopping.set()
    for reader in readers:
        reader.join(60)
    found = stale(traffic, LIMIT)
    judge(f"late: none of {len(traffic.reads):,} readings lacks what was answered before its age",
          len(traffic.reads) > 100 and not found, "\n    ".join([str(len(found)), *found[:5]]), always=True)
    door.seconds = 0
    same_rows(cluster, "late")


def unanswered(cluster: Cluster) -> None:
    """Etcd takes an entry, and its answer is lost; then it is no more reached either."""
    begun(cluster)
    door = through_door(cluster, 2, 0)
    posted(cluster, 2, [record(5)])  # from now on it knows where the log ends
    door.is_silent = True
    reply = post(cluster, 2, [record(50)], "unanswered-1")
    judge("unanswered: of an entry that etcd has, and whose confirmation is lost, the client is told `unknown`",
          reply.body == b'{"error":"unknown"}' and has_key(cluster, "unanswered-1"), reply)
    door.is_silent = False
    first = posted(cluster, 0, [record(50)], "unanswered-1")
    again = posted(cluster, 2, [record(50)], "unanswered-1")
    judge("unanswered: and it is in the log, once", again[::2] == first[::2], (first, again))
    door.is_silent = True
    told: list[bytes] = []
    client = threading.Thread(target=lambda: told.append(post(cluster, 2, [record(51)], "unanswered-2").body))
    client.start()
    began = time.monotonic()
    while not has_key(cluster, "unanswered-2") and time.monotonic() - began < 30:
        time.sleep(0.05)
    door.close()
    client.join(60)
    judge("unanswered: so is one of an entry whose confirmation is lost, and whose next try is refused",
          told == [b'{"error":"unknown"}'], told)
    cluster.kill("member2", how=signal.SIGTERM)
    cluster.write_settings(2)
    cluster.start_member(2)
    same_rows(cluster, "unanswered")


def turns(cluster: Cluster) -> None:
    """Etcd's answers reach member 2 late, while clients of member 0, which has them at once, leave the log no pause."""
    begun(cluster)
    door, until = through_door(cluster, 2, FAR_SECONDS), time.monotonic() + TURNS_SECONDS
    done: dict[int, list[float]] = {0: [], 2: []}

    def client(machine: int) -> None:
        while time.monotonic() < until:
            began = time.monotonic()
            if post(cluster, machine, []).status == 200:
                done[machine].append(time.monotonic() - began)

    clients = [threading.Thread(target=client, args=(it,)) for it in [2, *[0] * NEAR_CLIENTS]]
    for it in clients:
        it.start()
    for it in clients:
        it.join(60)
    judge("turns: a client of the member that is far gets its turn beside those of another one",
          len(done[2]) >= LEAST_TURNS and len(done[0]) > len(done[2]),
          f"{len(done[0])} and {len(done[2])} answers, the latest after {max(done[2], default=0):.2f} s", always=True)
    door.seconds = 0
    same_rows(cluster, "turns")


def has_key(cluster: Cluster, key: str) -> bool:
    """Whether the log has an entry with this key."""
    return bool(cluster.etcdctl(0, "get", f"/office/city/keys/{key}").stdout)
