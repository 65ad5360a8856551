"""What leaves the log: nobody gets it from etcd any more, not from its earlier revisions, not in an office at rest. And
what stays in it for a member that is away."""
from __future__ import annotations

import json
import signal
import time

from replicas.checks import Archivist
from replicas.cluster import Cluster
from kit.judging import judge
from replicas.posting import begun, posted, record
from replicas.verdict import same_rows

SECRET = b"a content that a run destroys, and that nobody is to read afterwards"
REPORTED_SECONDS = 2
COMPACTED_SECONDS = 120
SNAPSHOT_SECONDS = 6
"""until a member has reported its snapshots"""


def filed(cluster: Cluster) -> tuple[str, int]:
    """Files a record with the secret; the key of its entry, and the revision at which etcd has it."""
    position = posted(cluster, 0, [record(900, SECRET)]).position
    key = f"/office/city/log/{position:016d}"
    found = json.loads(cluster.etcdctl(0, "get", key, "-w", "json").stdout)
    return key, int(found["kvs"][0]["mod_revision"])


def asked(cluster: Cluster, key: str, revision: int) -> list[str]:
    """What each etcd says of an earlier revision of a key."""
    told = [cluster.etcdctl(it, "get", f"--rev={revision}", key) for it in range(3)]
    return [it.stdout + it.stderr for it in told]


def until_compacted(cluster: Cluster, key: str, revision: int) -> list[str]:
    """What each etcd says of an earlier revision of a key, as soon as none has it; as they say it in the end if one has."""
    replies = asked(cluster, key, revision)
    until = time.monotonic() + COMPACTED_SECONDS
    while not all("compacted" in it and key not in it for it in replies) and time.monotonic() < until:
        time.sleep(0.3)
        replies = asked(cluster, key, revision)
    return replies


def until_rest(cluster: Cluster, seconds: float) -> int:
    """The number of entries that still come until none has come for as long, within two minutes."""
    first = last = cluster.position(0)
    since = began = time.monotonic()
    while time.monotonic() - since < seconds and time.monotonic() - began < 120:
        time.sleep(0.3)
        if cluster.position(0) != last:
            last, since = cluster.position(0), time.monotonic()
    return last - first


def until_dropped(cluster: Cluster, key: str, seconds: float) -> float:
    """The seconds until the log begins after an entry."""
    log, began = Archivist(cluster), time.monotonic()
    while log.number("first") <= int(key[-16:]) and time.monotonic() - began < seconds:
        time.sleep(0.3)
    return time.monotonic() - began


def history(cluster: Cluster) -> None:
    """Two snapshots of each member drop an entry, and its earlier revisions."""
    begun(cluster)
    key, revision = filed(cluster)
    judge("history: etcd has the entry at its revision", all(key in it for it in asked(cluster, key, revision)))
    for number in (1, 2):
        posted(cluster, number, [record(900 + number)])
        for machine in range(3):
            cluster.wait_for(machine, cluster.position(0))
            cluster.make_snapshot(machine)
    took = until_dropped(cluster, key, 120)
    said = until_compacted(cluster, key, revision)
    judge("history: after two snapshots of each member no etcd gives it at any revision",
          took < 120 and all("compacted" in it and key not in it for it in said), said)
    same_rows(cluster, "history")


def dropped(cluster: Cluster) -> None:
    """A member drops an entry and ends before it compacts etcd. Nobody has to drop it any more: others compact."""
    begun(cluster)
    key, revision = filed(cluster)
    for machine in range(3):
        cluster.wait_for(machine, cluster.position(0))
    for machine in range(3):
        cluster.kill(f"member{machine}", how=signal.SIGTERM)
    position = int(key[-16:])
    cluster.etcdctl(0, "put", "/office/city/first", str(position + 1))
    cluster.etcdctl(0, "del", f"{key[:-16]}{0:016d}", f"{key[:-16]}{position + 1:016d}")
    judge("dropped: etcd has the entry at its revision", all(key in it for it in asked(cluster, key, revision)))
    cluster.start_member(1)
    cluster.wait_for(1, position)
    said = until_compacted(cluster, key, revision)
    judge("dropped: once a member has started, no etcd gives it at any revision",
          all("compacted" in it and key not in it for it in said), said)
    for machine in (0, 2):
        cluster.start_member(machine)
        cluster.wait_for(machine, position)
    same_rows(cluster, "dropped")


def kept(cluster: Cluster) -> None:
    """A member is away while the others make snapshots: the log is kept for it, and it goes on from where it was."""
    begun(cluster)
    cluster.wait_for(2, cluster.position(0))
    left = cluster.position(2)
    cluster.kill("member2", how=signal.SIGTERM)
    for number in range(3):
        posted(cluster, 0, [record(900 + number)])
        for machine in (0, 1):
            cluster.wait_for(machine, cluster.position(0))
            cluster.make_snapshot(machine)
    time.sleep(REPORTED_SECONDS)
    first = Archivist(cluster).number("first")
    judge("kept: the log has what a member lacks that is away", first <= left + 1, (first, left))
    cluster.start_member(2)
    cluster.wait_for(2, cluster.position(0), 60)
    judge("kept: once it is back it goes on from where it was", cluster.journal("member2").count("as it was") == 1,
          cluster.journal("member2")[-300:])
    same_rows(cluster, "kept")


def old_key(cluster: Cluster) -> None:
    """A request whose entry has left the log is asked again: by its key it gets the first answer, and is not done again."""
    begun(cluster)
    first = posted(cluster, 0, [record(70)], "old-1")
    for number in (1, 2):
        posted(cluster, number, [record(900 + number)])
        for machine in range(3):
            cluster.wait_for(machine, cluster.position(0))
            cluster.make_snapshot(machine)
    took = until_dropped(cluster, f"{first.position:016d}", 120)
    tail, replies = cluster.position(0), [posted(cluster, it, [record(70)], "old-1") for it in range(3)]
    judge("old key: a key whose entry has left the log gets the first answer at each member",
          took < 120 and all((it.status, it.body, it.position) == (first.status, first.body, first.position)
                             for it in replies), (first, replies))
    judge("old key: and is no entry again", cluster.position(0) == tail)
    same_rows(cluster, "old key")


def other_body(cluster: Cluster) -> None:
    """A key that is used again for something else is an error at each member, and nothing is done."""
    begun(cluster)
    posted(cluster, 0, [record(70)], "other-1")
    tail, replies = cluster.position(0), [posted(cluster, it, [record(71)], "other-1") for it in range(3)]
    judge("other body: a known key with another body is 422, and no entry",
          all(it[::2] == (422, b'{"error":"key"}') for it in replies) and cluster.position(0) == tail, replies)
    same_rows(cluster, "other body")


def at_rest(cluster: Cluster) -> None:
    """An office in which nothing is done any more: its members make the snapshots that are owed by themselves."""
    cluster.settings.update(snapshot_seconds=SNAPSHOT_SECONDS)
    begun(cluster)
    key, revision = filed(cluster)
    took = until_dropped(cluster, key, 300)
    said = until_compacted(cluster, key, revision)
    judge("at rest: the log is dropped though nobody does anything, and no etcd gives it at any revision",
          took < 300 and all("compacted" in it and key not in it for it in said), (took, said))
    more = until_rest(cluster, 2 * SNAPSHOT_SECONDS)
    judge("at rest: entries of no acts come to an end", more <= 6, f"{more} more", always=True)
    same_rows(cluster, "at rest")
