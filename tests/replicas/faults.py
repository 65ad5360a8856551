"""What a member cannot do or cannot use: each time it stops answering, and comes back by itself."""
from __future__ import annotations

import pathlib
import random
import resource
import shutil
import signal
import subprocess
import time
from collections.abc import Callable
from typing import Any

from replicas.checks import Archivist
from replicas.cluster import Cluster
from kit.judging import judge
from replicas.posting import begun, get, post, posted, record
from replicas.verdict import same_rows


def gone_back(cluster: Cluster, machine: int) -> int:
    """How often a member said that it goes back to a snapshot."""
    return cluster.journal(f"member{machine}").count("back to a snapshot: entry ")


def full_disk(cluster: Cluster) -> None:
    """A small file system under member 2: it stops answering, the others go on."""
    home = cluster.home(2)
    home.mkdir()
    subprocess.run(["mount", "-t", "tmpfs", "-o", "size=1600k", "tmpfs", home], check=True)
    try:
        begun(cluster)
        source, hit = random.Random(5), 0
        for number in range(1, 60):
            contents = [record(10 + 2 * number + it, source.randbytes(40_000)) for it in (0, 1)]
            posted(cluster, 0, contents)
            state = cluster.state(2)
            if state is not None and not state["answers"]:
                hit = number
                break
        time.sleep(1)
        reply = get(cluster, 2, "/records/1")
        judge("full disk: the member stops answering, GETs too",
              hit > 0 and reply.body == b'{"error":"recovering"}',
              f"at entry {hit} of 80,000 bytes: {reply}", always=True)
        state = cluster.state(2) or {}
        judge("full disk: it says why", "back to a snapshot: " in str(state.get("why")), state)
        for number in range(5):
            posted(cluster, number % 2, [record(5000 + number)])
        judge("full disk: the others go on", cluster.position(0) > cluster.position(2))
        subprocess.run(["mount", "-o", "remount,size=512m", home], check=True)
        took = cluster.wait_for(2, cluster.position(0))
        judge("full disk: with room again it goes back to its snapshot and answers",
              get(cluster, 2, "/records/1").status == 200, f"{took:.1f} s", always=True)
        same_rows(cluster, "full disk")
    finally:
        cluster.stop_all()
        subprocess.run(["umount", "--lazy", home], check=True)


def full_etcd(cluster: Cluster) -> None:
    """A member that is away holds the log back, until etcd is as full as the settings allow. No entry comes any more
    then, so the others have to make their two snapshots by themselves."""
    cluster.settings.update(etcd_quota=2 * 1024**2, snapshot_every=1000, snapshot_pause=3)
    begun(cluster)
    cluster.kill("member2")
    source, number, reply = random.Random(7), 0, None
    while number < 400 and (reply is None or reply.body != b'{"error":"full"}'):
        number += 1
        acts = [record(10 + number, source.randbytes(120_000))]
        reply = post(cluster, number % 2, acts, f"full-{number}")
    judge("full etcd: a POST is 503 full", reply is not None and reply.body == b'{"error":"full"}',
          f"at entry {number} of 160,000 bytes", always=True)
    states = [until_full(cluster, it) for it in (0, 1)]
    judge("full etcd: both members say so, and their GETs go on",
          all(it.get("full") is True for it in states)
          and all(get(cluster, it, "/records/1").status == 200 for it in (0, 1)), states)
    cluster.etcdctl(0, "del", "/office/city/members/m2")
    log, began = Archivist(cluster), time.monotonic()
    while log.number("first") == 1 and time.monotonic() - began < 120:
        time.sleep(1)
    judge("full etcd: once it was struck off, new snapshots drop the log", log.number("first") > 1)
    reply = posted(cluster, 0, [record(5000)])
    judge("full etcd: without that member there is room again", reply.status == 200, reply)
    same_rows(cluster, "full etcd", [0, 1])


def until_full(cluster: Cluster, machine: int) -> dict[str, Any]:
    """What a member reports, as soon as it says that etcd is full, or a minute later."""
    began = time.monotonic()
    while True:
        state = cluster.state(machine) or {}
        if state.get("full") is True or time.monotonic() - began > 60:
            return state
        time.sleep(0.2)


def no_memory(cluster: Cluster) -> None:
    """The office of member 2 gets no more memory: its answer to an entry is not taken."""
    begun(cluster)
    cluster.wait_for(2, cluster.position(0))
    office = cluster.office_process(2)
    judge("memory: member 2 has an office", office is not None)
    if office is None:
        return
    resource.prlimit(office, resource.RLIMIT_AS, (4096, resource.RLIM_INFINITY))
    source, number = random.Random(6), 0
    while gone_back(cluster, 2) == 0 and number < 30:
        number += 1
        posted(cluster, 0, [record(10 * number + it, source.randbytes(240_000)) for it in range(3)])
        time.sleep(0.2)
    judge("memory: the member takes no answer of an office that has none left",
          gone_back(cluster, 2) > 0 and cluster.office_process(2) != office,
          f"at entry {number} of a megabyte", always=True)
    took = cluster.wait_for(2, cluster.position(0))
    judge("memory: it goes back to its snapshot and answers",
          get(cluster, 2, "/records/1").status == 200, f"{took:.1f} s", always=True)
    same_rows(cluster, "memory")


def damaged_file(cluster: Cluster) -> None:
    """FILE of a member that had ended well is damaged, is empty, or is gone."""
    begun(cluster)
    file = cluster.file(1)
    damages: dict[str, Callable[[], object]] = {
        "its first page is zeros": lambda: overwrite(file, b"\0" * 4096),
        "it is empty": lambda: file.write_bytes(b""), "it is gone": file.unlink}
    for number, (name, damage) in enumerate(damages.items()):
        posted(cluster, 0, [record(10 + number)])
        cluster.wait_for(1, cluster.position(0))
        cluster.kill("member1", how=signal.SIGTERM)
        damage()
        cluster.start_member(1)
        took = cluster.wait_for(1, cluster.position(0), 60)
        judge(f"FILE, {name}: the member goes back to its snapshot and answers",
              get(cluster, 1, f"/records/{2 + number}").status == 200, f"{took:.1f} s", always=True)
    same_rows(cluster, "damaged FILE")


def overwrite(file: pathlib.Path, what: bytes) -> None:
    """Writes over the begin of a file."""
    with open(file, "r+b") as opened:
        opened.write(what)


def flipped_byte(cluster: Cluster) -> None:
    """The newest snapshot of member 1 has a flipped byte: the one before is taken, and the log has what came after it."""
    begun(cluster)
    for number in range(1, 4):
        posted(cluster, 0, [record(10 + number)])
        for machine in range(3):
            cluster.wait_for(machine, cluster.position(0))
            cluster.make_snapshot(machine)
    older, newest = cluster.snapshots(1)
    log, began = Archivist(cluster), time.monotonic()
    while log.number("first") <= int(older.name) and time.monotonic() - began < 60:
        time.sleep(0.2)
    posted(cluster, 0, [record(50)])
    judge("flipped byte: the log begins after the older snapshot", log.number("first") == int(older.name) + 1,
          (log.number("first"), older.name, newest.name))
    with open(newest / "office.db", "r+b") as file:
        file.seek(5000)
        byte = file.read(1)[0]
        file.seek(5000)
        file.write(bytes([byte ^ 1]))
    cluster.wait_for(1, cluster.position(0))
    cluster.kill("member1")
    shutil.rmtree(cluster.home(1) / "work")
    cluster.start_member(1)
    took = cluster.wait_for(1, cluster.position(0))
    judge("flipped byte: the damaged snapshot is put aside, the one before is taken",
          pathlib.Path(f"{newest}.damaged").is_dir() and "damaged:" in cluster.journal("member1"),
          f"{took:.1f} s", always=True)
    same_rows(cluster, "flipped byte")
