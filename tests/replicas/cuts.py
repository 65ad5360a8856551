"""Each machine is cut off in turn, one way and both, by nftables in a network of its own."""
from __future__ import annotations

import pathlib
import random
import time
import uuid

from replicas import networks
from replicas.acts import BEGIN
from replicas.checks import Archivist
from replicas.cluster import FAULTS, Cluster, Reply, ask
from kit.judging import judge
from replicas.traffic import Traffic
from replicas.verdict import whole

NETWORKS = ["n0", "n1", "n2"]
WAYS = {"what it sends is lost": ["output"], "what it should get is lost": ["input"],
        "both are lost": ["output", "input"]}
GOING_ON_SECONDS = 60
AGE_LIMIT = 8


def timed(cluster: Cluster, machine: int, method: str, path: str,
          body: bytes | None = None) -> tuple[Reply | None, float]:
    """An answer, if there is one, and its seconds."""
    began = time.time()
    try:
        key = {"Idempotency-Key": uuid.uuid4().hex} if body is not None else {}
        return ask(cluster.place(machine), method, path, body, key), time.time() - began
    except FAULTS:
        return None, time.time() - began


def is_behind(cluster: Cluster, machine: int) -> bool:
    """Whether a plain GET is 503 behind within some seconds after its limit, and none before was older."""
    began = time.time()
    while time.time() - began < AGE_LIMIT + 15:
        reply, _ = timed(cluster, machine, "GET", "/records/1")
        if reply is None or reply.status == 503:
            return reply is not None and reply.body == b'{"error":"behind"}'
        if int(reply.lines["office-age"]) > AGE_LIMIT + 1:
            return False
        time.sleep(0.3)
    return False


def one_cut(cluster: Cluster, traffic: Traffic, machine: int, way: str) -> None:
    """Cuts a machine off, looks at it and at the others, and joins it again."""
    name = f"machine {machine}, {way}"
    networks.cut(NETWORKS[machine], WAYS[way])
    began = time.time()
    others = [it for it in range(3) if it != machine]
    went_on = [traffic.entry_at(it, began) for it in others]
    judge(f"{name}: the others go on", max(went_on) < GOING_ON_SECONDS,
          f"entries after {went_on[0]:.1f} and {went_on[1]:.1f} s", always=True)
    for _ in range(12):
        # until its etcd knows that it has no leader, a POST may be in the log later
        reply, _ = timed(cluster, machine, "POST", "/acts", b"[ ]")
        if reply is not None and reply.status == 503 and b"quorum" in reply.body:
            break
        with traffic.lock:
            traffic.lost.append(b"[ ]")
    replies = [timed(cluster, machine, "POST", "/acts", b"[ ]") for _ in range(5)]
    told = [None if it is None else (it.status, it.body) for it, _ in replies]
    judge(f"{name}: it answers each POST 503 quorum at once",
          all(it == (503, b'{"error":"quorum"}') for it in told), told)
    judge(f"{name}: the slowest of five took less than a second",
          max(it for _, it in replies) < 1, f"{max(it for _, it in replies):.2f} s", always=True)
    judge(f"{name}: it stops answering plain GETs before they are older than its limit", is_behind(cluster, machine),
          cluster.state(machine))
    reply = ask(cluster.place(machine), "GET", "/records/1", None, {"Office-Read": "any"})
    judge(f"{name}: it goes on answering those that take any age",
          reply.status in (200, 404) and int(reply.lines["office-age"]) > AGE_LIMIT, reply)
    networks.cut(NETWORKS[machine], [])
    healed = time.time()
    seconds_away = traffic.entry_at(machine, healed)
    judge(f"{name}: joined again it takes entries", seconds_away < GOING_ON_SECONDS,
          f"{seconds_away:.1f} s", always=True)


def run(folder: pathlib.Path, kills: int) -> None:
    networks.make(NETWORKS, "10.77.0.")
    cluster = Cluster(folder / "cuts", 23000, networks=NETWORKS, age_limit=AGE_LIMIT)
    try:
        cluster.start_all()
        source, log, traffic = random.Random(2), Archivist(cluster), Traffic(cluster, 2)
        log.start()
        traffic.send_acts(source, BEGIN)
        traffic.start()
        for machine in range(3):
            for way in WAYS:
                one_cut(cluster, traffic, machine, way)
        traffic.stop()
        whole(cluster, traffic, log, "cuts", all_kinds=False)
    finally:
        cluster.stop_all()
        networks.remove(NETWORKS)
