"""Partitions of every shape, lossy links, stopped and killed processes, under traffic; then every answer is judged.

Each machine is in a network of its own. One fault after another is made, now and then a kill in the middle of one, and
healed again, until the log has as many entries as are wanted (TRIAL_ENTRIES, 20,000) and each kind of fault was there.
"""
from __future__ import annotations

import collections
import os
import pathlib
import random
import signal
import time
from typing import Callable

from replicas import networks
from replicas.acts import BEGIN
from replicas.checks import Archivist, stale
from replicas.cluster import Cluster
from kit.judging import judge
from replicas.networks import Drop
from replicas.traffic import Traffic
from replicas.verdict import whole

NETWORKS = ["n0", "n1", "n2"]
ENTRIES = int(os.environ.get("TRIAL_ENTRIES", "20000"))
POSTERS, READERS = 12, 3
AGE_LIMIT = 8
LONGEST, PAUSE = 6.0, 1.5
"""seconds of a fault at most, and between two"""


class Nemesis:
    """What goes wrong, one after another."""

    def __init__(self, cluster: Cluster, source: random.Random) -> None:
        self.cluster, self.source = cluster, source
        self.done: collections.Counter[str] = collections.Counter()
        self.kinds: dict[str, Callable[[], None]] = {
            "one isolated": lambda: self.cut(self.isolated(("output", "input"))),
            "one sends nothing": lambda: self.cut(self.isolated(("output",))),
            "one gets nothing": lambda: self.cut(self.isolated(("input",))),
            "one link cut": lambda: self.cut(self.link(100)),
            "a link of one way": lambda: self.cut(self.link(100)[:1]),
            "a ring of one way": lambda: self.cut([Drop(it, "output", (it + 1) % 3) for it in range(3)]),
            "all three apart": lambda: self.cut([Drop(it, "output", None) for it in range(3)]),
            "a lossy link": lambda: self.cut(self.link(30)),
            "all links lossy": lambda: self.cut([Drop(it, "output", None, 15) for it in range(3)]),
            "etcd stopped": lambda: self.stopped("etcd"), "member stopped": lambda: self.stopped("member"),
            "office stopped": self.stopped_office, "a machine stopped": lambda: self.stopped("etcd", "member"),
            "etcd killed": lambda: self.killed("etcd"), "member killed": lambda: self.killed("member"),
            "office killed": self.killed_office, "a machine killed": lambda: self.killed("member", "etcd"),
            "power": self.power, "killed while isolated, started alone": self.killed_alone,
            "killed while the links are lossy": self.killed_in_loss}

    def run(self, tail: Callable[[], int], is_over: Callable[[], bool]) -> None:
        names: list[str] = []
        while not is_over() and (tail() < ENTRIES or set(self.done) < set(self.kinds)):
            names = names or self.source.sample(list(self.kinds), len(self.kinds))
            name = names.pop()
            self.kinds[name]()
            self.heal()
            self.done[name] += 1
            if self.done.total() % 20 == 0:
                print(f"{self.done.total()} faults, {tail():,} entries", flush=True)
            time.sleep(self.source.uniform(0, PAUSE))

    # ---- parts

    def machine(self) -> int:
        """Half of the time that of etcd's leader."""
        leader = self.cluster.leader() if self.source.random() < 0.5 else None
        return self.source.randrange(3) if leader is None else leader

    def wait(self) -> None:
        time.sleep(self.source.uniform(0.5, LONGEST))

    def cut(self, drops: list[Drop]) -> None:
        networks.lose(NETWORKS, drops)
        self.wait()

    def heal(self) -> None:
        networks.lose(NETWORKS, [])

    def isolated(self, chains: tuple[str, ...]) -> list[Drop]:
        machine = self.machine()
        return [Drop(machine, chain, None) for chain in chains]

    def link(self, percent: int) -> list[Drop]:
        one, other = self.source.sample(range(3), 2)
        return [Drop(one, "output", other, percent), Drop(other, "output", one, percent)]

    def stopped(self, *kinds: str) -> None:
        machine = self.machine()
        for what in (signal.SIGSTOP, signal.SIGCONT):
            for kind in kinds:
                self.cluster.signal(f"{kind}{machine}", what)
            if what == signal.SIGSTOP:
                self.wait()

    def signal_office(self, what: int) -> int | None:
        process = self.cluster.office_process(self.source.randrange(3))
        if process is not None:
            os.kill(process, what)
        return process

    def stopped_office(self) -> None:
        process = self.signal_office(signal.SIGSTOP)
        self.wait()
        try:
            if process is not None:
                os.kill(process, signal.SIGCONT)
        except ProcessLookupError:
            pass

    def killed_office(self) -> None:
        self.signal_office(signal.SIGKILL)

    def killed(self, *kinds: str) -> None:
        machine = self.machine()
        self.cluster.kill(*(f"{kind}{machine}" for kind in kinds))
        self.wait()
        self.start(machine, *kinds)

    def start(self, machine: int, *kinds: str) -> None:
        for kind in sorted(kinds):
            (self.cluster.start_etcd if kind == "etcd" else self.cluster.start_member)(machine)

    def power(self) -> None:
        self.cluster.kill(*(f"{kind}{it}" for kind in ("member", "etcd") for it in range(3)))
        for machine in range(3):
            self.start(machine, "etcd", "member")

    def killed_alone(self) -> None:
        """A machine is killed while it is isolated, and comes back while it still is."""
        machine = self.machine()
        networks.lose(NETWORKS, [Drop(machine, chain, None) for chain in ("output", "input")])
        time.sleep(1)
        self.cluster.kill(f"member{machine}", f"etcd{machine}")
        self.wait()
        self.start(machine, "etcd", "member")
        self.wait()

    def killed_in_loss(self) -> None:
        networks.lose(NETWORKS, [Drop(it, "output", None, 15) for it in range(3)])
        self.killed("member")


def run(folder: pathlib.Path, kills: int) -> None:
    networks.make(NETWORKS, "10.77.0.")
    cluster = Cluster(folder / "partitions", 24000, networks=NETWORKS, age_limit=AGE_LIMIT, snapshot_every=500)
    try:
        cluster.start_all()
        source, log, traffic = random.Random(kills), Archivist(cluster), Traffic(cluster, kills, POSTERS, READERS)
        log.start()
        traffic.send_acts(source, BEGIN)
        traffic.start()
        nemesis, began = Nemesis(cluster, source), time.monotonic()
        until = began + float(os.environ.get("TRIAL_SECONDS", "inf"))
        nemesis.run(lambda: len(log.entries), lambda: bool(traffic.faults) or time.monotonic() > until)
        traffic.stop()
        took = time.monotonic() - began
        judge(f"partitions: {nemesis.done.total()} faults of {len(nemesis.done)} kinds, each of the {len(nemesis.kinds)}",
              len(nemesis.done) == len(nemesis.kinds) or time.monotonic() > until, dict(nemesis.done), always=True)
        joined = sum(number(cluster, it, "joined_entries_total") for it in range(3))
        judge("partitions: entries were joined", joined > 0, f"{joined} at the last processes of the members", always=True)
        whole(cluster, traffic, log, "partitions", all_kinds=False)
        found = stale(traffic, AGE_LIMIT)
        judge(f"partitions: none of {len(traffic.reads):,} readings lacks what was answered before its age",
              len(traffic.reads) > 0 and not found, "\n    ".join([str(len(found)), *found[:5]]))
        print(f"partitions: {took:.0f} seconds; ages of readings up to {max(it.age for it in traffic.reads):.0f} s")
    finally:
        cluster.stop_all()
        networks.remove(NETWORKS)


def number(cluster: Cluster, machine: int, name: str) -> int:
    """A number of a member's metrics."""
    return cluster.metrics(machine).get(f"office_member_{name}", 0)
