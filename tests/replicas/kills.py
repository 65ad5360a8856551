"""The trial by kills: SIGKILL of etcd, offices and members at random moments, under traffic.

Each machine has two killers of its own, one of its etcd, one of the rest. Each waits until its machine
has taken an entry again. So two machines, or all, are often down at once, and what recovers is killed
too. Now and then all machines lose their power at one moment.
"""
from __future__ import annotations

import collections
import os
import pathlib
import random
import signal
import statistics
import threading
import time

from replicas.acts import BEGIN
from replicas.checks import Archivist
from replicas.cluster import Cluster
from kit.judging import judge
from replicas.traffic import Traffic
from replicas.verdict import whole

# what the two killers of a machine kill, how often, and the longest pause before; a machine is its etcd and its member
# at one moment
KINDS = [({"etcd": 1}, 12.0),
         ({"member": 42, "office": 42, "machine": 13, "member, again while it recovers": 3}, 1.5)]
POWER = "power: all etcd and members"
POWER_EVERY = 40
NAMES = {"etcd": ["etcd"], "member": ["member"], "machine": ["member", "etcd"]}


class Killers:
    """The killers of three machines, and what they did."""

    def __init__(self, cluster: Cluster, traffic: Traffic, kills: int, seed: int) -> None:
        self.cluster, self.traffic, self.wanted, self.seed = cluster, traffic, kills, seed
        self.lock = threading.Lock()
        self.machines = [threading.Lock() for _ in range(3)]
        self.done: collections.Counter[str] = collections.Counter()
        self.seconds: dict[str, list[float]] = collections.defaultdict(list)
        self.ended: list[str] = []
        self.until = time.monotonic() + float(os.environ.get("TRIAL_SECONDS", "inf"))

    def run(self) -> None:
        """Until there were so many kills, or something is wrong."""
        threads = [threading.Thread(target=self.killer, args=(machine, kind))
                   for machine in range(3) for kind in range(len(KINDS))]
        for thread in threads:
            thread.start()
        for thread in threads:
            thread.join()

    def total(self) -> int:
        return sum(self.done.values())

    def is_over(self) -> bool:
        """Whether something is wrong, or there is no time for more."""
        return bool(self.traffic.faults or self.ended or time.monotonic() > self.until)

    def take(self, what: str, count: int = 1) -> bool:
        """Whether there may be so many kills more; they are counted then."""
        with self.lock:
            if self.total() + count > self.wanted or self.is_over():
                return False
            self.done[what] += count
            return True

    def killer(self, machine: int, kind: int) -> None:
        source, (chances, longest) = random.Random(self.seed * 10 + machine + 3 * kind), KINDS[kind]
        while not self.is_over() and self.total() < self.wanted:
            time.sleep(source.uniform(0, longest))
            if machine == kind == 0 and self.total() >= POWER_EVERY * (1 + self.done[POWER]):
                what, did = POWER, self.power()
            else:
                what = source.choices(list(chances), list(chances.values()))[0]
                with self.machines[machine]:
                    did = self.kill(what, machine, source)
            if not did:
                continue
            took = self.traffic.entry_at(machine, time.time())
            with self.lock:
                self.seconds[what].append(took)
                self.ended += [name for name, it in list(self.cluster.processes.items())
                               if it.poll() is not None]
                if self.total() % 50 < 2:
                    print(f"{self.total()} kills, {len(self.traffic.posts):,} answers", flush=True)

    def kill(self, what: str, machine: int, source: random.Random) -> bool:
        """One kill, or several of one member, and a new start after a moment."""
        if what == "office":
            self.long_list(source)
            process = self.cluster.office_process(machine)
            if process is None or not self.take(what):
                return False
            os.kill(process, signal.SIGKILL)
            return True
        if what not in NAMES:
            if not self.take(what, 3):
                return False
            for _ in range(3):
                self.cluster.kill(f"member{machine}")
                self.cluster.start_member(machine)
                time.sleep(source.uniform(0, 3))
            return True
        if not self.take(what):
            return False
        if what != "etcd":
            self.long_list(source)
        names = [f"{kind}{machine}" for kind in NAMES[what]]
        self.cluster.kill(*names)
        time.sleep(source.choice([0.02, 0.1, 0.3, 0.8]))
        self.start(names)
        return True

    def long_list(self, source: random.Random) -> None:
        """A long list of acts is on its way at the kill, so that many a kill is in the middle of an entry."""
        acts = self.traffic.maker.acts(source, 40)
        thread = threading.Thread(target=self.traffic.send_acts, daemon=True,
                                  args=(random.Random(source.random()), acts))
        self.traffic.threads.append(thread)
        thread.start()
        time.sleep(source.uniform(0, 0.4))

    def power(self) -> bool:
        """All machines at one moment."""
        if not self.take(POWER):
            return False
        names = [f"{kind}{it}" for kind in ("member", "etcd") for it in range(3)]
        for lock in self.machines:
            lock.acquire()
        try:
            self.cluster.kill(*names)
            self.start(names)
        finally:
            for lock in self.machines:
                lock.release()
        return True

    def start(self, names: list[str]) -> None:
        for name in sorted(names):
            is_etcd = name.startswith("etcd")
            (self.cluster.start_etcd if is_etcd else self.cluster.start_member)(int(name[-1]))

    def table(self) -> str:
        lines = ["| Killed | Kills | Seconds until an entry is answered there: median | Worst |",
                 "|---|---|---|---|"]
        for what, times in self.seconds.items():
            lines.append(f"| {what} | {self.done[what]} | {statistics.median(times):.1f} | "
                         f"{max(times):.1f} |")
        return "\n".join(lines)


def run(folder: pathlib.Path, kills: int, seed: int = 1) -> None:
    cluster = Cluster(folder / "kills", 21000, keys_kept=2000, snapshot_every=120)
    try:
        cluster.start_all()
        log, traffic = Archivist(cluster), Traffic(cluster, seed)
        log.start()
        traffic.send_acts(random.Random(seed), BEGIN)
        traffic.round(random.Random(seed))
        traffic.start()
        time.sleep(3)
        began, killers = time.time(), Killers(cluster, traffic, kills, seed)
        killers.run()
        judge(f"{killers.total()} kills, and no part ended by itself", not killers.ended,
              [(it, cluster.journal(it)[-500:]) for it in killers.ended])
        traffic.stop()
        worked = time.time() - began
        first, tail, kept = log.number("first"), log.number("tail"), log.count("log/")
        judge("the log has what it should, from its first position to its last",
              kept == tail - first + 1, f"{kept} kept, {first} to {tail}")
        whole(cluster, traffic, log, f"{killers.total()} kills")
        restores, as_it_was = (sum(cluster.journal(f"member{it}").count(text) for it in range(3))
                               for text in ("from a snapshot", "as it was"))
        print(f"{killers.total()} kills in {worked:.0f} seconds; the log was kept from {first} on; "
              f"FILE was opened from a snapshot {restores} times, as it was {as_it_was} times")
        print(killers.table(), flush=True)
    finally:
        cluster.stop_all()
