"""What it costs: acts a second, seconds without answers, seconds to recover, memory."""
from __future__ import annotations

import asyncio
import itertools
import json
import os
import pathlib
import random
import signal
import statistics
import subprocess
import sys
import time
import uuid
from typing import Any, Callable, NamedTuple

from replicas.acts import BEGIN
from replicas.checks import Bare
from replicas.cluster import FAULTS, TOP, Cluster, Place, ask
from kit.judging import judge
from replicas.posting import posted, record
from replicas.verdict import same_rows

PARTS = ["acts", "leader", "recovery"]
ROUNDS = int(os.environ.get("TRIAL_ROUNDS", "5"))
SECONDS = 3.0
# clients, acts a request, bytes of each content
CASES = [(1, 1, 1000), (8, 1, 1000), (32, 1, 1000), (1, 100, 1000)]


def median_and_worst(values: list[float], worst: Callable[[list[float]], float] = max) -> str:
    return f"{statistics.median(values):.2f} | {worst(values):.2f}"


class Numbers:
    """Refs that nobody had before."""

    def __init__(self) -> None:
        self.last = 1_000_000

    def next(self, count: int) -> int:
        self.last += count
        return self.last - count


class Driven(NamedTuple):
    """What clients got: acts a second, requests that were not 200, and the seconds of each that was; and the parts of
    100 of the processors' time that the machine's host took meanwhile."""

    rate: float
    wrong: int
    seconds: list[float]
    stolen: float


def processor_time() -> tuple[int, int]:
    """Of all processors since the start, in ticks: what the host took, and all."""
    told = [int(it) for it in pathlib.Path("/proc/stat").read_text().splitlines()[0].split()[1:9]]
    return told[7], sum(told)


async def asked(port: int, body: bytes) -> bool:
    """Whether a request with a key of its own is answered 200."""
    reader, writer = await asyncio.open_connection("127.0.0.1", port)
    try:
        key, size = f"Idempotency-Key: {uuid.uuid4().hex}", f"Content-Length: {len(body)}"
        writer.write(f"POST /acts HTTP/1.1\r\nHost: trial\r\n{key}\r\n{size}\r\n\r\n".encode() + body)
        head, _, told = (await reader.read()).partition(b"\r\n\r\n")
        return head.startswith(b"HTTP/1.1 200 ") and b"Content-Length: %d\r\n" % len(told) in head + b"\r\n"
    finally:
        writer.close()


async def driven(ports: list[int], each: int, size: int, numbers: Numbers) -> tuple[int, list[float]]:
    """What clients get done in SECONDS, one for each port: how many requests were not answered 200, and the seconds of
    each that was. They take turns in one thread, so that none waits for another one's."""
    until, wrong = time.time() + SECONDS, 0
    seconds: list[float] = []

    async def client(number: int, port: int) -> None:
        nonlocal wrong
        source = random.Random(number)
        while time.time() < until:
            first = numbers.next(each)
            body = json.dumps([record(first + it, source.randbytes(size)) for it in range(each)]).encode()
            at = time.time()
            try:
                is_right = await asyncio.wait_for(asked(port, body), 40)
            except (OSError, TimeoutError):
                is_right = False
            if is_right:
                seconds.append(time.time() - at)
            wrong += not is_right

    await asyncio.gather(*itertools.starmap(client, enumerate(ports)))
    return wrong, seconds


def drive(places: list[Place], clients: int, each: int, size: int, numbers: Numbers) -> Driven:
    """What clients get done in SECONDS."""
    ports = [places[it % len(places)].port for it in range(clients)]
    began, (stolen, ticks) = time.time(), processor_time()
    wrong, seconds = asyncio.run(driven(ports, each, size, numbers))
    took, (stolen_then, ticks_then) = time.time() - began, processor_time()
    return Driven(each * len(seconds) / took, wrong, seconds, 100 * (stolen_then - stolen) / max(1, ticks_then - ticks))


def percentile(values: list[float], part: float) -> float:
    """In milliseconds."""
    return 1000 * sorted(values)[min(len(values) - 1, int(part * len(values)))] if values else float("nan")


def acts_a_second(folder: pathlib.Path) -> None:
    """The bare office, one member and three take turns, so that other work falls on all alike."""
    bare = Bare(folder / "bare.db", 26999)
    bare.post("acts", json.dumps(BEGIN).encode())
    usual: dict[str, Any] = {"snapshot_every": 1000, "snapshot_pause": 30, "compare_every": 100}
    one, three = Cluster(folder / "one", 26000, 1, **usual), Cluster(folder / "three", 26100, 3, **usual)
    numbers, wrong = Numbers(), 0
    try:
        for cluster in (one, three):
            cluster.start_all()
            posted(cluster, 0, BEGIN)
        ways = {"bare `serve`": [bare.place], "one member": [one.place(0)],
                "three members, clients at one": [three.place(0)],
                "three members, clients at all": [three.place(it) for it in range(3)]}
        print("| Clients, acts a request | Way | Acts a second: median | Worst | Milliseconds: p50 | p99 "
              "| Taken by the host, parts of 100: median | Worst |\n|---|---|---|---|---|---|---|---|")
        for clients, each, size in CASES:
            found: dict[str, list[Driven]] = {way: [] for way in ways}
            for _ in range(ROUNDS):
                for way, places in ways.items():
                    found[way].append(drive(places, clients, each, size, numbers))
                    wrong += found[way][-1].wrong
            for way, rounds in found.items():
                seconds = [it for round in rounds for it in round.seconds]
                print(f"| {clients}, {each} | {way} | {median_and_worst([it.rate for it in rounds], min)} | "
                      f"{percentile(seconds, 0.5):.1f} | {percentile(seconds, 0.99):.0f} | "
                      f"{median_and_worst([it.stolen for it in rounds])} |", flush=True)
        judge("acts a second: each request of the measure was answered 200", wrong == 0, wrong)
        memory({"bare `serve`": bare.process.pid, **processes(three, 0)})
    finally:
        one.stop_all()
        three.stop_all()
        bare.end()


def processes(cluster: Cluster, machine: int) -> dict[str, int]:
    """The three processes of a machine."""
    return {"etcd": cluster.processes[f"etcd{machine}"].pid,
            "member": cluster.processes[f"member{machine}"].pid,
            "its office": cluster.office_process(machine) or os.getpid()}


def memory(named: dict[str, int]) -> None:
    """The memory of processes, now and at most."""
    print("| Process | Resident, KB | Most, KB |\n|---|---|---|")
    for name, process in named.items():
        lines = pathlib.Path(f"/proc/{process}/status").read_text().splitlines()
        told = dict(line.split(":\t", 1) for line in lines if ":\t" in line)
        print(f"| {name} | {told['VmRSS'].strip(' kB')} | {told['VmHWM'].strip(' kB')} |")


def leader_dies(folder: pathlib.Path, kills: int) -> None:
    """The machine of etcd's leader is killed; a client posts to the two others in turn."""
    cluster = Cluster(folder / "leader", 27000)
    silent: list[float] = []
    try:
        cluster.start_all()
        posted(cluster, 0, BEGIN)
        for _ in range(kills):
            leader = cluster.leader()
            if leader is None:
                time.sleep(0.5)
                continue
            others = [it for it in range(3) if it != leader]
            cluster.kill(f"member{leader}", f"etcd{leader}")
            silent.append(until_answered(cluster, others))
            cluster.start_etcd(leader)
            cluster.start_member(leader)
            cluster.wait_for(leader)
        print("| | Times | Seconds: median | Worst |\n|---|---|---|---|\n"
              f"| until another machine answers, once that of etcd's leader was killed "
              f"| {len(silent)} | {median_and_worst(silent)} |")
        judge("leader: another machine answers each time", len(silent) > 0 and max(silent) < 60,
              silent)
        same_rows(cluster, "leader")
    finally:
        cluster.stop_all()


def until_answered(cluster: Cluster, machines: list[int]) -> float:
    """As a client that tries the same key at one machine after another, two seconds each."""
    key, began = uuid.uuid4().hex, time.time()
    while time.time() - began < 60:
        for machine in machines:
            try:
                reply = ask(cluster.place(machine), "POST", "/acts", b"[]",
                            {"Idempotency-Key": key}, timeout=2)
                if reply.status == 200:
                    return time.time() - began
            except FAULTS:
                pass
        time.sleep(0.02)
    return time.time() - began


def recovery(folder: pathlib.Path, records: int, times: int) -> None:
    """A member of an office of so many records is killed under load, and its office too."""
    file = folder / f"{records}.db"
    subprocess.run([sys.executable, str(TOP / "tests/save_records.py"), "whole", str(file),
                    str(records)], check=True, stdout=subprocess.DEVNULL)
    cluster = Cluster(folder / f"recovery{records}", 28000, snapshot_every=1000)
    settled: list[float] = []
    lost: list[float] = []
    try:
        cluster.start_all(file)
        for what, seconds in (("member", settled), ("FILE", lost)):
            for number in range(times):
                posted(cluster, 0, [{"act": "run-step"}])
                cluster.wait_for(2, cluster.position(0))
                time.sleep(2)
                cluster.kill("member2")
                if what == "FILE":
                    posted(cluster, 0, [{"act": "run-step"}] * (number + 1))
                    subprocess.run(["rm", "-r", str(cluster.home(2) / "work")], check=True)
                began = time.time()
                cluster.start_member(2)
                cluster.wait_for(2, cluster.position(0), 900)
                seconds.append(time.time() - began)
        size = file.stat().st_size
        print(f"| {records:,} | {size:,} | settled | {times} | {median_and_worst(settled)} |\n"
              f"| {records:,} | {size:,} | from a snapshot | {times} | {median_and_worst(lost)} |",
              flush=True)
        judge(f"recovery: a member with {records:,} records answers after each kill", True)
        memory(processes(cluster, 2))
        cluster.kill("member0", "member1", "member2", how=signal.SIGTERM)
    finally:
        cluster.stop_all()
        file.unlink()


def run(folder: pathlib.Path, kills: int) -> None:
    """All measures, beside whatever else this machine does."""
    load = pathlib.Path("/proc/loadavg").read_text().split()[0]
    print(f"load of this machine as they begin: {load}, on {os.cpu_count()} processors")
    named = [it for it in os.environ.get("TRIALS", "").split(",") if it] or PARTS
    if "acts" in named:
        acts_a_second(folder)
    if "leader" in named:
        leader_dies(folder, 10 if kills >= 100 else 4)
    if "recovery" in named:
        print("| Records | Bytes of FILE | Opened | Times | Seconds until it answers: median | "
              "Worst |\n|---|---|---|---|---|---|")
        for records in os.environ.get("TRIAL_RECORDS", "1000,20000,200000").split(","):
            recovery(folder, int(records), 3)
