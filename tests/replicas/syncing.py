"""What is synced, and when: the office syncs nothing, and FILE is on the disk before the disk says that it is settled."""
from __future__ import annotations

import pathlib
import re
import signal
import subprocess
import sys
import time

from replicas.cluster import REPLICAS, Cluster
from kit.judging import judge
from replicas.posting import begun, posted, record
from replicas.verdict import same_rows
from kit.waiting import comes

IDLE_SECONDS = 4
"""a member settles after one without entries"""
SETTLED_SECONDS = 60
"""and later on a busy machine"""
NAMES = {"memo.db-wal": "memo", "office.db-wal": "log", "office.db": "FILE", "work": "folder"}


def syncs(text: str) -> list[str]:
    """What a trace has of syncs, in order, each file by a word."""
    paths = re.findall(r"\b(?:fsync|fdatasync)\(\d+<([^>]+)>\) *= 0", text)
    return [NAMES.get(pathlib.Path(it).name, it) for it in paths]


def traced(cluster: Cluster, machine: int, number: int) -> list[str]:
    """The syncs of a member while it does some entries, and then none for a while."""
    file = cluster.folder / "trace"
    process = cluster.processes[f"member{machine}"].pid
    tracer = subprocess.Popen(["strace", "-f", "-y", "-e", "trace=fsync,fdatasync", "-o", str(file), "-p", str(process)],
                              stderr=subprocess.DEVNULL)
    comes(lambda: "\nTracerPid:\t0\n" not in pathlib.Path(f"/proc/{process}/status").read_text())
    for it in range(5):
        posted(cluster, machine, [record(number + it)])
    comes(lambda: syncs(file.read_text(errors="replace"))[-3:] == ["FILE", "folder", "memo"], SETTLED_SECONDS)
    tracer.send_signal(signal.SIGINT)
    tracer.wait(30)
    return syncs(file.read_text(errors="replace"))


def traced_start(cluster: Cluster, machine: int) -> tuple[str, str]:
    """What a member syncs and renames until it is settled after its start, and until it has made a snapshot."""
    file, name = cluster.folder / "trace-start", f"member{machine}"
    cluster.kill(name, how=signal.SIGTERM)
    cluster.start(name, machine, ["strace", "-D", "-f", "-y", "-e", "trace=fsync,fdatasync,syncfs,rename", "-o", str(file),
                                  sys.executable, str(REPLICAS / "member"), str(cluster.home(machine) / "settings.json")])
    cluster.wait_for(machine, cluster.position(1))
    comes(lambda: syncs(file.read_text(errors="replace"))[-3:] == ["FILE", "folder", "memo"], SETTLED_SECONDS)
    before = file.read_text(errors="replace")
    posted(cluster, machine, [record(90)])
    cluster.make_snapshot(machine)
    cluster.kill(name, how=signal.SIGTERM)
    cluster.start_member(machine)
    return before, file.read_text(errors="replace")


def started(cluster: Cluster) -> None:
    """A member starts with a settled FILE: the disk has that it is settled no more before the office opens it."""
    before, text = traced_start(cluster, 0)
    found = syncs(before)
    judge("syncs: a start notes that FILE is not settled, and after a pause that it is again",
          found[:1] == ["memo"] and found[-3:] == ["FILE", "folder", "memo"], found)
    steps = re.findall(r"\b(?:syncfs\(\d+<[^>]*/(new)>|rename\(\"[^\"]*/(new)\", \"[^\"]*/0\d+\"|syncfs\(\d+<[^>]*/(snapshots)>)", text)
    judge("syncs: a snapshot is on the disk before it has its name, and the name after that",
          ["".join(it) for it in steps][-3:] == ["new", "new", "snapshots"], steps)


def synced(cluster: Cluster) -> None:
    """A member that does entries after a pause, and pauses again."""
    begun(cluster)
    time.sleep(IDLE_SECONDS)
    found = traced(cluster, 0, 10)
    settled = ["log", "FILE", "folder", "memo"]
    judge("syncs: the disk has that FILE is not settled before the first entry", found[:1] == ["memo"], found)
    judge("syncs: and FILE, its log and their folder before it has that it is settled again",
          found[1:] in ([*settled], [*settled, "memo", *settled], settled[1:]), found)
    office = cluster.office_process(0)
    status = pathlib.Path(f"/proc/{office}/status").read_text()
    judge("syncs: the office has the filter by which it syncs nothing", "\nSeccomp:\t2\n" in status, status)
    started(cluster)
    same_rows(cluster, "syncs")
