"""An office that moves to members, two members of one name, and a FILE that goes away under its member."""
from __future__ import annotations

import os
import pathlib
import shutil
import signal
import subprocess
import sys
import time

from replicas.acts import BEGIN, as_body
from replicas.checks import Bare
from replicas.cluster import REPLICAS, Cluster
from kit.judging import judge
from replicas.posting import begun, get, halts, posted, record
from replicas.verdict import same_rows


def found(cluster: Cluster, machine: int, *words: str | pathlib.Path) -> tuple[int, str]:
    """The status of `found` with these words, and what it said."""
    done = subprocess.run([sys.executable, REPLICAS / "found", cluster.home(machine) / "settings.json", *words],
                          capture_output=True, text=True, check=False)
    return done.returncode, done.stdout + done.stderr


def log_of(file: pathlib.Path) -> pathlib.Path:
    return pathlib.Path(f"{file}-wal")


def moved(cluster: Cluster) -> None:
    """An office that is served is not taken; one that is stopped is, with its log, and is put aside."""
    for machine in range(3):
        cluster.write_settings(machine)
        cluster.start_etcd(machine)
    cluster.etcdctl(0, "get", "/office")
    file = cluster.folder / "office.db"
    aside = pathlib.Path(f"{file}.moved")
    bare = Bare(file, cluster.base + 97)
    bare.post("acts", as_body([*BEGIN, record(1)]))
    status, said = found(cluster, 0, file)
    judge("moving: an office that is in use is not taken", status == 3 and "somebody has" in said, (status, said))
    judge("moving: and is as it was", file.exists() and not aside.exists()
          and not list(cluster.home(0).glob("snapshots/0*")))
    bare.post("acts", as_body([record(2)]))
    bare.end()
    log = log_of(file).stat().st_size
    shutil.rmtree(cluster.home(0) / "snapshots", ignore_errors=True)
    status, said = found(cluster, 0, file)
    judge("moving: once it is stopped it is taken", status == 0 and f"{aside}" in said, (status, said))
    judge("moving: FILE and its log have other names then", not file.exists() and not log_of(file).exists()
          and aside.stat().st_nlink == 1 and log_of(aside).stat().st_size == log)
    other = cluster.folder / "other.db"
    shutil.copy(aside, other)
    shutil.copy(log_of(aside), log_of(other))
    status, said = found(cluster, 1, other)
    judge("moving: where the log is there already, FILE is as it was",
          status == 1 and other.exists() and log_of(other).stat().st_size == log
          and not pathlib.Path(f"{other}.moved").exists(), (status, said))
    cluster.write_settings(1, log="second")
    status, said = found(cluster, 1, "--copy", other)
    judge("moving: another log begins with a copy, which stays as it is",
          status == 0 and other.exists() and log_of(other).stat().st_size == log, (status, said))
    cluster.write_settings(1)
    shutil.rmtree(cluster.home(1) / "snapshots", ignore_errors=True)
    for machine in (1, 2):
        shutil.copytree(cluster.home(0) / "snapshots", cluster.home(machine) / "snapshots")
    for machine in range(3):
        cluster.start_member(machine)
    for machine in range(3):
        cluster.wait_for(machine)
    judge("moving: the members have all that it answered",
          all(get(cluster, it, "/records/2").status == 200 for it in range(3)))
    same_rows(cluster, "moving")


def one_name(cluster: Cluster) -> None:
    """A second member with the name of another halts; a new one may have the name of one that was struck off."""
    begun(cluster)
    cluster.wait_for(1, cluster.position(0))
    cluster.write_settings(3, etcd=0, name="m1")
    shutil.copytree(cluster.home(0) / "snapshots", cluster.home(3) / "snapshots")
    cluster.start_member(3)
    judge("one name: a second member of that name halts, and says whose it is",
          halts(cluster, 3) == 5 and "has the name m1" in cluster.journal("member3"), cluster.journal("member3")[-300:])
    judge("one name: the first goes on", posted(cluster, 1, [record(10)]).status == 200)
    cluster.kill("member1", how=signal.SIGTERM)
    cluster.etcdctl(0, "del", "/office/city/members/m1")
    (cluster.home(3) / "halted").unlink(missing_ok=True)
    cluster.start_member(3)
    cluster.wait_for(3, cluster.position(0))
    judge("one name: once that one was struck off, the other takes the name",
          posted(cluster, 3, [record(11)]).status == 200)
    began = time.monotonic()
    while not cluster.etcdctl(0, "get", "/office/city/members/m1").stdout and time.monotonic() - began < 60:
        time.sleep(0.2)
    cluster.start_member(1)
    judge("one name: and the first one halts when it comes back", halts(cluster, 1) == 5,
          cluster.journal("member1")[-300:])
    same_rows(cluster, "one name", [0, 2, 3])


def gone(cluster: Cluster) -> None:
    """FILE goes away under a member that runs: it makes no office anew, and no snapshot of one."""
    begun(cluster)
    posted(cluster, 0, [record(10)])
    cluster.wait_for(1, cluster.position(0))
    cluster.make_snapshot(1)
    for times, what in enumerate(("the snapshot", "the office"), 1):
        posted(cluster, 0, [record(11)])
        cluster.wait_for(1, cluster.position(0))
        cluster.file(1).unlink()
        if what == "the snapshot":
            cluster.signal("member1", signal.SIGHUP)
        else:
            office = cluster.office_process(1)
            assert office is not None
            os.kill(office, signal.SIGKILL)
        began = time.monotonic()
        while cluster.journal("member1").count("is gone, or empty") < times and time.monotonic() - began < 60:
            time.sleep(0.1)
        cluster.wait_for(1, cluster.position(0), 120)
        reply = get(cluster, 1, "/records/1")
        judge(f"gone: without its FILE, found at {what}, a member goes back to its snapshot",
              reply.status == 200 and cluster.file(1).exists(), reply)
    same_rows(cluster, "gone")
