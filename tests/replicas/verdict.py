"""The end of a trial with traffic: every answer, every entry and every row is compared."""
from __future__ import annotations

import signal
import subprocess

from replicas.acts import KINDS
from replicas.checks import Archivist, accepted_kinds, log_faults, replay, rows_of
from replicas.cluster import Cluster
from kit.judging import judge
from replicas.traffic import Traffic


def some(faults: list[str]) -> str:
    """The first of the faults, for a reader."""
    return "\n    ".join([f"{len(faults)} differences", *(it[:600] for it in faults[:5])])


def stop_members(cluster: Cluster, tail: int) -> None:
    """Ends the members by SIGTERM once all are at the end of the log."""
    for machine in range(cluster.count):
        cluster.wait_for(machine, tail)
    states = [cluster.state(machine) or {} for machine in range(cluster.count)]
    judge("all members are at one position with one hash over their answers",
          {it["position"] for it in states} == {tail} and len({it["chain"] for it in states}) == 1,
          states)
    statuses = cluster.kill(*(f"member{it}" for it in range(cluster.count)), how=signal.SIGTERM)
    judge("members end by SIGTERM with status 0", set(statuses) == {0}, statuses)


def same_rows(cluster: Cluster, what: str, machines: list[int] | None = None) -> None:
    """The members that are named, or all, go to the end of the log and end; their files agree."""
    named = list(range(cluster.count)) if machines is None else machines
    tail = Archivist(cluster).number("tail")
    for machine in named:
        cluster.wait_for(machine, tail)
    cluster.kill(*(f"member{it}" for it in named), how=signal.SIGTERM)
    rows = [rows_of(cluster.file(it), cluster.folder / "rows") for it in named]
    counts = {name: len(found) for name, (_, found) in rows[0].items() if found}
    judge(f"{what}: {len(named)} files with the same rows", all(it == rows[0] for it in rows),
          counts, always=True)


def whole(cluster: Cluster, traffic: Traffic, log: Archivist, what: str,
          all_kinds: bool = True) -> None:
    """Judges all that was answered in a trial. Traffic has stopped; members still run."""
    log.finish()
    tail = log.number("tail")
    stop_members(cluster, tail)
    cluster.stop_all()
    entries = log.entries
    judge(f"{what}: the log has no gap, and no position was written twice",
          not log.faults and len(entries) == tail, some(log.faults))
    faults = log_faults(entries, traffic)
    answered = len(traffic.posts)
    judge(f"{what}: each of {answered:,} answered requests is in the log once, at its position",
          not faults, some(faults))
    mine = [it for it in traffic.faults]
    judge(f"{what}: the same key had the same answer, each request an end", not mine, some(mine))
    memory = cluster.folder / "memory"
    memory.mkdir()
    subprocess.run(["mount", "-t", "tmpfs", "tmpfs", memory], check=True)
    answers, faults = replay(entries, memory / "replay.db", cluster.base + 99, traffic.reads)
    judge(f"{what}: {len(traffic.reads):,} readings are those of an empty office after a replay",
          not faults, some(faults))
    faults = [f"{post} but {answers[post.position - 1]}" for post in traffic.posts
              if 1 <= post.position <= tail and (post.status, post.told) != (
                  answers[post.position - 1].status, answers[post.position - 1].body)]
    judge(f"{what}: a replay of {tail:,} entries in an empty office gives the same answers",
          not faults, some(faults))
    late = [it for it in traffic.reads if it.position < it.least]
    judge(f"{what}: no reading is before the position that it asked for", not late,
          some([str(it) for it in late]))
    want = rows_of(memory / "replay.db", cluster.folder / "rows")
    subprocess.run(["umount", "--lazy", memory], check=True)
    other = [it for it in range(cluster.count)
             if rows_of(cluster.file(it), cluster.folder / "rows") != want]
    judge(f"{what}: all {cluster.count} files have the rows of the replay", not other,
          {name: len(rows) for name, (_, rows) in want.items() if rows} if not other else other,
          always=True)
    kinds = accepted_kinds(entries, answers)
    missing = [kind for kind in KINDS if kinds[kind] == 0]
    if all_kinds:
        judge(f"{what}: acts of all eighteen kinds were accepted", not missing,
              f"none of {missing}" if missing else dict(kinds.most_common()), always=True)
    told = [it for it in answers if it.status == 400]
    print(f"{what}: {tail:,} entries, {sum(kinds.values()):,} acts accepted, {len(told)} bodies "
          f"that are no acts, {traffic.keyless:,} requests without a key, {len(traffic.lost)} of "
          f"them perhaps done, {len(traffic.not_taken)} surely not; {sum(it.tries > 1 for it in traffic.posts):,} with a key tried "
          f"again; tries that failed: {dict(traffic.tries)}")
