"""The program of the office: replaced under a member that runs, slow at a snapshot, unable to do an entry."""
from __future__ import annotations

import hashlib
import os
import pathlib
import random
import shutil
import signal
import subprocess
import sys
import time

from replicas.cluster import OFFICE, REPLICAS, Cluster, ask
from kit.judging import judge
from replicas.posting import begun, get, halts, post, posted, record
from replicas.verdict import same_rows
from kit.waiting import comes

SLOW_SECONDS = 20


def own_program(cluster: Cluster, name: str = "own-office") -> pathlib.Path:
    """A copy of the office's program that a trial may replace."""
    path = cluster.folder / name
    shutil.copy(OFFICE, path)
    os.chmod(path, 0o755)
    return path


def another_program(cluster: Cluster, name: str = "next-office") -> pathlib.Path:
    """A copy of the office's program that works as it does, and has another digest."""
    path = own_program(cluster, name)
    with open(path, "ab") as file:
        file.write(b"\n# the next program\n")
    return path


def wrapped(cluster: Cluster, before: str) -> None:
    """The office's program of this trial does something first."""
    path = cluster.folder / "wrapped-office"
    path.write_text(f'#!/bin/sh\n{before}\nexec "{OFFICE}" "$@"\n')
    path.chmod(0o755)
    cluster.office = str(path)


def running(cluster: Cluster, machine: int) -> str:
    """The digest of what the office of a member runs."""
    process = cluster.office_process(machine)
    if process is None:
        return "none"
    return hashlib.sha256(pathlib.Path(f"/proc/{process}/exe").read_bytes()).hexdigest()


def new_office(cluster: Cluster, machine: int) -> None:
    """The office of a member is killed; afterwards another process serves."""
    old = cluster.office_process(machine)
    assert old is not None
    os.kill(old, signal.SIGKILL)
    began = time.monotonic()
    while cluster.office_process(machine) in (None, old) and time.monotonic() - began < 120:
        time.sleep(0.1)


def replaced(cluster: Cluster) -> None:
    """Another program comes to the name, as an upgrade brings it; then one is written over the file."""
    own = own_program(cluster)
    cluster.office = str(own)
    begun(cluster)
    told = str((cluster.state(1) or {})["program"])
    judge("program: what runs is what /replica names", running(cluster, 1) == told)
    os.replace(another_program(cluster), own)
    new_office(cluster, 1)
    posted(cluster, 1, [record(10)])
    judge("program: after the file was replaced, a new process of the office still runs the program of before",
          running(cluster, 1) == told, (running(cluster, 1), told))
    before = len(cluster.snapshots(1))
    cluster.make_snapshot(1)
    judge("program: and a snapshot is made", len(cluster.snapshots(1)) > before)
    cluster.kill("member2", how=signal.SIGTERM)
    mine = own_program(cluster, "office-of-2")
    cluster.write_settings(2, office=str(mine))
    cluster.start_member(2)
    cluster.wait_for(2, cluster.position(0))
    office = cluster.office_process(2)
    assert office is not None
    cluster.signal("member2", signal.SIGSTOP)
    os.kill(office, signal.SIGKILL)
    comes(lambda: "\nState:\tZ" in pathlib.Path(f"/proc/{office}/status").read_text())
    with open(mine, "ab") as file:
        file.write(b"\n# written over\n")
    cluster.signal("member2", signal.SIGCONT)
    judge("program: a member whose program was written over halts, and runs nothing more", halts(cluster, 2) == 5,
          cluster.journal("member2")[-300:])
    own_program(cluster, "office-of-2")
    (cluster.home(2) / "halted").unlink()
    cluster.start_member(2)
    cluster.wait_for(2, cluster.position(0))
    same_rows(cluster, "program")


def assumed_disk(cluster: Cluster) -> None:
    """The office runs with the disk that the settings name."""
    cluster.settings.update(disk="powersafe")
    begun(cluster)
    office = cluster.office_process(0)
    seen = pathlib.Path(f"/proc/{office}/environ").read_bytes().split(b"\0")
    judge("disk: the office has OFFICE_DISK of the settings", b"OFFICE_DISK=powersafe" in seen, seen)
    judge("disk: and does acts", posted(cluster, 1, [record(5)]).status == 200)


def slow_snapshot(cluster: Cluster) -> None:
    """A snapshot that takes long to examine: acts and readings go on meanwhile."""
    wrapped(cluster, f'[ "$1" != init ] || sleep {SLOW_SECONDS}')
    begun(cluster)
    posted(cluster, 0, [record(10)])
    place = cluster.home(0) / "snapshots" / f"{cluster.position(0):016d}"
    cluster.signal("member0", signal.SIGHUP)
    time.sleep(1)
    slowest, began = 0.0, time.monotonic()
    number = 20
    while not place.is_dir() and time.monotonic() - began < 120:
        at, number = time.monotonic(), number + 1
        posted(cluster, 0, [record(number)])
        get(cluster, 0, "/records/1")
        slowest = max(slowest, time.monotonic() - at)
    took = time.monotonic() - began
    judge("slow snapshot: it is made", place.is_dir(), f"{took:.1f} s", always=True)
    judge("slow snapshot: acts and readings at its member go on meanwhile",
          number > 21 and slowest < SLOW_SECONDS / 2, f"{number - 20} acts, slowest {slowest:.1f} s", always=True)
    same_rows(cluster, "slow snapshot")


def slow_copies(cluster: Cluster) -> str:
    """A PATH on which `cp` waits a second before each file."""
    folder = cluster.folder / "slow"
    folder.mkdir()
    tool = folder / "cp"
    tool.write_text('#!/bin/bash\n# cp --reflink=auto -- FILE .. FOLDER\nfor it in "${@:3:$#-3}"; do\n'
                    '    sleep 1\n    /bin/cp "$1" -- "$it" "${@: -1}" || exit\ndone\n')
    tool.chmod(0o755)
    return f"{folder}:{os.environ['PATH']}"


def slow_copy(cluster: Cluster) -> None:
    """A snapshot's files are copied slowly while entries come: all of them are of one position."""
    cluster.environment["PATH"] = slow_copies(cluster)
    begun(cluster)
    cluster.wait_for(1, cluster.position(0))
    before = len(cluster.snapshots(1))
    cluster.signal("member1", signal.SIGHUP)
    for number in range(20):
        posted(cluster, 0, [record(10 + number)])
        time.sleep(0.2)
    began = time.monotonic()
    while len(cluster.snapshots(1)) == before and time.monotonic() - began < 60:
        time.sleep(0.1)
    at, end = int(cluster.snapshots(1)[-1].name), cluster.position(0)
    judge("slow copy: a snapshot is made while entries come", len(cluster.snapshots(1)) > before and at + 5 < end,
          f"at {at} of {end}", always=True)
    cluster.kill("member1")
    shutil.rmtree(cluster.home(1) / "work")
    cluster.start_member(1)
    cluster.wait_for(1, end)
    chains = {str((cluster.state(it) or {}).get("chain")) for it in range(3)}
    judge("slow copy: a member that goes on from it has the others' hash over its answers", len(chains) == 1, chains)
    same_rows(cluster, "slow copy")


def undoable(cluster: Cluster) -> None:
    """An entry for which no machine has the room: the state before it is read, and it is done once there is room."""
    blocks = cluster.folder / "blocks"
    blocks.write_text("1200\n")
    wrapped(cluster, f'ulimit -f "$(cat {blocks})"')
    begun(cluster)
    source, position = random.Random(8), cluster.position(0)
    acts = [record(10 + it, source.randbytes(250_000)) for it in range(3)]
    reply = post(cluster, 0, acts, "undoable-1")
    judge("undoable: a list for which there is no room is 503 unknown", reply.body == b'{"error":"unknown"}', reply)
    began = time.monotonic()
    while time.monotonic() - began < 240 and not all(
            "not done in" in str((cluster.state(it) or {}).get("why")) for it in range(3)):
        time.sleep(0.3)
    replies = [get(cluster, it, "/records/1", Office_Read="any") for it in range(3)]
    judge("undoable: after some failures each member reads the state before it, and says why",
          all(it.status == 200 and it.position == position for it in replies), [cluster.state(it) for it in range(3)])
    wait_blocked(cluster, (0, 1, 2))
    promises = [cluster.home(it) / "promised" for it in range(3)]
    judge("undoable: what each promises the others is on its own disk",
          all(it.exists() and it.read_text() == str(position + 1) for it in promises))
    replies = [ask(cluster.place(it), "GET", "/replica") for it in range(3)]
    judge("undoable: /replica has status 503", all(it.status == 503 for it in replies), replies)
    reply = post(cluster, 1, [record(5)])
    judge("undoable: acts are 503 recovering", reply.body == b'{"error":"recovering"}', reply)
    blocks.write_text("unlimited\n")
    for machine in range(3):
        cluster.wait_for(machine, position + 1, 300)
    reply = posted(cluster, 2, acts, "undoable-1")
    judge("undoable: with room it is done, once, by itself",
          reply.status == 200 and reply.position == position + 1 and b"same" not in reply.body, reply)
    status, said = refuse(cluster, position + 1)
    judge("undoable: each member has taken its promise back before that, so nobody refuses the entry any more",
          status == 1 and "not promised by m0, m1, m2" in said, said)
    same_rows(cluster, "undoable")


def refuse(cluster: Cluster, position: int) -> tuple[int, str]:
    """The status of `refuse`, and what it said."""
    done = subprocess.run([sys.executable, REPLICAS / "refuse", cluster.home(0) / "settings.json", str(position)],
                          capture_output=True, text=True, check=False)
    return done.returncode, done.stdout + done.stderr


def refused(cluster: Cluster) -> None:
    """An entry for which no machine has the room is refused by an operator; from then on nobody does it."""
    blocks = cluster.folder / "blocks"
    blocks.write_text("1200\n")
    wrapped(cluster, f'ulimit -f "$(cat {blocks})"')
    begun(cluster, 5)
    position = cluster.position(0) + 1
    status, said = refuse(cluster, position)
    judge("refused: an entry that is not there is not refused", status == 1 and "has no entry" in said, said)
    status, said = refuse(cluster, position - 1)
    judge("refused: nor one that members have done", status == 1 and "not promised by m0, m1, m2" in said, said)
    acts = [record(10 + it, random.Random(9).randbytes(250_000)) for it in range(3)]
    cluster.kill("member2")
    post(cluster, 0, acts, "refused-1")
    wait_blocked(cluster, (0, 1))
    status, said = refuse(cluster, position)
    judge("refused: nor one that a member has not promised not to do", status == 1 and "not promised by m2" in said, said)
    cluster.start_member(2)
    wait_blocked(cluster, (2,))
    cluster.kill("member1")
    cluster.start_member(1)
    began = time.monotonic()
    while (told := refuse(cluster, position))[0] == 1 and time.monotonic() - began < 200:
        time.sleep(1)
    judge("refused: once each member has promised it, it is, by an entry of its own",
          told == (0, f"entry {position} is refused by entry {position + 1}\n"), told)
    judge("refused: a second time it is the same", refuse(cluster, position) == told)
    for machine in range(3):
        cluster.wait_for(machine, position + 1, 120)
    replies = [posted(cluster, it, acts, "refused-1") for it in range(3)]
    judge("refused: its client is told so by each member",
          all((it.status, it.body, it.position) == (422, b'{"error":"refused"}', position) for it in replies), replies)
    blocks.write_text("unlimited\n")
    judge("refused: acts go on", posted(cluster, 1, [record(6)]).status == 200)
    cluster.kill("member2")
    shutil.rmtree(cluster.home(2) / "work")
    cluster.start_member(2)
    cluster.wait_for(2, cluster.position(1))
    judge("refused: a member that does the log again, now with room, leaves it out too",
          posted(cluster, 2, acts, "refused-1").status == 422 and posted(cluster, 2, [record(7)]).status == 200)
    same_rows(cluster, "refused")


def wait_blocked(cluster: Cluster, machines: tuple[int, ...]) -> None:
    """Waits until these members have promised not to do an entry."""
    began = time.monotonic()
    while time.monotonic() - began < 240 and not all(
            cluster.etcdctl(0, "get", f"/office/city/blocked/m{it}", "--print-value-only").stdout for it in machines):
        time.sleep(0.3)
