"""One trial of each hard place: no quorum, absence, an upgrade, wrong files; those of faults.py."""
from __future__ import annotations

import os
import pathlib
import shutil
import signal
import sqlite3
import subprocess
import threading
import time
import uuid

from replicas import age, faults, going_back, history, late, moving, programs, requests, syncing, together
from replicas.checks import Archivist
from replicas.cluster import TOP, Cluster, ask
from kit.judging import judge
from replicas.posting import begun, get, halts, post, posted, record
from replicas.verdict import same_rows


SETUP, UNITS = TOP / "companions/members/setup", TOP / "companions/members/units"


def no_quorum(cluster: Cluster) -> None:
    """Two of three etcd are gone: POST is 503 at once, GETs go on without a limit of their age, also after
    a new start."""
    cluster.settings.update(age_limit=0)
    begun(cluster)
    posted(cluster, 2, [record(it) for it in range(10, 30)])
    cluster.kill("etcd1", "etcd2")
    key = uuid.uuid4().hex
    began = time.time()
    first = post(cluster, 0, [record(2)], key)
    judge("no quorum: the first POST is 503", first.status == 503,
          f"{first.body!r} after {time.time() - began:.1f} s", always=True)
    seconds, bodies = [], set()
    for _ in range(20):
        began = time.time()
        bodies.add(post(cluster, 0, [record(3)]).body)
        seconds.append(time.time() - began)
    judge("no quorum: the next 20 are 503 quorum", bodies == {b'{"error":"quorum"}'}, bodies)
    judge("no quorum: each at once", max(seconds) < 1, f"slowest {max(seconds):.3f} s", always=True)
    began = time.time()
    told = post(cluster, 1, [record(3)]).body
    judge("no quorum: so is one at a member without its etcd",
          told == b'{"error":"quorum"}' and time.time() - began < 2,
          f"{told!r} {time.time() - began:.2f} s", always=True)
    replies = [ask(cluster.place(it), "POST", path, body) for it in range(3)
               for path, body in (("/acts", b"no acts"), ("/run/resume", None))]
    judge("no quorum: so are a body that is no acts, and a resumption, at all three",
          {(it.status, it.body) for it in replies} == {(503, b'{"error":"quorum"}')}, replies)
    judge("no quorum: GETs go on at all three",
          all(get(cluster, it, "/records/1").status == 200 for it in range(3)))
    judge("no quorum: a GET that asks for the newest is 503",
          get(cluster, 0, "/records/1", Office_Read="newest").body == b'{"error":"quorum"}')
    cluster.kill("member0")
    shutil.rmtree(cluster.home(0) / "work")
    cluster.start_member(0)
    took = cluster.wait_for(0)
    judge("no quorum: a member that lost its FILE does its own machine's log, and answers GETs",
          get(cluster, 0, "/records/20").status == 200, f"{took:.1f} s", always=True)
    cluster.start_etcd(1)
    reply = posted(cluster, 0, [record(2)], key)
    judge("no quorum: with one more etcd POSTs go on, and the first key is done once",
          reply.body == b'[{"number":22}]', reply)
    cluster.start_etcd(2)
    same_rows(cluster, "no quorum")


def same_answers(cluster: Cluster) -> None:
    """What is no request for the log is answered by each member as by the bare office."""
    begun(cluster)
    requests.compared(cluster)
    requests.not_acts(cluster)
    requests.keys(cluster)
    requests.wrong_settings(cluster)
    same_rows(cluster, "requests")


def give_snapshot(cluster: Cluster, machine: int) -> None:
    """Copies the newest snapshot of member 0, unless it was dropped meanwhile, or is there."""
    newest, folder = cluster.snapshots(0)[-1], cluster.home(machine) / "snapshots"
    shutil.rmtree(folder / "coming", ignore_errors=True)
    try:
        shutil.copytree(newest, folder / "coming")
        (folder / "coming").rename(folder / newest.name)
    except OSError:
        pass


def away(cluster: Cluster) -> None:
    """Member 2 ends well and is away for longer than the log; a fourth member joins under load."""
    cluster.settings.update(snapshot_every=20)
    begun(cluster)
    stopping = threading.Event()

    def load(machine: int) -> None:
        number = 0
        while not stopping.is_set():
            number += 1
            posted(cluster, machine, [record(1000 * (machine + 1) + number)])

    threads = [threading.Thread(target=load, args=(it,), daemon=True) for it in range(2)]
    for thread in threads:
        thread.start()
    cluster.wait_for(0, 25)
    cluster.write_settings(3, etcd=0)
    (cluster.home(3) / "snapshots").mkdir()
    began = time.monotonic()
    give_snapshot(cluster, 3)
    cluster.start_member(3)
    while not (cluster.state(3) or {}).get("answers") and time.monotonic() - began < 600:
        time.sleep(5)
        give_snapshot(cluster, 3)
    took = cluster.wait_for(3, cluster.position(0))
    judge("joining: a fourth member joins from a snapshot under load", True,
          f"{took:.1f} s, at {cluster.position(3)}", always=True)
    cluster.kill("member2", how=signal.SIGTERM)
    cluster.etcdctl(0, "del", "/office/city/members/m2")
    left, log = cluster.position(0), Archivist(cluster)
    began = time.monotonic()
    while log.number("first") <= left + 1 and time.monotonic() - began < 300:
        time.sleep(0.3)
    stopping.set()
    for thread in threads:
        thread.join(60)
    judge("away: once the member was struck off, the log was dropped without it",
          log.number("first") > left, f"from {log.number('first')}, it left at {left}", always=True)
    cluster.start_member(2)
    began = time.monotonic()
    while "copy a snapshot" not in cluster.journal("member2") and time.monotonic() - began < 90:
        time.sleep(0.1)
    state = cluster.state(2) or {}
    judge("away: the member finds the gap, says so, and does not answer",
          state.get("answers") is False and "copy a snapshot" in str(state.get("why")), state)
    give_snapshot(cluster, 2)
    took = cluster.wait_for(2, cluster.position(0), 240)
    judge("away: with a newer snapshot in its folder it goes on by itself", True, f"{took:.1f} s",
          always=True)
    same_rows(cluster, "away", [0, 1, 2, 3])


def upgrade(cluster: Cluster) -> None:
    """All at one position, snapshots, stop, the next program, start."""
    begun(cluster)
    for number in range(5):
        posted(cluster, number % 3, [record(10 + number)])
    tail = Archivist(cluster).number("tail")
    for machine in range(3):
        cluster.wait_for(machine, tail)
        cluster.make_snapshot(machine)
    cluster.kill("member0", "member1", "member2", how=signal.SIGTERM)
    program = programs.another_program(cluster)
    cluster.office = str(program)
    for machine in (0, 1):
        cluster.write_settings(machine)
    for machine in range(3):
        cluster.start_member(machine)
    posted(cluster, 0, [record(50)])
    judge("upgrade: a member with the old program halts at the first entry of the new one",
          halts(cluster, 2) == 5, cluster.journal("member2")[-300:])
    cluster.start_member(2)
    judge("upgrade: and does not start again by itself", halts(cluster, 2) == 5)
    (cluster.home(2) / "halted").unlink()
    cluster.write_settings(2)
    cluster.start_member(2)
    cluster.wait_for(2, tail + 1)
    judge("upgrade: with the new program it goes on", posted(cluster, 2, [record(51)]).status == 200)
    same_rows(cluster, "upgrade")


def wrong_file(cluster: Cluster) -> None:
    """A FILE that somebody changed is found by its answers; another log is not followed."""
    begun(cluster)
    time.sleep(3)
    cluster.kill("member2", how=signal.SIGTERM)
    going_back.change_file(cluster, 2)
    cluster.start_member(2)
    cluster.wait_for(2)
    for number in range(25):
        posted(cluster, number % 2, [record(1)])
    judge("wrong file: the member with other answers halts", halts(cluster, 2) == 5,
          cluster.journal("member2")[-300:])
    judge("wrong file: the others go on",
          all(posted(cluster, it, [record(1)]).status == 200 for it in range(2)))
    (cluster.home(2) / "halted").unlink()
    shutil.rmtree(cluster.home(2) / "work")
    cluster.start_member(2)
    cluster.wait_for(2, cluster.position(0))
    judge("wrong file: without that FILE it goes on from its snapshot",
          posted(cluster, 2, [record(1)]).status == 200)
    same_rows(cluster, "wrong file")
    cluster.etcdctl(0, "put", "/office/city/epoch", "another")
    cluster.start_member(1)
    judge("wrong file: no member follows another log", halts(cluster, 1) == 5,
          cluster.journal("member1")[-300:])


def secured(cluster: Cluster) -> None:
    """etcd asks for certificates of the script of companions/members/setup."""
    cluster.tls = cluster.folder / "certificates"
    subprocess.run([SETUP / "certificates", cluster.tls, *(f"m{it}=127.0.0.1" for it in range(3))], check=True,
                   stdout=subprocess.DEVNULL, stderr=subprocess.DEVNULL)
    begun(cluster)
    judge("certificates: members work with them",
          get(cluster, 2, "/records/1", Office_Read="newest").status == 200)
    words = ["curl", "-sS", "--cacert", f"{cluster.tls}/ca.crt",
             f"{cluster.etcd_address(0)}/v3/kv/range", "-d", '{"key":"AA=="}']
    done = subprocess.run(words, capture_output=True, text=True, check=False)
    judge("certificates: without one etcd answers nobody", done.returncode != 0, done)
    cluster.kill("etcd1")
    cluster.start_etcd(1)
    judge("certificates: an etcd that was killed comes back",
          posted(cluster, 1, [record(50)]).status == 200)
    for machine in range(3):
        cluster.wait_for(machine, cluster.position(1))
    judge("certificates: all members are at one position",
          len({cluster.position(it) for it in range(3)}) == 1)
    days = (cluster.state(0) or {}).get("certificate_days")
    judge("certificates: /replica tells the days that are left", isinstance(days, int) and 3640 < days <= 3650, days)
    stolen(cluster, cluster.tls)


def stolen(cluster: Cluster, folder: pathlib.Path) -> None:
    """The certificate of machine 2 is revoked: by its key nobody reads the log any more. It gets another one."""
    for end in ("crt", "key"):
        shutil.copy(folder / f"m2.{end}", folder / f"stolen.{end}")
    words = ["curl", "-sS", "--max-time", "20", "--cacert", f"{folder}/ca.crt", "--cert", f"{folder}/stolen.crt",
             "--key", f"{folder}/stolen.key", f"{cluster.etcd_address(0)}/v3/kv/range", "-d", '{"key":"AA=="}']
    before = subprocess.run(words, capture_output=True, text=True, check=False)
    cluster.kill("member2", "etcd2")
    done = subprocess.run([SETUP / "certificates", folder, "revoke", "m2"], capture_output=True, text=True,
                          check=False)
    judge("stolen: the script revokes its certificate, and takes its key away",
          done.stdout == "m2: revoked\n" and not (folder / "m2.key").exists(), done)
    for machine in (0, 1):
        cluster.kill(f"etcd{machine}", how=signal.SIGTERM)
        cluster.start_etcd(machine)
    reply = posted(cluster, 0, [record(60)])
    after = subprocess.run(words, capture_output=True, text=True, check=False)
    judge("stolen: with its key etcd answered before, and does not afterwards",
          reply.status == 200 and before.returncode == 0 and after.returncode != 0, (before, after))
    subprocess.run([SETUP / "certificates", folder, "m2=127.0.0.1"], check=True, capture_output=True)
    cluster.start_etcd(2)
    cluster.start_member(2)
    cluster.wait_for(2, cluster.position(0))
    judge("stolen: with a new key the machine takes acts again", posted(cluster, 2, [record(61)]).status == 200)


def units(cluster: Cluster) -> None:
    """Etcd and members with the system calls that their units allow, and no others."""
    cluster.units = {"etcd": UNITS / "office-etcd.service",
                     "member": UNITS / "office-member@.service"}
    begun(cluster)
    cluster.make_snapshot(1)
    cluster.kill("member1", "etcd1")
    posted(cluster, 0, [record(10)])
    cluster.start_etcd(1)
    cluster.start_member(1)
    cluster.wait_for(1, cluster.position(0))
    judge("units: what they start works with the system calls that they allow",
          posted(cluster, 1, [record(11)]).status == 200)
    same_rows(cluster, "units")


TRIALS = {
    "no_quorum": no_quorum, "same_answers": same_answers, "full_disk": faults.full_disk, "full_etcd": faults.full_etcd,
    "no_memory": faults.no_memory, "damaged_file": faults.damaged_file, "flipped_byte": faults.flipped_byte,
    "away": away, "upgrade": upgrade, "wrong_file": wrong_file, "secured": secured, "units": units,
    "threads": age.threads, "isolated": age.isolated, "seen": age.seen, "slow_reading": age.slow_reading, "hanging": age.hanging,
    "replaced": programs.replaced, "assumed_disk": programs.assumed_disk, "slow_snapshot": programs.slow_snapshot,
    "slow_copy": programs.slow_copy, "undoable": programs.undoable, "refused": programs.refused, "moved": moving.moved,
    "one_name": moving.one_name, "gone": moving.gone, "together": together.together, "synced": syncing.synced,
    "history": history.history, "dropped": history.dropped, "kept": history.kept, "at_rest": history.at_rest,
    "old_key": history.old_key, "other_body": history.other_body, "late": late.late, "unanswered": late.unanswered,
    "turns": late.turns,
    "half_done": going_back.half_done, "never_back": going_back.never_back, "older_log": going_back.older_log,
    "in_question": going_back.in_question}


def run(folder: pathlib.Path, kills: int) -> None:
    named = [it for it in os.environ.get("TRIALS", "").split(",") if it] or list(TRIALS)
    for name in named:
        cluster = Cluster(folder / name, 25000)
        try:
            TRIALS[name](cluster)
        except (SystemExit, OSError, KeyError, AssertionError, sqlite3.Error,
                subprocess.SubprocessError) as error:
            judge(f"{name} came to its end", False, repr(error)[:2000])
        finally:
            cluster.stop_all()
