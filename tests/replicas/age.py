"""How old a reading may be, and an office that hangs: a member says so, and stops answering in time."""
from __future__ import annotations

import os
import re
import signal
import subprocess
import threading
import time

from replicas.cluster import FAULTS, Cluster, Reply, ask
from kit.judging import judge
from replicas.posting import begun, get, post, posted, record
from replicas.verdict import same_rows
from kit.waiting import comes

LIMIT = 30
"""the usual value of `age_limit` and of `reading_limit`"""
LIMIT_HERE = 4
"""its value for a slow reading"""


def age_of(reply: Reply) -> int:
    """The age that an answer tells, or a number that is too great where it tells none."""
    told = reply.lines.get("office-age", "")
    return int(told) if told.isdigit() else 10**9


def until_silent(cluster: Cluster, machine: int, seconds: float) -> tuple[list[Reply], float]:
    """The plain readings that a member answers until one is 503, or until so many seconds, and how long it took."""
    answered, began = [], time.monotonic()
    while time.monotonic() - began < seconds:
        reply = get(cluster, machine, "/records/1")
        if reply.status == 503:
            break
        answered.append(reply)
        time.sleep(0.5)
    return answered, time.monotonic() - began


def isolated(cluster: Cluster) -> None:
    """Etcd of machine 2 is stopped: its member has old readings for a while, and says how old; then none."""
    begun(cluster)
    posted(cluster, 2, [record(5)])
    time.sleep(2)
    ages = [age_of(get(cluster, it, "/records/1")) for it in range(3)]
    judge("age: members that hear from each other tell an age of seconds", max(ages) <= 5, ages, always=True)
    reply = get(cluster, 2, "/records/1", Office_Read="Newest")
    judge("age: an Office-Read that is none of the two is 400 header", reply.status == 400, reply)
    cluster.signal("etcd2", signal.SIGSTOP)
    posted(cluster, 0, [record(6)])
    answered, took = until_silent(cluster, 2, LIMIT + 30)
    judge(f"age: readings of a member that is cut off end within {LIMIT} seconds and some", took < LIMIT + 15,
          f"after {took:.0f} s", always=True)
    judge("age: each that it answered before told an age within the limit",
          len(answered) > 0 and all(age_of(it) <= LIMIT + 1 for it in answered), answered[-1:])
    reply = get(cluster, 2, "/records/1")
    judge("age: from then on a plain reading is 503 behind", reply[::2] == (503, b'{"error":"behind"}'), reply)
    reply, told = ask(cluster.place(2), "GET", "/replica"), cluster.state(2) or {}
    judge("age: /replica has status 503, and says why",
          reply.status == 503 and told.get("answers") is False and told.get("quorum") is False
          and int(told.get("heard") or 0) >= LIMIT and "may lack" in str(told.get("why")), (reply.status, told))
    reply = get(cluster, 2, "/records/1", Office_Read="any")
    judge("age: a client that takes any age gets the old state, and its age",
          reply.status == 200 and LIMIT < age_of(reply) < LIMIT + 60, reply)
    judge("age: the others go on", all(get(cluster, it, "/records/1").status == 200 for it in (0, 1)))
    cluster.signal("etcd2", signal.SIGCONT)
    cluster.wait_for(2, cluster.position(0), 120)
    reply = get(cluster, 2, "/records/3")
    judge("age: once it hears again it has what was answered meanwhile, and says 200",
          reply.status == 200 and age_of(reply) <= 5 and ask(cluster.place(2), "GET", "/replica").status == 200, reply)
    same_rows(cluster, "age")


def seen(cluster: Cluster) -> None:
    """A client that has seen an answer goes back in time at no machine; each answer tells its age."""
    begun(cluster)
    faults = []
    for number in range(10, 25):
        machine = number % 3
        position = posted(cluster, machine, [record(number)]).position
        for other in range(3):
            reply = get(cluster, other, f"/records/{number - 8}", Office_After=str(position))
            if reply.status != 200 or reply.position < position:
                faults.append((machine, other, position, reply))
    judge("seen: what one machine answered each other shows to who has seen it", not faults, faults[:3])
    began = time.monotonic()
    replies = [get(cluster, it, "/records/1", Office_After=str(10**6)) for it in range(3)]
    judge("seen: a position that the log does not have is 412 after, at once",
          all(it[::2] == (412, b'{"error":"after"}') for it in replies) and time.monotonic() - began < 15, replies)
    replies += [posted(cluster, 0, [record(1)]), ask(cluster.place(1), "GET", "/replica"), ask(cluster.place(2), "PUT", "/x"),
                ask(cluster.place(1), "POST", "/acts", b"[]", {"Idempotency-Key": "no key"})]
    judge("seen: answers to acts, errors and /replica tell an age too", all(age_of(it) <= 10 for it in replies), replies)
    numbers(cluster)
    same_rows(cluster, "seen")


def slow_reading(cluster: Cluster) -> None:
    """An office that answers a reading slowly, while entries come: the reading is not older than the limit."""
    cluster.settings.update(age_limit=LIMIT_HERE)
    begun(cluster)
    cluster.wait_for(2, cluster.position(0))
    office, replies = cluster.office_process(2), []
    judge("slow reading: member 2 has an office", office is not None)
    if office is None:
        return
    os.kill(office, signal.SIGSTOP)
    reader = threading.Thread(target=lambda: replies.append(get(cluster, 2, "/records/1")))
    reader.start()
    time.sleep(1)
    posted(cluster, 0, [record(5)])
    # what the reading shows is older than the limit once the member is
    is_old = comes(lambda: LIMIT_HERE + 1 < age_of(ask(cluster.place(2), "GET", "/replica")) < 10**9, 60)
    judge("slow reading: the member is behind while its office answers nothing", is_old)
    os.kill(office, signal.SIGCONT)
    reader.join(60)
    judge("slow reading: what would be older than the limit once it is answered is 503 behind",
          [it.body for it in replies] == [b'{"error":"behind"}'], replies)
    cluster.wait_for(2, cluster.position(0), 60)
    judge("slow reading: the next one is answered", get(cluster, 2, "/records/1").status == 200)
    same_rows(cluster, "slow reading")


def numbers(cluster: Cluster) -> None:
    """/metrics in Prometheus' text form, with the numbers of /replica."""
    for machine in range(3):
        cluster.wait_for(machine, cluster.position(0))
    reply = ask(cluster.place(0), "GET", "/metrics")
    lines = reply.body.decode().splitlines()
    found = dict(re.findall(r'^office_member_(\w+)\{log="city",member="m0"\} (\S+)$', reply.body.decode(), re.M))
    described = {it.split()[2] for it in lines if it.startswith(("# HELP ", "# TYPE "))}
    told = cluster.state(0) or {}
    judge("metrics: each number has its help, its kind and one line",
          reply.lines["content-type"] == "text/plain; version=0.0.4" and len(lines) == 3 * len(found) > 30
          and described == {f"office_member_{it}" for it in found}, lines)
    judge("metrics: they are those of /replica, and count what was done",
          int(found["position"]) == told["position"] and found["answers"] == "1" and found["lag"] == "0"
          and int(found["entries_total"]) == told["position"] and int(found["restores_total"]) == told["restores"]
          and 0 < int(found["append_transactions_total"]) <= int(found["appended_total"]), found)


def seconds_until(cluster: Cluster, machine: int, answers: bool, seconds: float) -> float:
    """The seconds until /replica says so, or as many as it is waited for."""
    began = time.monotonic()
    while time.monotonic() - began < seconds:
        try:
            if (ask(cluster.place(machine), "GET", "/replica", timeout=5).status == 200) == answers:
                break
        except FAULTS:
            pass
        time.sleep(0.2)
    return time.monotonic() - began


def hanging(cluster: Cluster) -> None:
    """Offices that are stopped: one that nobody asks, one in a reading, one in an entry."""
    begun(cluster)
    for machine in range(3):
        cluster.wait_for(machine, cluster.position(0))
    office = cluster.office_process(2)
    if not judge("hang: member 2 has an office", office is not None) or office is None:
        return
    os.kill(office, signal.SIGSTOP)
    took = seconds_until(cluster, 2, False, LIMIT + 60)
    is_there = cluster.office_process(2) == office
    judge("hang: within 30 seconds /replica says so, though no client asks, and before the office is ended",
          took < LIMIT and is_there, f"{took:.0f} s", always=True)
    took = seconds_until(cluster, 2, True, 120)
    judge("hang: the office is started again", took < 120 and cluster.office_process(2) not in (None, office),
          f"{took:.0f} s", always=True)
    reply = get(cluster, 2, "/records/1")
    judge("hang: and answers", reply.status == 200, reply)
    office = cluster.office_process(1)
    assert office is not None
    os.kill(office, signal.SIGSTOP)
    began = time.monotonic()
    reply = get(cluster, 1, "/records/1")
    took = time.monotonic() - began
    judge("hang: a reading is 503 within 30 seconds", reply.status == 503 and took < LIMIT,
          f"{reply.body!r} after {took:.0f} s", always=True)
    cluster.wait_for(1, cluster.position(0), 120)
    office = cluster.office_process(0)
    assert office is not None
    os.kill(office, signal.SIGSTOP)
    reply = post(cluster, 0, [record(7)], "hang-1")
    judge("hang: an entry is 503 unknown, or waits until it is done", reply.status in (200, 503), reply)
    reply = posted(cluster, 0, [record(7)], "hang-1")
    judge("hang: the member kills that office, goes back, and does the entry once",
          reply.status == 200 and cluster.office_process(0) != office, reply)
    same_rows(cluster, "hang")


# loaded by Python before the member: the sleep of one module fails, as it does under a clock that is wrapped
FAILING_SLEEP = """
import os, sys, time
began, real = time.monotonic(), time.sleep
def sleep(seconds):
    name = os.path.basename(sys._getframe(1).f_code.co_filename)
    if name == os.environ["TRIAL_SLEEPS"] and time.monotonic() - began > 8:
        raise OSError(22, "Invalid argument")
    real(seconds)
time.sleep = sleep
"""


def threads(cluster: Cluster) -> None:
    """A thread of a member ends by an error: then the member ends, and a new start goes on."""
    begun(cluster)
    folder = cluster.folder / "failing"
    folder.mkdir()
    (folder / "sitecustomize.py").write_text(FAILING_SLEEP)
    for module in ("guard.py", "freshness.py"):
        cluster.kill("member0")
        cluster.environment.update(PYTHONPATH=str(folder), TRIAL_SLEEPS=module)
        cluster.start_member(0)
        try:
            status = cluster.processes["member0"].wait(60)
        except subprocess.TimeoutExpired:
            status = None
        judge(f"threads: without that of {module} the member ends with 1", status == 1, status)
        judge(f"threads: and says why, of {module}", "a thread of the member ended" in cluster.journal("member0"))
        cluster.environment.pop("TRIAL_SLEEPS", None)
        cluster.environment.pop("PYTHONPATH", None)
        if status is not None:
            cluster.processes.pop("member0")
            cluster.start_member(0)
        cluster.wait_for(0)
    judge("threads: started again, it answers", get(cluster, 0, "/records/1").status == 200)
