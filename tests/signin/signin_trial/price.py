"""What a request costs: processor time of nginx and of office-sign-in, by a session, by a token, and by bcrypt."""
from __future__ import annotations

import http.client
import os
import pathlib
import subprocess
from collections.abc import Callable

from gate_trial.world import end_all
from kit.judging import judge, same
from signin_trial.room import TOKEN, basic, session_of
from signin_trial.site import Site

COUNT = 100
TICKS = os.sysconf("SC_CLK_TCK")


def processor(leader: int) -> float:
    """Returns the milliseconds of a processor that a process and its children took."""
    children = subprocess.run(["pgrep", "-P", str(leader)], capture_output=True, text=True, check=False).stdout.split()
    total = 0
    for pid in [str(leader), *children]:
        fields = pathlib.Path(f"/proc/{pid}/stat").read_text().rpartition(")")[2].split()
        total += int(fields[11]) + int(fields[12])
    return 1000 * total / TICKS


def taken(it: Site, work: Callable[[], object]) -> tuple[float, float]:
    """Returns what nginx and the service take for one of many requests."""
    assert it.proxy.process and it.room.process
    pids = (it.proxy.process.pid, it.room.process.pid)
    before = [processor(pid) for pid in pids]
    for _ in range(COUNT):
        work()
    nginx, service = ((processor(pid) - start) / COUNT for pid, start in zip(pids, before))
    return nginx, service


def price(folder: pathlib.Path) -> None:
    it = Site(folder)
    try:
        password = subprocess.run(["htpasswd", "-nbB", "-C", "10", "monitor", "one for all"], check=True, capture_output=True, text=True)
        it.proxy.put("monitor.htpasswd", password.stdout.strip() + "\n")
        it.start()
        cookie = {"Cookie": session_of(it.sign_in("anna"))}
        link = http.client.HTTPSConnection("localhost", it.proxy.port, timeout=60, context=it.proxy.context())

        def ask(path: str, lines: dict[str, str]) -> int:
            link.request("GET", path, headers=lines)
            answer = link.getresponse()
            answer.read()
            return answer.status
        token, monitor = {"Authorization": basic("intake", TOKEN)}, {"Authorization": basic("monitor", "one for all")}
        same("each is answered", [ask("/city/rights", cookie), ask("/city/rights", token), ask("/city/alive", monitor)], [200, 200, 404])
        session, program = taken(it, lambda: ask("/city/rights", cookie)), taken(it, lambda: ask("/city/rights", token))
        bcrypt = taken(it, lambda: ask("/city/alive", monitor))
        for title, (nginx, service) in (("a session", session), ("a token", program), ("bcrypt at cost 10", bcrypt)):
            judge(f"by {title}", True, f"nginx {nginx:.1f} ms, office-sign-in {service:.1f} ms", always=True)
        judge("a session costs less than a fifth of bcrypt", sum(session) * 5 < sum(bcrypt), (session, bcrypt))
        judge("and so does a token", sum(program) * 5 < sum(bcrypt), (program, bcrypt))
    finally:
        it.over.set()
        it.room.stop()
        it.proxy.stop()
        end_all()
        it.slapd.stop()
