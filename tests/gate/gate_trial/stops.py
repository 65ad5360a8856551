"""A stop and a start that nobody sees: of the office behind the gate, and of the gate itself, as systemd does both."""
import json
import os
import pathlib
import signal
import socket
import threading
import time
from collections import Counter

from gate_trial.base import SETTINGS, plan
from kit.judging import judge, same
from gate_trial.world import HERE, TOKEN, World, today

ROUNDS = 5
STOPS = 20
"""so often the gate stops under requests: one that comes as it stops is seldom"""
LONG = b"[" + b'{"act":"lift-hold"},' * 50_000
"""what the gate reads for a while, and refuses, so that much comes in one turn of its loop"""


def tried(folder: pathlib.Path) -> None:
    world = World(folder, SETTINGS)
    notes = Notes(world)
    world.listen()
    world.start_office()
    world.start_gate()
    judge("systemd is told that it is ready", notes.has(b"READY=1"))
    same("the plan", world.act("records-manager", *plan())[0], 200)
    judge("the watchdog hears from it", notes.has(b"WATCHDOG=1", 10))
    of_the_office(world)
    had(world)
    cut(world)
    of_the_gate(world)
    accepted(world)
    gone(world)
    away(world)
    same("systemd is told of the end", (world.stop_gate(), notes.has(b"STOPPING=1", STOPS + 4 * ROUNDS + 3)), (0, True))
    judge("the chain holds", world.check().returncode == 0, world.check().stderr)
    world.end()


class Notes:
    """What systemd would be told."""

    def __init__(self, world: World) -> None:
        self.link = socket.socket(socket.AF_UNIX, socket.SOCK_DGRAM)
        self.link.bind(str(world.folder / "notify"))
        world.more = {"NOTIFY_SOCKET": str(world.folder / "notify"), "WATCHDOG_USEC": "400000"}
        self.seen: list[bytes] = []
        threading.Thread(target=self.read, daemon=True).start()

    def read(self) -> None:
        while True:
            self.seen.append(self.link.recv(4096))

    def has(self, word: bytes, count: int = 1) -> bool:
        """Whether something is told so often within some seconds."""
        for _ in range(1000):
            if sum(word in it for it in self.seen) >= count:
                return True
            time.sleep(0.02)
        return False


class Clients:
    """Clients that read and act, one request after another, until they are stopped."""

    def __init__(self, world: World, count: int = 4) -> None:
        self.world, self.stop = world, threading.Event()
        self.found: list[tuple[int, object]] = []
        self.threads = [threading.Thread(target=self.run, args=(it,)) for it in range(count)]
        for it in self.threads:
            it.start()

    def run(self, at: int) -> None:
        number = 0
        while not self.stop.is_set():
            number += 1
            code = f"{at}-{os.getpid() % 1000}-{number}-{int(time.time()) % 100000}"[:16]
            what = self.world.act("legal", {"act": "place-hold", "code": code, "reason": "r"}) if number % 2 else \
                self.world.get("auditor", "/records/1")
            self.found.append(what)

    def end(self) -> list[tuple[int, object]]:
        self.stop.set()
        for it in self.threads:
            it.join()
        return self.found


class Long:
    """Clients that send long bodies, which are no lists, until they are stopped."""

    def __init__(self, world: World, count: int = 3) -> None:
        self.world, self.stop = world, threading.Event()
        self.found: list[int] = []
        self.threads = [threading.Thread(target=self.run) for _ in range(count)]
        for it in self.threads:
            it.start()

    def run(self) -> None:
        while not self.stop.is_set():
            self.found.append(self.world.ask("legal", "POST", "/acts", LONG)[0])

    def end(self) -> list[int]:
        self.stop.set()
        for it in self.threads:
            it.join()
        return self.found


def of_the_office(world: World) -> None:
    """Requests wait while the office is away. What was under way as it was killed is unknown, and nobody says else."""
    clients = Clients(world)
    for _ in range(ROUNDS):
        time.sleep(0.3)
        world.stop_office()
        time.sleep(0.3)
        world.start_office()
    time.sleep(0.5)
    found = clients.end()
    statuses = [status for status, _ in found]
    # no code is there twice, so a refusal would say that an act was sent twice
    judge("each request has an answer", set(statuses) <= {200, 502}, set(statuses))
    # one that the office had, and one that it was about to take as it ended
    judge("two at most were lost at each kill", statuses.count(502) <= 2 * ROUNDS, statuses.count(502))
    judge("its answer says so", all(said == {"error": "unknown"} for status, said in found if status == 502))
    unknown = [it for it in world.lines() if it["what"] == "answered" and it.get("known") is False]
    same("the journal says so too", len(unknown), statuses.count(502))
    judge("most of them were done", statuses.count(200) > len(statuses) // 2, len(statuses))


def asked(world: World, code: str) -> dict:
    """Waits until an act is in the journal, while the office stands still, and a moment more, so that the office has it.
    Returns its line."""
    found: list[dict] = []
    for _ in range(400):
        found = [it for it in world.lines() if it["what"] == "asked" and it["acts"][0].get("code") == code]
        if found:
            break
        time.sleep(0.05)
    judge(f"{code} is in the journal before the office does it", found)
    time.sleep(0.5)
    return found[0] if found else {"line": 0}


def answered(world: World, line: dict) -> list[dict]:
    """Returns the lines of the answers to a request."""
    return [it for it in world.lines() if it["what"] == "answered" and it["of"] == line["line"]]


def had(world: World) -> None:
    """An office is killed that has an act and does nothing with it: that is not sent to the next one."""
    hold = {"act": "place-hold", "code": "HAD", "reason": "r"}
    found: list = []
    assert world.office is not None
    world.office.send_signal(signal.SIGSTOP)
    one = threading.Thread(target=lambda: found.append(world.act("legal", hold)))
    one.start()
    line = asked(world, "HAD")
    world.stop_office()
    world.start_office()
    one.join()
    same("an act that the office had is unknown", found, [(502, {"error": "unknown"})])
    same("the journal says so", [(it["status"], it["known"]) for it in answered(world, line)], [(502, False)])
    same("it was not sent again", world.act("legal", hold), (200, [{"done": True}]))


def cut(world: World) -> None:
    """An office that is not there while an act comes: it is done once, as the office is there."""
    world.stop_office()
    found: list = []
    one = threading.Thread(target=lambda: found.append(world.act("legal",
                                                                 {"act": "place-hold", "code": "ONCE", "reason": "r"})))
    one.start()
    time.sleep(1)
    same("it waits", found, [])
    world.start_office()
    one.join()
    same("and is done", found, [(200, [{"done": True}])])
    same("once", world.act("legal", {"act": "place-hold", "code": "ONCE", "reason": "r"})[1], [{"refused": 4}])


def of_the_gate(world: World) -> None:
    """While the gate stops and starts nobody is refused: what comes waits at the socket."""
    clients, long = Clients(world, 8), Long(world)
    for _ in range(STOPS):
        time.sleep(0.1)
        same("it ends well", world.stop_gate(), 0)
        world.start_gate()
    time.sleep(0.5)
    refused, statuses = long.end(), [status for status, _ in clients.end()]
    same("each request was done", Counter(statuses), {200: len(statuses)})
    same("each long one was refused", Counter(refused), {400: len(refused)})
    judge("there were some", len(statuses) > 10 and len(refused) > STOPS, (len(statuses), len(refused)))
    # an act that is under way as the end is asked for is done, and answered
    world.office.send_signal(signal.SIGSTOP)
    answers: list = []
    last = {"act": "place-hold", "code": "LAST", "reason": "r"}
    one = threading.Thread(target=lambda: answers.append(world.act("legal", last)))
    one.start()
    time.sleep(0.5)
    world.gate.send_signal(signal.SIGTERM)
    time.sleep(0.5)
    world.office.send_signal(signal.SIGCONT)
    one.join()
    world.gate.wait()
    world.gate.stdout.close()
    same("what was under way is answered", answers, [(200, [{"done": True}])])
    same("and is in the journal", [json.loads(it)["what"] for it in world.journal.read_bytes().splitlines()[-2:]],
         ["answered", "closed"])
    world.start_gate()


def accepted(world: World) -> None:
    """Who was accepted at the very end is answered too: short requests, so that the end often meets one that begins."""
    stop, found = threading.Event(), []

    def ask() -> None:
        while not stop.is_set():
            found.append(world.ask("auditor", "GET", "/rights")[0])

    threads = [threading.Thread(target=ask) for _ in range(3)]
    for it in threads:
        it.start()
    for _ in range(4 * ROUNDS):
        time.sleep(0.1)
        world.stop_gate()
        world.start_gate()
    stop.set()
    for it in threads:
        it.join()
    same("each short request was answered", set(found), {200})
    judge("there were many", len(found) > 200, len(found))


def away(world: World) -> None:
    """An office that does not come back: however many wait, each is told after two minutes, and none of it is done."""
    world.stop_office()
    began, found = time.monotonic(), []
    hold = {"act": "place-hold", "reason": "r"}

    def wait(name: str, *act: dict) -> None:
        answer = world.act(name, *act) if act else world.get(name, "/records/1")
        found.append((answer, time.monotonic() - began))

    threads = [threading.Thread(target=wait, args=it) for it in
               (*(("legal", {**hold, "code": f"AWAY{it}"}) for it in range(3)), ("registry", {"act": "close-aggregation",
                "aggregation": 1}), ("auditor",), ("department", {"act": "event", "record": 1, "occurred": today()}))]
    for it in threads:
        it.start()
    for it in threads:
        it.join()
    same("each is told that nothing was done", [it for it, _ in found], [(503, {"error": "office"})] * len(threads))
    judge("after two minutes", all(119 < seconds < 150 for _, seconds in found), [seconds for _, seconds in found])
    world.start_office()
    same("nothing was done", [world.act("legal", {**hold, "code": f"AWAY{it}"})[0] for it in range(3)], [200] * 3)
    same("nor the rest", world.act("registry", {"act": "close-aggregation", "aggregation": 1}), (200, [{"done": True}]))


def gone(world: World) -> None:
    """A client goes away while its act is at the office: a stop waits for the answer, and the journal has it."""
    world.office.send_signal(signal.SIGSTOP)
    body = json.dumps([{"act": "place-hold", "day": today(), "code": "GONE", "reason": "r"}]).encode()
    lines = {**HERE, "Office-Token": TOKEN, "Office-Name": "legal", "Content-Length": str(len(body))}
    head = "".join(f"{key}: {value}\r\n" for key, value in lines.items())
    link = world.connected(f"POST /acts HTTP/1.1\r\n{head}\r\n".encode() + body)
    line = asked(world, "GONE")
    link.close()
    time.sleep(0.5)
    world.gate.send_signal(signal.SIGTERM)
    time.sleep(1)
    world.office.send_signal(signal.SIGCONT)
    same("the gate ends well", world.gate.wait(), 0)
    world.gate.stdout.close()
    same("the journal has the answer", [it.get("answers") for it in answered(world, line)], [[{"done": True}]])
    same("and then the end", world.lines()[-1]["what"], "closed")
    world.start_gate()
