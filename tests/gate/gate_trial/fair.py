"""Fairness: a name with many requests, or long lists, does not hold another one up."""
import json
import pathlib
import threading
import time

from gate_trial.base import SETTINGS, made
from kit.judging import judge, same
from gate_trial.world import World, today

GREEDY = SETTINGS.replace("limit requests 64", "limit requests 40").replace("limit lists 8", "limit lists 2")


def tried(folder: pathlib.Path) -> None:
    world = made(folder, settings=GREEDY)
    silent = [world.connected(it) for it in (b"", b"POST /acts HT")]
    began = time.time()
    turns(world)
    acts(world)
    limits(world)
    slow(world)
    health(world)
    for link in silent:
        link.settimeout(60)
        same("a connection without a head ends", link.recv(100), b"")
    judge("after ten seconds at least", time.time() - began >= 10)
    world.end()


def beside(count: int, what) -> list:
    """Does something in so many threads at once, and returns what each returned."""
    found: list = []
    threads = [threading.Thread(target=lambda at=at: found.append(what(at))) for at in range(count)]
    for it in threads:
        it.start()
    for it in threads:
        it.join()
    return found


def turns(world: World) -> None:
    """While one name has 30 requests waiting, another one's single request is among the next."""
    count = len(world.lines())
    done = threading.Thread(target=beside, args=(30, lambda _: world.ask("auditor", "GET", f"/due/{today()}")))
    # the office waits, so that all of them queue
    world.office.send_signal(19)
    done.start()
    time.sleep(1)
    late = threading.Thread(target=world.ask, args=("legal", "GET", "/records/1"))
    late.start()
    time.sleep(0.5)
    world.office.send_signal(18)
    late.join()
    done.join()
    names = [it["name"] for it in world.lines()[count:] if it["what"] == "read" and it["status"] == 200]
    judge("the one name is served among the first", "legal" in names and names.index("legal") <= 4, names)


def acts(world: World) -> None:
    """So it is with lists of acts."""
    count = len(world.lines())
    world.office.send_signal(19)
    hold = {"act": "lift-hold", "hold": "NONE"}
    many = threading.Thread(target=beside, args=(20, lambda _: world.act("legal", hold)))
    many.start()
    time.sleep(1)
    late = threading.Thread(target=world.act, args=("registry", {"act": "close-aggregation", "aggregation": 99}))
    late.start()
    time.sleep(0.5)
    world.office.send_signal(18)
    late.join()
    many.join()
    names = [it["name"] for it in world.lines()[count:] if it["what"] == "asked"]
    judge("the one name acts among the first", "registry" in names and names.index("registry") <= 3, names)


def limits(world: World) -> None:
    """One list more than a name may have at once, and one request more, is refused, and nobody else's."""
    world.office.send_signal(19)
    found: list = []
    threads = [threading.Thread(target=lambda: found.append(world.ask("auditor", "GET",
                                                                      f"/due/{today()}")[0])) for _ in range(5)]
    for it in threads:
        it.start()
    time.sleep(1)
    other = threading.Thread(target=lambda: found.append(("legal", world.ask("legal", "GET", f"/due/{today()}")[0])))
    other.start()
    time.sleep(0.3)
    world.office.send_signal(18)
    for it in [*threads, other]:
        it.join()
    same("lists of one name", sorted(it for it in found if isinstance(it, int)), [200, 200, 429, 429, 429])
    judge("and of another", ("legal", 200) in found, found)
    world.office.send_signal(19)
    many: list = []
    threads = [threading.Thread(target=lambda: many.append(world.ask("auditor", "GET",
                                                                     "/records/1")[0])) for _ in range(50)]
    for it in threads:
        it.start()
    time.sleep(1.5)
    world.office.send_signal(18)
    for it in threads:
        it.join()
    same("requests of one name", (many.count(200), many.count(429)), (40, 10))


def slow(world: World) -> None:
    """A client that sends its body slowly, or does not read, keeps nobody waiting."""
    began = time.time()

    def dawdle(_: int) -> None:
        import socket
        from gate_trial.world import HERE, TOKEN
        with socket.socket(socket.AF_UNIX, socket.SOCK_STREAM) as link:
            link.connect(str(world.place))
            lines = {**HERE, "Office-Token": TOKEN, "Office-Name": "legal", "Content-Length": "100"}
            head = "".join(f"{key}: {value}\r\n" for key, value in lines.items())
            link.sendall(f"POST /acts HTTP/1.1\r\n{head}\r\n[".encode())
            time.sleep(4)

    threads = [threading.Thread(target=dawdle, args=(it,)) for it in range(20)]
    for it in threads:
        it.start()
    time.sleep(0.5)
    status, _ = world.act("records-manager", {"act": "add-schedule", "code": "X", "trigger": "added", "unit": "days",
                                              "count": 0, "offset": "none", "action": "keep"})
    same("an act beside slow ones", (status, time.time() - began < 4), (200, True))
    for it in threads:
        it.join()


def health(world: World) -> None:
    """The paths of a monitor show counts, and nothing of what the office holds."""
    status, text = world.ask("monitor", "GET", "/metrics")
    same("metrics", status, 200)
    for word in (b"office_gate_answers_total{", b"office_gate_waiting 0", b"office_gate_journal_well 1"):
        judge(f"metrics: {word.decode()}", word in text, text)
    judge("no name and no ref is in them", not any(it in text for it in (b"auditor", b"legal", b"r1", b"title")), text)
    same("alive", world.ask("monitor", "GET", "/alive"), (200, b'{"records":true}'))
    for path in ("/records/1", "/records/1/content", f"/due/{today()}"):
        same(f"a monitor reads no {path}", world.ask("monitor", "GET", path)[0], 403)
    world.stop_office()
    began = time.time()
    found = threading.Thread(target=lambda: world.ask("monitor", "GET", "/alive"))
    found.start()
    time.sleep(0.5)
    world.start_office()
    found.join()
    judge("a monitor waits for an office that starts", time.time() - began < 100)
    same("the rest of the journal", json.loads(world.journal.read_bytes().splitlines()[-1])["status"], 200)
