"""What an office, or what stands in its place, answers: in pieces, cut, with lines of its own, or nothing at all.

A reading is asked again until its answer is whole. An act is sent once, and whoever sent it is told that nobody knows.
"""
import datetime
import json
import pathlib
import signal
import socket
import subprocess
import threading
import time
from typing import Any

from gate_trial.base import SETTINGS
from kit.judging import judge, same
from gate_trial.world import HERE, TOKEN, World

RECORD = b'{"number":1,"class":"BLDG1","status":"here","aggregation":1}'
ACT = {"act": "place-hold", "code": "H", "reason": "r"}
# what an office refuses, but nobody knows that of a request without an answer
STRANGE: list[dict[str, Any]] = [{"act": "reclassify", "target": it, "class": "BLDG1"} for it in
           ("aggregation:x", "aggregation:", "aggregation:1:2", "aggregation:" + "9" * 30, ["aggregation:1"], None)]
STRANGE += [{"act": "reclassify", "target": "aggregation:1", "class": it} for it in ({"a": 1}, 1.5, ["BLDG1"], 10**30, True)]
STRANGE += [{"act": "add-aggregation", "ref": {}, "title": 1, "class": {"a": 1}, "parent": "x"},
            {"act": "add-class", "code": ["a"], "title": "t", "schedule": {}}, {"act": "confirm", "record": {"a": 1}},
            {"act": "set-class-schedule", "class": {"a": "b"}, "schedule": 1}, {"act": "open-run", "day": {}},
            {"act": "add-record", "content": 5, "class": [], "aggregation": 10**12}]


def whole(body: bytes, *lines: str, status: str = "200 OK") -> bytes:
    more = "".join(f"{it}\r\n" for it in ("Content-Type: application/json", f"Content-Length: {len(body)}", *lines))
    return f"HTTP/1.1 {status}\r\n{more}\r\n".encode() + body


GOOD = whole(RECORD, "Connection: close")
DONE = whole(b'[{"done":true}]')
# the first answer is none, so a reading is asked again
CUT = {"nothing": b"", "a head that is cut": GOOD[:40], "a head alone": GOOD.split(b"{")[0],
       "a body that is cut": GOOD[:-1], "more than its length": GOOD + b"x",
       "no length": GOOD.replace(b"Content-Length", b"Content-Width"),
       "a length that is none": whole(RECORD).replace(f"Length: {len(RECORD)}".encode(), b"Length: +60"),
       "chunks": whole(RECORD, "Transfer-Encoding: chunked"), "no status": GOOD.replace(b" 200 ", b" 2x0 "),
       "another protocol": GOOD.replace(b"HTTP/1.1", b"SPDY/1.1"),
       "a head without end": b"HTTP/1.1 200 OK\r\n" + b"a" * 200_000}


class Stand:
    """In the place of the office: it takes a request a connection, and answers as it was told."""

    def __init__(self, port: int) -> None:
        self.link = socket.create_server(("127.0.0.1", port))
        self.answers: list[bytes] = []
        self.asked: list[bytes] = []
        self.pieces = 1 << 30
        self.thread = threading.Thread(target=self.run, daemon=True)
        self.thread.start()

    def run(self) -> None:
        while True:
            try:
                it, _ = self.link.accept()
            except OSError:
                return
            with it:
                data = b""
                while b"\r\n\r\n" not in data or b"POST" in data and not data.endswith(b"]"):
                    data += it.recv(65536)
                self.asked.append(data)
                answer = self.answers.pop(0) if self.answers else GOOD
                try:
                    for at in range(0, len(answer), self.pieces):
                        it.sendall(answer[at:at + self.pieces])
                        if self.pieces < 1000:
                            time.sleep(0.002)
                except OSError:
                    pass

    def told(self, *answers: bytes) -> None:
        self.answers, self.asked = list(answers), []


def tried(folder: pathlib.Path) -> None:
    world = World(folder, SETTINGS)
    addresses(world)
    stand = Stand(world.port)
    world.start_gate()
    pieces(world, stand)
    cut(world, stand)
    strange(world, stand)
    broken(world, stand)
    passed(world, stand)
    faulted(world, stand)
    closed(world, stand)
    judge("the chain holds", world.check().returncode == 0, world.check().stderr)
    world.end()


def faulted(world: World, stand: Stand) -> None:
    """After an act that met a fault the monitor sees that, until one is done; readings go on."""
    for fault, body in ((31, b'{"fault":31}'), (32, b'{"answers":[{"done":true}],"fault":32}')):
        stand.told(whole(body, status="503 Service Unavailable"))
        same(f"an act meets fault {fault}", world.act("legal", ACT)[0], 503)
        same("the monitor sees that", world.get("monitor", "/alive"), (503, {"error": "fault"}))
        same("readings go on", world.get("auditor", "/records/1")[0], 200)
        stand.told(DONE)
        same("an act is done", world.act("legal", ACT)[0], 200)
        same("and the monitor sees that", world.get("monitor", "/alive"), (200, {"records": True}))
    stand.told(whole(b'{"error":"memory"}', status="503 Service Unavailable"))
    world.act("legal", ACT)
    same("another 503 is no fault", world.get("monitor", "/alive")[0], 200)


def closed(world: World, stand: Stand) -> None:
    """Whoever asks an office that its administrator closed gets that at once; without a note, or after it, one waits."""
    note, until = world.folder / "closed", datetime.datetime.now(datetime.timezone.utc) + datetime.timedelta(hours=1)
    answer = {"error": "closed", "until": f"{until:%Y-%m-%d %H:%M}"}
    note.write_text(f"{until.isoformat()}\n")
    stand.told()
    same("an office that answers is not closed", world.get("auditor", "/records/1")[0], 200)
    stand.link.shutdown(socket.SHUT_RDWR)
    stand.link.close()
    began = time.monotonic()
    for name, path in (("auditor", "/records/1"), ("monitor", "/alive")):
        same(f"GET {path} of a closed office", world.get(name, path), (503, answer))
    same("an act", world.act("legal", ACT), (503, answer))
    judge("at once", time.monotonic() - began < 30)
    line = world.last("answered")
    same("nothing was done, by the journal", (line["status"], line.get("known", True)), (503, True))
    threads = []
    for name, text in (("a note that is over", f"{until - datetime.timedelta(hours=2)}"), ("no moment", "soon"), ("no zone", "2999-01-01 00:00"),
                       ("no note", None)):
        note.unlink() if text is None else note.write_text(text)
        threads.append(threading.Thread(target=world.get, args=("auditor", "/records/1")))
        threads[-1].start()
        threads[-1].join(0.5)
        judge(f"{name}: one waits", threads[-1].is_alive())
    again = Stand(world.port)
    for thread in threads:
        thread.join()
    again.link.shutdown(socket.SHUT_RDWR)
    again.link.close()


def addresses(world: World) -> None:
    """An address of an office that is none ends the gate before it writes anything."""
    for address in ("8081", "127.0.0.1", "127.0.0.1:", ":8081", "127.0.0.1:http"):
        words = [address if it == f"127.0.0.1:{world.port}" else it for it in world.words()]
        done = subprocess.run(words, capture_output=True, text=True, check=False, timeout=300)
        judge(f"the address '{address}'", done.returncode == 2 and "HOST:PORT" in done.stderr, done.stderr)
    judge("no journal is there", not world.journal.exists() or not world.journal.read_bytes())


def pieces(world: World, stand: Stand) -> None:
    """An answer that comes in pieces is whole, of whatever length it is."""
    for size in (1, 7, 1 << 30):
        stand.pieces = size
        stand.told(GOOD)
        same(f"pieces of {size}", world.ask("auditor", "GET", "/records/1"), (200, RECORD))
        same(f"pieces of {size}: asked once", len(stand.asked), 1)
    rows = json.dumps([{"record": it, "class": "BLDG1"} for it in range(200_000)]).encode()
    stand.told(whole(rows))
    same("a long list", world.ask("auditor", "GET", "/due/2026-01-01") == (200, rows), True)
    stand.told(whole(b"", status="404 Not Found"))
    same("a body of no bytes", world.ask("auditor", "GET", "/records/1"), (404, b""))


def cut(world: World, stand: Stand) -> None:
    """What is no whole answer counts as none."""
    for name, answer in CUT.items():
        stand.told(answer, answer, GOOD)
        same(f"{name}: a reading is asked again", world.ask("auditor", "GET", "/records/1"), (200, RECORD))
        same(f"{name}: so often", len(stand.asked), 3)
        stand.told(answer, DONE)
        same(f"{name}: an act", world.act("legal", ACT), (502, {"error": "unknown"}))
        same(f"{name}: it was sent once", len(stand.asked), 1)
        line = world.last("answered")
        same(f"{name}: the journal says that nobody knows", (line["status"], line.get("known", True)), (502, False))


def strange(world: World, stand: Stand) -> None:
    """Acts without an answer that no office would do: the next act is done, and the next start is one."""
    for act in STRANGE:
        stand.told(b"", DONE)
        same(f"{act}: nobody knows", world.act("records-manager", act), (502, {"error": "unknown"}))
        same(f"{act}: the next act", world.act("legal", ACT)[0], 200)
    judge("all of it is noted", "is not noted" not in (world.folder / "log").read_text())
    world.start_without_facts(signal.SIGKILL)
    stand.told(DONE)
    same("after a start, from the journal", world.act("legal", ACT)[0], 200)


def broken(world: World, stand: Stand) -> None:
    """An answer that is no JSON, as the gate asks for a class: nothing is done, and the journal has the act whole."""
    act = {"act": "confirm", "record": 1, "action": "destroy"}
    for answer in (whole(b"no JSON"), whole(b"[1]"), whole(b'{"number":1}')):
        stand.told(answer)
        same(f"{answer[-12:]!r}: an act", world.act("department", act), (500, {"error": "gate"}))
        line = world.last("refused")
        same(f"{answer[-12:]!r}: the line", (line["name"], line["status"], line["acts"][0]["record"]), ("department", 500, 1))
        same(f"{answer[-12:]!r}: it was not sent", [it[:4] for it in stand.asked], [b"GET "])
    stand.told(whole(b"[1]"))
    same("answers that are none are passed on", world.act("legal", ACT), (200, [1]))
    stand.told(DONE)
    same("and the next act is done", world.act("legal", ACT)[0], 200)


def passed(world: World, stand: Stand) -> None:
    """Of the lines of an answer those of a member go on; of a request those that a member reads."""
    stand.told(whole(b'[{"done":true}]', "Office-Position: 7", "office-age:3", "X-Other: 1", "Set-Cookie: a=b"))
    given = {"Idempotency-Key": "k1", "Office-Read": "newest", "X-Mine": "1", "Cookie": "a=b"}
    raw = whole_answer(world, "POST", given, json.dumps([{**ACT, "day": "2001-01-01"}]).encode())
    judge("an act of a member", all(it in raw for it in (b'[{"done":true}]', b"Office-Position: 7", b"Office-Age: 3")), raw)
    judge("no other line of it", b"X-Other" not in raw and b"Cookie" not in raw, raw)
    head = stand.asked[0].partition(b"\r\n\r\n")[0].lower()
    judge("lines that go on", b"idempotency-key: k1" in head and b"office-read: newest" in head
          and f"host: 127.0.0.1:{world.port}".encode() in head, head)
    others = (b"x-mine", b"cookie", b"office-token", b"office-name", b"origin")
    judge("no others go on", not any(it in head for it in others), head)
    same("the position is in the journal", world.last("answered")["position"], "7")


def whole_answer(world: World, method: str, given: dict[str, str], body: bytes) -> bytes:
    lines = {**HERE, "Office-Token": TOKEN, "Office-Name": "legal", **given, "Content-Length": str(len(body))}
    head = "".join(f"{key}: {value}\r\n" for key, value in lines.items())
    return world.raw(f"{method} /acts HTTP/1.1\r\n{head}\r\n".encode() + body)
