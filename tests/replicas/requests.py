"""Requests that are no entry, bodies that are no acts, and keys: each member answers alike."""
from __future__ import annotations

import json
import pathlib
import random
import re
import socket
import subprocess
import sys
import time
from typing import Any

from replicas.acts import BEGIN, NOT_ACTS
from replicas.checks import Bare
from replicas.cluster import REPLICAS, Cluster, Place, Reply, ask
from kit.judging import judge
from replicas.networks import socket_in
from replicas.posting import post, posted, record

Case = tuple[str, str, bytes | None, dict[str, str]]

CASES: list[Case] = [
    ("GET", "/records/1", None, {}), ("GET", "/records/01", None, {}),
    ("GET", "/records/1/content", None, {}), ("GET", "/acts", None, {}),
    ("PUT", "/acts", None, {}), ("DELETE", "/records/1", None, {}),
    ("POST", "/records/1", None, {}), ("POST", "/acts/", None, {}), ("POST", "//acts", None, {}),
    ("POST", "/acts?x", None, {}), ("GET", "/due/2026-01-01", None, {}),
    ("GET", "/due/x", None, {}), ("POST", "/acts", None, {}),
    ("POST", "/acts", None, {"Content-Length": "12x"}),
    ("POST", "/acts", None, {"Content-Length": "1048577"}),
    ("POST", "/acts", None, {"Transfer-Encoding": "chunked"}),
    ("POST", "/run/resume", None, {}), ("GET", "/certificates/1", None, {}),
    ("GET", "/run/resume", None, {}), ("OPTIONS", "/acts", None, {}), ("PATCH", "/acts", None, {}),
    ("HEAD", "/records/1", None, {}), ("FETCH", "/acts", None, {}), ("POST", "/acts", b"[]", {})]
CASES += [("POST", "/acts", body, {}) for body in NOT_ACTS]


HEAD = b"GET /records/1 HTTP/1.1\r\nHost: trial\r\n"
# bytes of a connection, before its end
RAW = [
    HEAD + b"\r\n", HEAD.replace(b"\r", b"") + b"\n", b"\r\n" + HEAD + b"\r\n", HEAD, HEAD[:20], b"GET",
    HEAD + b"Host: other\r\n\r\n", b"GET /records/1 HTTP/1.1\r\n\r\n", b"GET /records/1 HTTP/1.0\r\n\r\n",
    HEAD.replace(b"1.1", b"2.0") + b"\r\n", b"GET /records/1\r\n\r\n", b"\x00\x01\r\n\r\n", HEAD + b"a b\r\n\r\n",
    HEAD + b"X : y\r\n\r\n", HEAD + b"X: y\r\n z\r\n\r\n", HEAD + b"X: \x01\r\n\r\n", HEAD + b"X: \xff\r\n\r\n",
    b"GET  /records/1 HTTP/1.1\r\nHost: trial\r\n\r\n", b"GET /records/\xff HTTP/1.1\r\nHost: trial\r\n\r\n",
    HEAD + b"X: " + b"y" * 16_384 + b"\r\n\r\n", HEAD + b"X: y\r\n" * 2500 + b"\r\n", HEAD + b"X: y\r\n" * 63 + b"\r\n",
    HEAD + b"X: y\r\n" * 64 + b"\r\n",
    HEAD + b"\r\n" + b"z" * 100_000, HEAD + b"Expect: x\r\n\r\n",
    b"POST /acts HTTP/1.1\r\nhost:trial\r\ncontent-length:  2 \r\n\r\n[]",
    b"POST /acts HTTP/1.1\r\nHost: trial\r\nContent-Length: 2\r\n\r\n[]GET /records/1 HTTP/1.1\r\n\r\n",
    b"POST /acts HTTP/1.1\r\nHost: trial\r\nContent-Length: 20\r\n\r\n[]",
    b"POST /acts HTTP/1.1\r\nHost: trial\r\nContent-Length: 2\r\nContent-Length: 2\r\n\r\n[]",
    b"POST /acts HTTP/1.1\r\nHost: trial\r\nContent-Length: +2\r\n\r\n[]",
    b"POST /acts HTTP/1.1\r\nHost: trial\r\nTransfer-Encoding: chunked\r\n\r\n2\r\n[]\r\n0\r\n\r\n",
    b"POST /run/resume HTTP/1.1\r\nHost: trial\r\nContent-Length: 2\r\n\r\n[]"]


def plain(reply: Reply) -> tuple[int, dict[str, str], bytes]:
    """An answer without the lines that a member adds."""
    added = ("office-position", "office-age", "idempotency-key")
    return (reply.status, {it: value for it, value in reply.lines.items() if it not in added},
            reply.body)


def compared(cluster: Cluster) -> None:
    """Each case at each member and at a bare office with the same acts."""
    bare = Bare(cluster.folder / "bare.db", cluster.base + 98)
    try:
        bare.post("acts", json.dumps(BEGIN).encode())
        bare.post("acts", json.dumps([record(1)]).encode())
        differences = []
        for method, path, body, lines in CASES:
            wanted = plain(ask(bare.place, method, path, body, lines))
            for machine in range(3):
                found = plain(answered(cluster, machine, method, path, body, lines))
                if found != wanted:
                    differences.append((machine, method, path, body, lines, found, wanted))
        judge(f"requests: {len(CASES)} are answered by each member as by the bare office",
              not differences, differences)
        connections(cluster, bare)
    finally:
        bare.end()


def told_to(place: Place, raw: bytes) -> bytes:
    """The bytes that come back to a client that sends these and ends its side."""
    with socket_in(place.network) as link:
        link.settimeout(40)
        link.connect(("127.0.0.1", place.port))
        link.sendall(raw)
        link.shutdown(socket.SHUT_WR)
        return b"".join(iter(lambda: link.recv(65536), b""))


def without_own_lines(told: bytes) -> bytes:
    return re.sub(rb"\r\n(Office-Position|Office-Age|Idempotency-Key): [^\r]*", b"", told)


def connections(cluster: Cluster, bare: Bare) -> None:
    """What comes on a connection is taken at the member as at the bare office, to the byte."""
    answers = [(raw[:60], without_own_lines(told_to(cluster.place(0), raw)), told_to(bare.place, raw)) for raw in RAW]
    differences = [it for it in answers if it[1] != it[2]]
    judge(f"requests: the bytes of {len(RAW)} connections are answered by a member as by the bare office",
          not differences, differences)


def not_acts(cluster: Cluster) -> None:
    """A body that is no acts is an entry as any other: one answer and one position everywhere."""
    faults = []
    for number, body in enumerate(NOT_ACTS):
        key = {"Idempotency-Key": f"not-acts-{number}"}
        replies = [answered(cluster, it, "POST", "/acts", body, key) for it in range(3)]
        seen = {(it.status, it.body, it.position) for it in replies}
        if len(seen) != 1 or replies[0].status != 400 or replies[0].position < 1:
            faults.append((body, replies))
    judge(f"requests: {len(NOT_ACTS)} bodies that are no acts are 400 at each member alike",
          not faults, faults)


def answered(cluster: Cluster, machine: int, method: str, path: str, body: bytes | None,
             lines: dict[str, str]) -> Reply:
    """As a client that tries again: a busy machine may say `unknown` or `behind` first."""
    for _ in range(20):
        reply = ask(cluster.place(machine), method, path, body, lines, 90)
        if reply.status != 503:
            break
        time.sleep(0.5)
    return reply


def keys(cluster: Cluster) -> None:
    """The greatest body; keys that are none, that are used again, and that are used wrongly."""
    source = random.Random(3)
    acts = [record(100 + it, source.randbytes(size)) for it, size in enumerate(
        (262_144, 262_144, 240_000))]
    body = json.dumps(acts).encode()
    body += b" " * (1_048_576 - len(body))
    reply = answered(cluster, 0, "POST", "/acts", body, {"Idempotency-Key": "greatest"})
    judge("requests: a body of 1,048,576 bytes is one entry", reply.status == 200, reply)
    reply = ask(cluster.place(0), "POST", "/acts", b"[]", {"Idempotency-Key": "a b"})
    judge("keys: one that is none is 400 header",
          (reply.status, reply.body) == (400, b'{"error":"header"}'), reply)
    reply = ask(cluster.place(0), "GET", "/records/1", None, {"Office-After": "x"})
    judge("keys: an Office-After that is no number is 400 header", reply.status == 400, reply)
    replies = [posted(cluster, it, [record(200)], "k-1") for it in (0, 1, 2, 1)]
    judge("keys: the same request with the same key is answered the same by each member",
          len({(it.status, it.body, it.position) for it in replies}) == 1
          and replies[0].status == 200, replies)
    # a member that does not know what became of its own try marks nothing
    marked = [any(posted(cluster, machine, [record(200)], "k-1").lines.get("office-repeated") == "1" for _ in range(20))
              for machine in range(3)]
    judge("keys: each member marks an answer of before", all(marked), marked)
    reply = posted(cluster, 1, [record(201)], "k-1")
    judge("keys: another body with that key is 422, and not done",
          (reply.status, reply.body) == (422, b'{"error":"key"}'), reply)
    number = 300
    while (reply := post(cluster, 0, [record(number)])).status == 503:
        number += 1
    body = json.dumps([record(number)]).encode()
    replies = [reply, *(answered(cluster, it, "POST", "/acts", body, {}) for it in (1, 2))]
    bodies = [json.loads(it.body)[0] for it in replies]
    judge("keys: without a key each request is an entry of its own",
          len({it.position for it in replies}) == 3 and "same" not in bodies[0]
          and all(it.get("same") for it in bodies[1:]), replies)
    judge("keys: and none of them is marked", not any("office-repeated" in it.lines for it in replies), replies)


# what is changed in good settings, and what has to be said of it; None takes a member away
WRONG: list[tuple[dict[str, Any], str]] = [
    ({"name": None}, "name is missing"), ({"listen": "8081"}, "listen is no whole number"),
    ({"listen": True}, "listen is no whole number"), ({"folder": ""}, "folder is no text"),
    ({"lissten": 1}, "lissten is none of name, log, folder"), ({"log": "a/b"}, "log has other characters"),
    ({"snapshot_every": 0}, "snapshot_every is 0"), ({"ca": "x"}, "go together"),
    ({"reading_limit": 0}, "reading_limit is 0"), ({"disk": "best"}, "disk is none of any, powersafe")]


def run_member(word: str, path: pathlib.Path) -> tuple[int, str]:
    """The status of `member` or `found` with these settings, and what it said."""
    done = subprocess.run([sys.executable, REPLICAS / word, path], capture_output=True,
                          text=True, timeout=120, check=False)
    return done.returncode, done.stderr


def wrong_settings(cluster: Cluster) -> None:
    """Settings that are wrong are said to be, with status 2; a folder that is taken with 3."""
    good = cluster.home(0) / "settings.json"
    path = cluster.folder / "wrong.json"
    said = []
    for change, wanted in WRONG:
        told = {**json.loads(good.read_text()), **change}
        path.write_text(json.dumps({it: value for it, value in told.items() if value is not None}))
        status, text = run_member("member", path)
        if status != 2 or wanted not in text or "Traceback" in text:
            said.append((change, status, text))
    for raw in (b"", b"{", b"[]", b"\xff"):
        path.write_bytes(raw)
        status, text = run_member("member", path)
        if status != 2 or "Traceback" in text:
            said.append(({"the file": raw}, status, text))
    judge("settings: what is wrong in them is said, with status 2", not said, said)
    status, text = run_member("member", good)
    judge("settings: a second member in the same folder ends with status 3",
          status == 3 and "Traceback" not in text, text)
    status, text = run_member("found", good)
    judge("settings: a log is not founded over snapshots", status == 1 and "already" in text, text)
