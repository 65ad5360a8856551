"""Single requests of the hard trials, and the office that they begin with."""
from __future__ import annotations

import base64
import json
import time
import uuid
from typing import Any

from replicas.acts import BEGIN, Act
from replicas.cluster import FAULTS, LONGEST_WAIT, Cluster, Reply, ask


def record(number: int, content: bytes = b"abc") -> Act:
    return {"act": "add-record", "day": "2024-01-02", "ref": f"r{number}", "title": "A letter",
            "originated": "2024-01-02", "aggregation": 1,
            "content": base64.b64encode(content).decode()}


def post(cluster: Cluster, machine: int, acts: list[Act], key: str | None = None,
         timeout: float = 60) -> Reply:
    """One try."""
    lines = {"Idempotency-Key": key} if key else {}
    return ask(cluster.place(machine), "POST", "/acts", json.dumps(acts).encode(), lines, timeout)


def posted(cluster: Cluster, machine: int, acts: list[Act], key: str | None = None) -> Reply:
    """As a client that tries again, at one member, until it is answered."""
    key, began = key or uuid.uuid4().hex, time.monotonic()
    while time.monotonic() - began < LONGEST_WAIT:
        try:
            reply = post(cluster, machine, acts, key)
            if reply.status != 503:
                return reply
        except FAULTS:
            pass
        time.sleep(0.05)
    raise SystemExit(f"member {machine} does not answer: {cluster.state(machine)}")


def get(cluster: Cluster, machine: int, path: str, **lines: str) -> Reply:
    named = {name.replace("_", "-"): value for name, value in lines.items()}
    return ask(cluster.place(machine), "GET", path, None, named)


def begun(cluster: Cluster, records: int = 1) -> None:
    """The members have started, and the office has some records."""
    cluster.start_all()
    posted(cluster, 0, BEGIN)
    posted(cluster, 0, [record(it) for it in range(1, records + 1)])


def halts(cluster: Cluster, machine: int, seconds: float = 120) -> Any:
    """The status with which a member ends by itself, or None."""
    process = cluster.processes[f"member{machine}"]
    began = time.monotonic()
    while time.monotonic() - began < seconds and process.poll() is None:
        time.sleep(0.1)
    if process.poll() is not None:
        del cluster.processes[f"member{machine}"]
    return process.poll()
