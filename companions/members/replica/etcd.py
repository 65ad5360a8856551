"""etcd's JSON gateway: transactions, the watch of one key, and how full etcd is.

A transaction is done by all machines or by none. Where no answer comes it may be done later.
"""
from __future__ import annotations

import base64
import http.client
import json
import ssl
import time
from typing import Any, Callable, Sequence

from replica.errors import NotTaken, Unclear
from replica.link import Link

CALL_SECONDS = 3
LEADER = (("Grpc-Metadata-hasleader", "true"),)
"""by this line etcd begins only where it knows a leader"""
# what etcd says where it has not begun, and the error that a client gets then
NOT_BEGUN = {"no leader": "quorum", "too many requests": "quorum", "space exceeded": "full",
             "too large": "full"}

Part = dict[str, Any]
Row = tuple[str, bytes]


def encoded(value: str | bytes) -> str:
    """As the gateway writes keys and values."""
    raw = value.encode() if isinstance(value, str) else value
    return base64.b64encode(raw).decode()


def put(key: str, value: str | bytes) -> Part:
    """Returns the operation that gives a key a value."""
    return {"request_put": {"key": encoded(key), "value": encoded(value)}}


def get(key: str, end: str | None = None, local: bool = False, limit: int = 0) -> Part:
    """Returns the operation that reads a key, or the keys from it to before `end`."""
    part: Part = {"key": encoded(key), "limit": limit, "serializable": local}
    if end is not None:
        part["range_end"] = encoded(end)
    return {"request_range": part}


def drop(key: str, end: str | None = None) -> Part:
    """Returns the operation that takes a key away, or the keys from it to before `end`."""
    part = {"key": encoded(key)}
    if end is not None:
        part["range_end"] = encoded(end)
    return {"request_delete_range": part}


def has(key: str, value: str) -> Part:
    """Returns the condition that a key has this value."""
    return {"key": encoded(key), "target": "VALUE", "value": encoded(value)}


def absent(key: str) -> Part:
    """Returns the condition that there is no such key."""
    return {"key": encoded(key), "target": "VERSION", "version": 0}


def none_after(revision: int, key: str, end: str) -> Part:
    """Returns the condition that no key of these was written after a revision."""
    return {"key": encoded(key), "range_end": encoded(end), "target": "MOD", "result": "LESS",
            "mod_revision": str(revision + 1)}


def rows_of(response: Part) -> list[Row]:
    """Returns the keys and values that one operation has read."""
    rows = response.get("response_range", {}).get("kvs", ())
    return [(base64.b64decode(row["key"]).decode(), base64.b64decode(row.get("value", "")))
            for row in rows]


class Etcd:
    """The gateway of one etcd, for any number of threads."""

    def __init__(self, place: str, tls: ssl.SSLContext | None) -> None:
        self.place, self.tls = place, tls
        self.idle: list[Link] = []
        self.certificate_ends: float | None = None
        """when the certificate that this etcd showed last ends, in seconds since 1970"""

    def connected(self, seconds: float) -> http.client.HTTPConnection:
        """Returns a new connection; NotTaken where there is none."""
        if self.tls is None:
            link = http.client.HTTPConnection(self.place, timeout=seconds)
        else:
            link = http.client.HTTPSConnection(self.place, timeout=seconds, context=self.tls)
        try:
            link.connect()
        except OSError as error:
            raise NotTaken(f"etcd: {error}") from error
        if isinstance(link.sock, ssl.SSLSocket):
            shown = link.sock.getpeercert() or {}
            if "notAfter" in shown:
                self.certificate_ends = ssl.cert_time_to_seconds(str(shown["notAfter"]))
        return link

    def free_link(self) -> Link:
        """Returns a connection that nobody else uses now."""
        while self.idle:
            try:
                link = self.idle.pop()
            except IndexError:
                break
            if link.is_open():
                return link
            link.close()
        return Link(self.connected(CALL_SECONDS))

    def call(self, path: str, part: Part, local: bool) -> Part:
        """What etcd answers. NotTaken: it has not begun. Unclear: nobody knows whether it has.

        Without `local` etcd begins only where it knows a leader.
        """
        link = self.free_link()
        try:
            status, content = link.ask(path, json.dumps(part).encode(), () if local else LEADER)
            answer: Part = json.loads(content)
        except (OSError, ValueError) as error:
            link.close()
            raise Unclear(f"etcd: {error!r}") from error
        self.idle.append(link)
        if status != 200:
            message = str(answer.get("message", answer))
            for text, name in NOT_BEGUN.items():
                if text in message:
                    raise NotTaken(message, name)
            raise Unclear(message)
        return answer

    def transact(self, conditions: Sequence[Part], done: Sequence[Part],
                 otherwise: Sequence[Part] = (),
                 local: bool = False) -> tuple[bool, list[list[Row]]]:
        """Returns whether all conditions held, and what each operation of that case has read.

        `local` is for readings alone: what this machine's etcd has, which may be late.
        """
        part = {"compare": conditions, "success": done, "failure": otherwise}
        answer = self.call("/v3/kv/txn", part, local)
        return (answer.get("succeeded", False),
                [rows_of(response) for response in answer.get("responses", ())])

    def read(self, operations: Sequence[Part]) -> tuple[int, list[list[Row]]]:
        """Returns the revision of what a majority has now, and what each operation has read."""
        answer = self.call("/v3/kv/txn", {"compare": [], "success": operations, "failure": []}, False)
        return int(answer["header"]["revision"]), [rows_of(it) for it in answer.get("responses", ())]

    def compact(self, revision: int) -> None:
        """Drops what was taken away or written over before a revision: no question gets it any more."""
        try:
            self.call("/v3/kv/compaction", {"revision": str(revision)}, False)
        except Unclear as error:
            if "has been compacted" not in str(error):
                raise

    def size_in_use(self) -> int:
        """Returns the bytes of this etcd's database that are in use."""
        answer = self.call("/v3/maintenance/status", {}, True)
        return int(answer.get("dbSizeInUse", answer.get("dbSize", 0)))

    def watch(self, first: str, end: str, notify: Callable[[list[tuple[str, str]]], None]) -> None:
        """Tells of the keys from `first` to before `end` that get a value here, with it as the gateway writes it, in the
        order of the log. Tells of none where some may have come unseen before. Never returns."""
        part = {"create_request": {"key": encoded(first), "range_end": encoded(end), "filters": ["NODELETE"]}}
        while True:
            try:
                link = self.connected(60)
                link.request("POST", "/v3/watch", json.dumps(part))
                response = link.getresponse()
                while line := response.readline():
                    result = json.loads(line).get("result", {})
                    notify([(base64.b64decode(it["kv"]["key"]).decode(), it["kv"].get("value", ""))
                            for it in result.get("events", ())])
                    if result.get("canceled"):
                        break
            except (NotTaken, OSError, http.client.HTTPException, ValueError, KeyError):
                pass
            time.sleep(0.2)
