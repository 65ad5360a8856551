"""Appending: requests that wait go into the log together, in one transaction, each with its own position and key.

One thread appends. While it waits for a majority, more requests come, and go with the next transaction.
"""
from __future__ import annotations

import hashlib
import json
import threading
import time
from concurrent.futures import Future
from typing import Callable

from replica.arrived import Arrived
from replica.entries import Entry
from replica.errors import NotTaken, Unclear, say
from replica.etcd import CALL_SECONDS
from replica.log import Appended, Log, Request

MOST, LONGEST = 60, 1_048_576
"""requests of one transaction, and bytes of their bodies: etcd takes 128 operations, and 1.5 MB"""
MOST_WAITING, MOST_BYTES, WAIT_SECONDS = 2000, 134_217_728, 30
"""requests, bytes of their bodies, and seconds, until one that was not tried is `busy`"""
AGAIN_SECONDS = 0.1
PATIENT_SECONDS, LONGEST_TURN = 0.02, 0.5
"""that a request waits until its member asks the others for a turn, and that they give it way, at most"""


class Waiting:
    """A request that goes into the log, and what became of it, once that is told."""

    def __init__(self, request: Request, entry: Entry, is_needed: bool) -> None:
        self.request, self.entry, self.is_needed = request, entry, is_needed
        self.told: Future[Appended] = Future()
        self.is_clear = True
        """no transaction that had it may still be done"""
        self.began = time.monotonic()

    def end(self, appended: Appended) -> None:
        self.told.set_result(appended)

    def has_ended(self) -> bool:
        return self.told.done()

    def fail(self, error: NotTaken | Unclear) -> bool:
        """Returns whether it has to end, since no try may follow: then it has."""
        self.is_clear = self.is_clear and isinstance(error, NotTaken)
        if self.is_clear:
            self.end(Appended(None, getattr(error, "name", "quorum")))
        elif time.monotonic() - self.began > 2 * CALL_SECONDS:
            self.end(Appended(None, "unknown"))
        return self.has_ended()

    def is_late(self) -> bool:
        """Returns whether it has waited too long for its turn: then it has ended, and is surely not in the log."""
        if self.is_clear and time.monotonic() - self.began > WAIT_SECONDS and not self.has_ended():
            self.end(Appended(None, "busy"))
        return self.has_ended()


class Appender:
    """What puts the requests of one member into the log. `run` is for one thread; all else for any."""

    def __init__(self, log: Log) -> None:
        self.log = log
        self.position: Callable[[], int] = lambda: 0
        """gives the last entry that was done here"""
        self.tell: Callable[[int, int], None] = lambda first, before: None
        """is called with the first of some new entries, and with what was done here before they were put there"""
        self.changed = threading.Condition()
        self.queue: list[Waiting] = []
        self.arrived = Arrived()
        self.appended = self.transactions = 0
        self.took = 0.0
        """the seconds of the last transaction"""

    # ---- for clients

    def append(self, key: str, kind: str, body: bytes, is_needed: bool = False) -> Future[Appended]:
        """Puts a request at the end, once for its key, however often it is called, and tells what became of it. One
        that is needed, to drop what the log has, goes there though etcd is nearly full.

        An error of the name `unknown` says that it may be in the log, each other that this call put nothing there.
        """
        head = {"key": key, "kind": kind, "member": self.log.member, "program": self.log.program}
        digest = hashlib.sha256(kind.encode() + b"\n" + body).hexdigest()
        request = Request(key, json.dumps(head).encode() + b"\n" + body, digest)
        waiting = Waiting(request, Entry(0, key, kind, self.log.program, body), is_needed)
        with self.changed:
            if len(self.queue) >= MOST_WAITING or sum(len(it.entry.body) for it in self.queue) > MOST_BYTES:
                waiting.end(Appended(None, "busy"))
            else:
                self.queue.append(waiting)
                self.changed.notify_all()
        return waiting.told

    def is_idle(self) -> bool:
        return not self.queue

    # ---- for the thread

    def run(self) -> None:
        """Appends what comes. Never returns."""
        while True:
            with self.changed:
                self.changed.wait_for(lambda: self.queue)
                group = self.group()
            try:
                self.append_all(group)
            except Exception as error:  # without this thread no act would be answered any more
                say(f"not appended: {error!r}")
                for waiting in group:
                    if not waiting.has_ended():
                        waiting.end(Appended(None, "unknown"))
            with self.changed:
                self.queue = [it for it in self.queue if not it.is_late()]

    def group(self) -> list[Waiting]:
        """Returns the requests that go together: the first that wait, each key once."""
        taken: list[Waiting] = []
        keys, size = set(), 0
        for waiting in self.queue:
            size += len(waiting.entry.body)
            if taken and size > LONGEST or len(taken) == MOST:
                break
            if waiting.request.key not in keys:
                taken.append(waiting)
                keys.add(waiting.request.key)
        return taken

    def append_all(self, group: list[Waiting]) -> None:
        """One transaction. Those that are still not in the log afterwards go with the next one."""
        before, began = self.position(), time.monotonic()
        wants = 2 * self.took if began - group[0].began > PATIENT_SECONDS else 0.0
        try:
            if self.log.is_full and all(it.is_clear and not it.is_needed for it in group):
                raise NotTaken("etcd is nearly full", "full")
            first, earlier = self.log.try_append([it.request for it in group], wants)
            self.took = time.monotonic() - began
        except (NotTaken, Unclear) as error:
            return self.failed(group, error)
        if first is None:
            return self.end_found(group, earlier)
        self.appended, self.transactions = self.appended + len(group), self.transactions + 1
        self.arrived.add([it.entry._replace(position=place) for place, it in enumerate(group, first)])
        self.tell(first, before)
        for number, waiting in enumerate(group):
            waiting.end(Appended(first + number))
        self.give_way()

    def give_way(self) -> None:
        """Lets those append that asked for it. Whoever is next to etcd's leader would win each time otherwise."""
        until = time.monotonic() + min(max(self.log.awaited.values(), default=0.0), LONGEST_TURN)
        while self.log.awaited and time.monotonic() < until:
            time.sleep(0.001)

    def failed(self, group: list[Waiting], error: NotTaken | Unclear) -> None:
        """Ends those of which no further try may follow; the others are tried again after a moment."""
        ended = [it for it in group if it.fail(error)]
        if ended:
            clear = sum(it.is_clear for it in ended)
            say(f"{clear} not appended, {len(ended) - clear} perhaps: {error}")
        if len(ended) < len(group):
            time.sleep(AGAIN_SECONDS)

    def end_found(self, group: list[Waiting], earlier: dict[str, tuple[int, str]]) -> None:
        """Ends those that an earlier transaction has put into the log.

        It was an earlier request, unless one of this request may have done it, whose outcome nobody knows.
        """
        for waiting in group:
            if waiting.request.key in earlier:
                position, digest = earlier[waiting.request.key]
                is_repeated = waiting.is_clear
                is_same = digest == waiting.request.digest
                waiting.end(Appended(position, None, is_repeated) if is_same else Appended(None, "key"))
