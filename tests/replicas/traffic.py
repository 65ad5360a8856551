"""Clients and readers of a trial: each posts or reads at random members, and notes what it got."""
from __future__ import annotations

import collections
import json
import random
import threading
import time
import uuid
from dataclasses import dataclass

from replicas.acts import NOT_ACTS, Act, Maker, as_body
from replicas.cluster import FAULTS, LONGEST_WAIT, Cluster, Place, Reply, ask

RETRY_SECONDS = 0.05
NOTHING_PUT = ("quorum", "recovering", "busy", "full")
"""errors that say that this try put nothing into the log"""


@dataclass
class Post:
    """A request that was answered, with the times between which it was."""

    key: str
    kind: str
    body: bytes
    began: float
    ended: float
    status: int
    told: bytes
    position: int
    tries: int


@dataclass
class Read:
    """A reading that was answered; `least` is the position that it had to be at."""

    path: str
    status: int
    told: bytes
    position: int
    mode: str
    least: int
    age: float = 0
    began: float = 0
    reader: int = 0
    machine: int = 0


class Traffic:
    """All clients of a trial. With a key a client tries until it is answered; without, once."""

    def __init__(self, cluster: Cluster, seed: int, posters: int = 4, readers: int = 1) -> None:
        self.cluster, self.maker, self.seed = cluster, Maker(), seed
        self.posts: list[Post] = []
        self.lost: list[bytes] = []
        """bodies of requests without a key that may be in the log"""
        self.not_taken: list[bytes] = []
        """and of those whose clients were told that they are not"""
        self.keyless = 0
        self.reads: list[Read] = []
        self.faults: list[str] = []
        self.tries: collections.Counter[str] = collections.Counter()
        self.known = 0
        self.lock, self.stopping = threading.Lock(), threading.Event()
        self.threads = [threading.Thread(target=self.poster, args=(it,), daemon=True)
                        for it in range(posters)]
        self.threads += [threading.Thread(target=self.reader, args=(it,), daemon=True)
                         for it in range(readers)]

    def start(self) -> None:
        for thread in self.threads:
            thread.start()

    def stop(self) -> None:
        """Afterwards each request with a key has its answer."""
        self.stopping.set()
        until = time.monotonic() + LONGEST_WAIT
        for thread in self.threads:
            thread.join(max(0.1, until - time.monotonic()))
            if thread.is_alive():
                self.faults.append("a client hangs")

    # ---- requests that act

    def poster(self, number: int) -> None:
        source = random.Random(self.seed * 100 + number)
        while not self.stopping.is_set():
            chance = source.random()
            if chance < 0.03:
                self.send(source, "acts", source.choice(NOT_ACTS))
            elif chance < 0.08:
                self.send(source, "resume", b"")
            elif chance < 0.16:
                due = self.due(source)
                self.send_acts(source, self.maker.disposal(source, due) if due else [])
            elif chance < 0.18:
                self.round(source)
            elif chance < 0.38:
                self.send_once(source)
            else:
                count = source.randint(1, 3 if chance < 0.97 else 12)
                self.send_acts(source, self.maker.acts(source, count))

    def round(self, source: random.Random) -> None:
        """Acts of all eighteen kinds, one on another; alone at the office, all of them are accepted."""
        made = self.maker.things(source)
        reply = self.send_acts(source, made)
        answers = json.loads(reply.body)
        numbers = [it.get("number", 1) for act, it in zip(made, answers)
                   if act["act"] in ("add-aggregation", "add-record")]
        if len(numbers) == 3:
            self.send_acts(source, self.maker.uses(made, numbers))
            self.send_acts(source, [{"act": "receipt", "day": self.maker.day.isoformat(),
                                     "record": numbers[1], "by": "the archive",
                                     "digest": self.maker.digests.get(numbers[1], "0" * 64)}])

    def due(self, source: random.Random) -> list[dict[str, object]]:
        """The due list of a member, or nothing where it does not tell it."""
        day = self.maker.day.isoformat()
        try:
            reply = ask(self.member(source), "GET", f"/due/{day}")
            rows: list[dict[str, object]] = json.loads(reply.body) if reply.status == 200 else []
            return rows
        except FAULTS:
            return []

    def member(self, source: random.Random) -> Place:
        return self.cluster.place(source.randrange(3))

    def send_acts(self, source: random.Random, acts: list[Act]) -> Reply:
        reply = self.send(source, "acts", as_body(acts))
        if reply.status in (200, 409):
            self.maker.learn(acts, json.loads(reply.body))
        return reply

    def send(self, source: random.Random, kind: str, body: bytes) -> Reply:
        """With a key: at one member after another, until it is answered."""
        key, began = uuid.UUID(int=source.getrandbits(128)).hex, time.time()
        path, tries = "/acts" if kind == "acts" else "/run/resume", 0
        while True:
            tries += 1
            try:
                reply = ask(self.member(source), "POST", path, body, {"Idempotency-Key": key})
                if reply.status != 503:
                    break
                self.count(json.loads(reply.body).get("error", "?"))
            except FAULTS as error:
                self.count("refused" if isinstance(error, ConnectionRefusedError) else "no answer")
            time.sleep(RETRY_SECONDS)
        self.note(Post(key, kind, body, began, time.time(), reply.status, reply.body,
                       reply.position, tries))
        if source.random() < 0.15:
            self.ask_again(source, path, body, key, reply)
        return reply

    def ask_again(self, source: random.Random, path: str, body: bytes, key: str,
                  first: Reply) -> None:
        """The same key once more, at any member: the same answer."""
        try:
            reply = ask(self.member(source), "POST", path, body, {"Idempotency-Key": key})
        except FAULTS:
            return
        if reply.status != 503:
            self.count("asked again, the same")
            if (reply.status, reply.body, reply.position) != (
                    first.status, first.body, first.position):
                self.faults.append(f"another answer to the same key: {first} {reply}")

    def send_once(self, source: random.Random) -> None:
        """Without a key, once: it is in the log at most once, and once where it is answered."""
        acts = [self.maker.marked(source), *self.maker.acts(source, source.randint(0, 1))]
        body, began = as_body(acts), time.time()
        with self.lock:
            self.keyless += 1
        try:
            reply = ask(self.member(source), "POST", "/acts", body)
        except FAULTS:
            reply = None
        if reply is None or reply.status == 503:
            self.count("without a key, not answered")
            told = "" if reply is None else json.loads(reply.body).get("error")
            with self.lock:
                (self.not_taken if told in NOTHING_PUT else self.lost).append(body)
            time.sleep(RETRY_SECONDS)
            return
        self.note(Post(reply.lines.get("idempotency-key", "-"), "acts", body, began, time.time(),
                       reply.status, reply.body, reply.position, 1))
        if reply.status in (200, 409):
            self.maker.learn(acts, json.loads(reply.body))

    def note(self, post: Post) -> None:
        if post.position < 1:
            self.faults.append(f"an answer without a position: {post}")
        with self.lock:
            self.posts.append(post)
            self.known = max(self.known, post.position)

    def count(self, what: str) -> None:
        with self.lock:
            self.tries[what] += 1

    # ---- readings

    def reader(self, number: int) -> None:
        source = random.Random(self.seed * 1000 + number)
        while not self.stopping.is_set():
            path = source.choice([
                f"/records/{source.randint(1, 300)}", f"/records/{source.randint(1, 300)}/content",
                f"/certificates/{source.randint(1, 60)}", f"/due/{self.maker.day}", "/nothing"])
            mode, least = source.choice(["plain", "newest", "after"]), self.known
            asked: dict[str, dict[str, str]] = {
                "newest": {"Office-Read": "newest"}, "after": {"Office-After": str(least)},
                "plain": {}}
            try:
                machine, began = source.randrange(3), time.time()
                reply = ask(self.cluster.place(machine), "GET", path, None, asked[mode])
            except FAULTS:
                self.count("GET: no answer")
                continue
            if reply.status == 503:
                self.count("GET: " + json.loads(reply.body).get("error", "a fault"))
            else:
                self.reads.append(Read(path, reply.status, reply.body, reply.position, mode,
                                       0 if mode == "plain" else least, float(reply.lines["office-age"]), began,
                                       number, machine))
            time.sleep(0.1)

    # ---- one at a time

    def entry_at(self, machine: int, began: float, seconds: float = 1200) -> float:
        """Posts to one member until it answers; the seconds since `began`."""
        key, tries = uuid.uuid4().hex, 0
        while time.time() - began < seconds:
            tries += 1
            try:
                reply = ask(self.cluster.place(machine), "POST", "/acts", b"[]",
                            {"Idempotency-Key": key})
                if reply.status == 200:
                    self.note(Post(key, "acts", b"[]", began, time.time(), reply.status,
                                   reply.body, reply.position, tries))
                    return time.time() - began
            except FAULTS:
                pass
            time.sleep(0.02)
        self.faults.append(f"member {machine} takes no entry: {self.cluster.state(machine)}")
        with self.lock:
            self.lost.append(b"[]")
        return seconds
