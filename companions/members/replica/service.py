"""What clients are answered: a request becomes an entry and waits for its answer; a reading waits
for the position that it asks for, and is not given where it may be too old.

Requests are taken by one thread, which waits for none of them (`asyncio`). Whatever may wait otherwise has threads.
"""
from __future__ import annotations

import asyncio
import functools
import time
from concurrent.futures import Future, ThreadPoolExecutor
from typing import Callable, NamedTuple, TypeVar

from replica.errors import NotTaken, Unclear, say
from replica.follower import Follower
from replica.freshness import Freshness, whole
from replica.log import Log
from replica.office import status_of

WAIT_SECONDS = 30
"""of a client, for its turn and for its entry"""
MOST_AT_ONCE = 1000
"""readings; those beyond wait for one that is answered"""
NEWEST, ANY = "newest", "any"
"""what a reading may ask for: all that was answered before it, or whatever this machine has"""
Told = TypeVar("Told")


class Answer(NamedTuple):
    """The bytes of the office, or the name of an error; the position that they belong to; the age of a reading, in
    seconds or `unknown`; and whether an earlier request with this key was done. Any other answer has the age as it is
    written."""

    position: int | None
    content: bytes | str
    age: str | None = None
    is_repeated: bool = False


async def is_told(future: Future[bool], seconds: float) -> bool:
    """Returns whether it is told in these seconds. Afterwards nobody waits for it."""
    if future.done():
        return future.result()
    try:
        async with asyncio.timeout(seconds):
            return await asyncio.wrap_future(future)
    except TimeoutError:
        return False


class Service:
    """The answers of one member. `post` and `read` are for the thread that takes requests, all else for any."""

    def __init__(self, log: Log, follower: Follower, freshness: Freshness) -> None:
        self.log, self.follower, self.freshness = log, follower, freshness
        self.limit: float = follower.settings.reading_limit
        self.threads = ThreadPoolExecutor(MOST_AT_ONCE)

    async def in_thread(self, work: Callable[[], Told]) -> Told:
        """What it gives, without holding up other requests."""
        return await asyncio.get_running_loop().run_in_executor(self.threads, work)

    async def post(self, key: str, kind: str, body: bytes) -> Answer:
        """Returns the answer to a request that may change the office.

        `recovering`, `busy`, `quorum`, `full`, `key`: this call put nothing into the log.
        `unknown`: perhaps it did; with a position it surely did. The same key may be tried again
        at any member.
        """
        if not self.follower.is_answering:
            return Answer(None, "recovering")
        appended = await asyncio.wrap_future(self.follower.appender.append(key, kind, body))
        position = appended.position
        if position is None:
            return Answer(None, appended.error or "unknown")
        if not await is_told(self.follower.reached(position), WAIT_SECONDS):
            return Answer(position, "unknown")
        answer = self.follower.newest_answer(position, key)
        if answer is None:
            answer = await self.in_thread(functools.partial(self.follower.answer, position, key))
        return Answer(position, "unknown" if answer is None else answer, is_repeated=appended.is_repeated)

    async def read(self, method: str, path: str, wanted: str | None, after: int) -> Answer:
        """Returns the answer to a request that changes nothing, from the own office.

        It is at least at the position `after`; with NEWEST at least where the log ended as the
        request came. `behind`: it would not be there in time, or would be older than the limit.
        `after`: the log ends before that position, so it is another log than the client has seen.
        """
        if wanted == NEWEST:
            try:
                after = max(after, await self.in_thread(self.freshness.confirm))
            except (NotTaken, Unclear):
                return Answer(None, "quorum")
        if not self.follower.is_reading:
            return Answer(None, "recovering")
        if after > self.follower.position and await self.in_thread(lambda: self.ends_before(after)):
            return Answer(None, "after")
        if after > 0 and not await is_told(self.follower.reached(after, reading=True), WAIT_SECONDS):
            return Answer(None, "behind" if self.follower.is_reading else "recovering")
        return await self.in_thread(lambda: self.asked_in_turn(method, path, wanted))

    def asked_in_turn(self, method: str, path: str, wanted: str | None) -> Answer:
        """What the office answers, once nobody else talks with it."""
        if not self.follower.office.lock.acquire(timeout=self.limit):
            return Answer(None, "busy")
        try:
            return self.asked(method, path, wanted != ANY, self.limit)
        finally:
            self.follower.office.lock.release()

    def ends_before(self, position: int) -> bool:
        """Returns whether the log ends before a position, by a majority. What any member answered is in the log."""
        try:
            return self.freshness.confirm() < position
        except (NotTaken, Unclear):
            return False

    def age(self) -> str:
        """How long ago this machine surely had all that was answered, in whole seconds, or `unknown`."""
        age = whole(self.freshness.age(self.follower.position))
        return "unknown" if age is None else str(age)

    def asked(self, method: str, path: str, is_limited: bool, seconds: float) -> Answer:
        """What the office answers now, to one who has its lock."""
        position, office = self.follower.position, self.follower.office
        if not self.follower.is_reading:
            return Answer(None, "recovering")
        if is_limited and self.freshness.is_behind(position):
            return Answer(None, "behind")
        try:
            content = office.ask(method, path, seconds=seconds)
        except TimeoutError:
            say(f"the office gave no answer to {method} {path} in {seconds:.0f} seconds: it is started again")
            office.kill()
            self.follower.changed.set()
            return Answer(None, "recovering")
        except OSError:
            return Answer(None, "recovering")
        if status_of(content, method == "HEAD") is None:
            return Answer(None, "recovering")
        if is_limited and self.freshness.is_behind(position):
            return Answer(None, "behind")  # the office took long, and entries came meanwhile
        return Answer(position, content, self.age())

    def ask_if_free(self, seconds: float) -> None:
        """Asks the office something, unless somebody else does just now: so a hanging one is found."""
        follower = self.follower
        if follower.is_reading and follower.office.lock.acquire(blocking=False):
            try:
                self.asked("GET", "/nothing", False, seconds)
            finally:
                follower.office.lock.release()

    def trouble(self) -> str:
        """Why plain readings are not answered now, or nothing."""
        follower, freshness = self.follower, self.freshness
        if not follower.is_answering:
            return follower.why or "it follows the log"
        if freshness.is_behind(follower.position):
            age = freshness.age(follower.position)
            return ("no majority has told where the log ends since the start" if age is None else
                    f"it may lack what was answered in the last {whole(age)} seconds")
        return follower.office.trouble(self.limit)

    def state(self) -> dict[str, object]:
        """What /replica tells."""
        follower, memo, why = self.follower, self.follower.memo, self.trouble()
        return {"answers": not why, "why": why, **self.freshness.state(follower.position),
                "certificate_days": self.certificate_days(),
                "chain": "" if memo is None else memo.chain, "full": self.log.is_full,
                "member": self.log.member, "position": follower.position, "program": self.log.program,
                "restores": follower.restores, "snapshot": follower.reported}

    def certificate_days(self) -> int | None:
        """Returns the days until etcd's certificate ends, by the clock of this machine; None without one."""
        ends = self.log.etcd.certificate_ends
        return None if ends is None else int((ends - time.time()) // 86_400)
