"""Whose request goes to the office next: each name that waits has its turn, however many requests it has waiting."""
import asyncio
import contextlib
from collections import Counter, deque
from collections.abc import AsyncIterator, Iterator

from office_gate.errors import Answered


class Turns:
    """So many requests are at the office at once, which serves one after another."""

    def __init__(self, most: int) -> None:
        self.free = most
        self.waiting: dict[str, deque[asyncio.Future[None]]] = {}

    def count(self) -> int:
        return sum(not it.done() for line in self.waiting.values() for it in line)

    @contextlib.asynccontextmanager
    async def turn(self, name: str, ends: float) -> AsyncIterator[None]:
        """Takes a turn. Answered 503 `office` says that none came up to that moment."""
        try:
            async with asyncio.timeout_at(ends):
                await self.wait(name)
        except TimeoutError:
            raise Answered(503, "office") from None
        try:
            yield
        finally:
            self.leave()

    async def wait(self, name: str) -> None:
        if self.free:
            self.free -= 1
            return
        mine: asyncio.Future[None] = asyncio.get_running_loop().create_future()
        self.waiting.setdefault(name, deque()).append(mine)
        try:
            await mine
        except asyncio.CancelledError:
            if mine.done() and not mine.cancelled():
                self.leave()
            raise

    def leave(self) -> None:
        """Gives the turn to the name that has waited longest since its last one."""
        while self.waiting:
            name, line = next(iter(self.waiting.items()))
            del self.waiting[name]
            mine = line.popleft()
            if line:
                # it goes to the end of the names
                self.waiting[name] = line
            if not mine.done():
                mine.set_result(None)
                return
        self.free += 1


class AtOnce:
    """How many requests of one name are under way."""

    def __init__(self) -> None:
        self.counts: Counter[str] = Counter()

    @contextlib.contextmanager
    def one(self, name: str, most: int) -> Iterator[None]:
        if self.counts[name] >= most:
            raise Answered(429, "often")
        self.counts[name] += 1
        try:
            yield
        finally:
            self.counts[name] -= 1
            if not self.counts[name]:
                del self.counts[name]
