"""Long work in the one thread of the gate, which yields so that other requests go on."""
import asyncio
import time
from collections.abc import AsyncIterator, Iterable
from typing import TypeVar

Item = TypeVar("Item")
SLICE = 0.005
"""the seconds of work after which other requests have their turn"""


class Pace:
    """The moment since which the work of one request has kept the thread."""

    def __init__(self) -> None:
        self.since = time.monotonic()

    async def rest(self) -> None:
        """Yields if the slice is over."""
        if time.monotonic() - self.since >= SLICE:
            await asyncio.sleep(0)
            self.since = time.monotonic()


async def each(items: Iterable[Item]) -> AsyncIterator[tuple[int, Item]]:
    """Gives each item with its place, and yields to other requests now and then."""
    pace = Pace()
    for place, item in enumerate(items):
        yield place, item
        await pace.rest()
