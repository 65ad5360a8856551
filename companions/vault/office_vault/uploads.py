"""The uploads under way: how many each name has, and how many bytes it may bring in before records name them."""
import contextlib
import threading
from collections import Counter
from collections.abc import Iterator
from dataclasses import dataclass, field


class Often(Exception):
    """A name has as many uploads under way as it may."""


class Quota(Exception):
    """A name has more bytes in the vault that no record names than it may."""


@dataclass
class Uploads:
    """The uploads under way by name. A request without a name counts as one of a name of its own."""

    at_once: int
    unnamed: int
    lock: threading.Lock = field(default_factory=threading.Lock)
    counts: Counter[str] = field(default_factory=Counter)
    bytes: Counter[str] = field(default_factory=Counter)

    @contextlib.contextmanager
    def one(self, name: str, length: int, stored: int) -> Iterator[None]:
        """Counts an upload of `length` bytes while it lasts; `stored` bytes of the name are there and unnamed.

        A name that has nothing else unnamed may bring in one file of any size.
        """
        with self.lock:
            if self.counts[name] >= self.at_once:
                raise Often
            before = stored + self.bytes[name]
            if before and before + length > self.unnamed:
                raise Quota
            self.counts[name] += 1
            self.bytes[name] += length
        try:
            yield
        finally:
            with self.lock:
                self.counts[name] -= 1
                self.bytes[name] -= length
                if not self.counts[name]:
                    del self.counts[name], self.bytes[name]
