"""The sessions of people: kept in memory by the SHA-256 of their keys, so what is here opens none."""
import hashlib
import secrets
from collections.abc import Callable, Iterator
from dataclasses import dataclass, field

from office_signin.clock import Moment, end_of_day
from office_signin.settings import Times

KEY_BYTES = 32
MOST, MOST_OF_ONE = 20_000, 8
"""so many sessions there are at once, and so many of one person"""


@dataclass
class Session:
    """Somebody who signed in: the stable name, the way and the line of the journal, and when the session ends."""

    name: str
    way: str
    line: int
    day_ends: float
    most: float
    idle: float
    form: str = field(default_factory=lambda: secrets.token_urlsafe(KEY_BYTES))
    # what a provider gave to ask for the groups again
    refresh: str | None = None

    def is_over(self, now: Moment) -> bool:
        return now.wall >= self.day_ends or now.machine >= self.most or now.machine >= self.idle


def digest_of(key: str) -> bytes:
    return hashlib.sha256(key.encode("utf-8", "surrogateescape")).digest()


class Sessions:
    """All sessions of a site."""

    def __init__(self, times: Times) -> None:
        self.times = times
        self.kept: dict[bytes, Session] = {}

    def begin(self, name: str, way: str, line: int, now: Moment) -> tuple[str, Session]:
        """Begins a session, and returns its key, which only the browser has from then on."""
        self.sweep(now)
        self.make_room(name)
        key = secrets.token_urlsafe(KEY_BYTES)
        session = Session(name, way, line, end_of_day(self.times, now.wall), now.machine + self.times.most_seconds,
                          now.machine + self.times.idle_seconds)
        self.kept[digest_of(key)] = session
        return key, session

    def make_room(self, name: str) -> None:
        """Ends the oldest sessions of somebody who has too many, and of all if there are too many."""
        own = [digest for digest, session in self.kept.items() if session.name == name]
        for digest in own[:len(own) - MOST_OF_ONE + 1] if len(own) >= MOST_OF_ONE else []:
            del self.kept[digest]
        while len(self.kept) >= MOST:
            del self.kept[next(iter(self.kept))]

    def find(self, key: str, now: Moment) -> Session | None:
        """Returns the session of a key. It is idle from now on."""
        digest = digest_of(key)
        session = self.kept.get(digest)
        if session is None:
            return None
        if session.is_over(now):
            del self.kept[digest]
            return None
        session.idle = now.machine + self.times.idle_seconds
        return session

    def end(self, key: str) -> Session | None:
        """Ends the session of a key, and returns it."""
        return self.kept.pop(digest_of(key), None)

    def end_all(self, ends: Callable[[Session], bool]) -> int:
        """Ends the sessions of which this holds, and returns how many."""
        over = [digest for digest, session in self.kept.items() if ends(session)]
        for digest in over:
            del self.kept[digest]
        return len(over)

    def sweep(self, now: Moment) -> None:
        """Drops what is over."""
        self.end_all(lambda session: session.is_over(now))

    def of_way(self, way: str) -> Iterator[Session]:
        """Returns the sessions of a way, one for each name, the newest."""
        yield from {session.name: session for session in self.kept.values() if session.way == way}.values()
