"""The office behind the gate: one request, one answer. While the office restarts, requests wait.

An office that decides too gets lines that state who asks: the name that signed in, or the reader for the gate's own
questions.
"""
import asyncio
import json
import time
from dataclasses import dataclass, field
from typing import Any

from office_gate import asking
from office_gate.errors import Answered, Refused, say
from office_gate.standing import Standing
from office_gate.stating import Stating
from office_gate.turns import Turns

WAIT_SECONDS = 120.0
"""so long a request waits for its turn and for an office that is away, if nothing of it was sent"""
ANSWER_SECONDS = 300.0
TRY_SECONDS = 0.1
AT_ONCE = 2
"""one is served, and the next is there already"""
PASSED_LINES = ("Idempotency-Key", "Office-Read", "Office-After")
"""the lines that a member of an office on several machines reads"""
NEWEST = {"Office-Read": "newest"}


@dataclass(frozen=True)
class Answer:
    """What the office answered. `is_known` is false if it may have acted and nobody knows."""

    status: int
    body: bytes
    kind: str = "application/json"
    lines: dict[str, str] = field(default_factory=dict)
    is_known: bool = True

    def json(self) -> Any:
        return json.loads(self.body)


def ends_of() -> float:
    """Returns up to when a request that comes now waits for the office."""
    return time.monotonic() + WAIT_SECONDS


UNKNOWN = Answer(502, b'{"error":"unknown"}', is_known=False)
REPEATED = "Office-Repeated"
"""the line by which a member says that an earlier request with this key has this answer"""
BACK_LINES = ("Allow", "Office-Position", "Office-Age", REPEATED)


class Office:
    """An office at an address, asked in turns that are fair to each name."""

    def __init__(self, address: str) -> None:
        host, _, port = address.rpartition(":")
        if not host or not (port.isascii() and port.isdigit()):
            raise Refused(2, f"--office '{address}' is no HOST:PORT")
        self.address, self.at = address, (host, int(port))
        self.turns = Turns(AT_ONCE)
        self.standing = Standing()
        # what states who asks, to an office that decides too
        self.stating: Stating | None = None
        # whether the last answer was that of a member, or None before the first one
        self.answers_as_member: bool | None = None

    async def is_member(self, name: str) -> bool:
        """Reports whether a member of an office on several machines answers here: each of its answers has an age."""
        if self.answers_as_member is None:
            await self.get(name, "/certificates/0")
        return bool(self.answers_as_member)

    def stated(self, name: str | None) -> dict[str, str]:
        """Returns the lines that state a name, or the gate itself; none to an office that does not decide."""
        if self.stating is None:
            return {}
        return self.stating.lines(self.stating.reader if name is None else name)

    async def get(self, name: str, path: str, lines: dict[str, str] | None = None) -> Answer:
        """Asks for what the gate itself has to know, in the turn of a name."""
        return await self.read(name, path, (lines or {}) | self.stated(None))

    async def get_for(self, name: str, path: str, lines: dict[str, str]) -> Answer:
        """Reads something for a name."""
        return await self.read(name, path, lines | self.stated(name))

    async def read(self, name: str, path: str, lines: dict[str, str]) -> Answer:
        """Reads something. A reading is asked again if its answer was lost."""
        return await self.answer_to(name, asking.request("GET", self.address, path, None, lines), ends_of())

    async def record(self, name: str, number: int) -> Any:
        """Returns what the office reports of a record, or None if there is none."""
        answer = await self.get(name, f"/records/{number}", NEWEST)
        if answer.status not in (200, 404):
            raise Answered(503, "office")
        return answer.json() if answer.status == 200 else None

    async def post(self, name: str, path: str, body: bytes | None, lines: dict[str, str], ends: float) -> Answer:
        """Sends what acts for a name, once, up to that moment at the latest."""
        request = asking.request("POST", self.address, path, body, lines | self.stated(name))
        answer = await self.answer_to(name, request, ends)
        self.standing.acted(answer.status, answer.body)
        return answer

    async def answer_to(self, name: str, request: asking.OfficeRequest, ends: float) -> Answer:
        while True:
            async with self.turns.turn(name, ends):
                answer = await self.once(request, request.head.method == b"GET")
            if answer is not None and is_unstated(answer):
                say("the office does not know this gate (403 token): compare --office-token with the secret of the office")
                raise Answered(503, "office")
            if answer is not None and not is_closed(answer):
                return answer
            self.standing.need_open()
            if time.monotonic() >= ends:
                raise Answered(503, "office")
            await asyncio.sleep(TRY_SECONDS)

    async def once(self, request: asking.OfficeRequest, is_reading: bool) -> Answer | None:
        """Sends a request once. None says that nothing was done, or that it was a reading."""
        try:
            reply = await asking.ask(self.at, request, ANSWER_SECONDS)
        except asking.Away:
            return None
        except TimeoutError as error:
            if is_reading:
                raise Answered(504, "time") from error
            return UNKNOWN
        except asking.Lost:
            return None if is_reading else UNKNOWN
        self.answers_as_member = "office-age" in reply.lines
        back = {it: reply.lines[it.lower()] for it in BACK_LINES if it.lower() in reply.lines}
        is_known = is_reading or not is_lost(reply.status, reply.body)
        return Answer(reply.status, reply.body, reply.lines.get("content-type", "application/json"), back, is_known)


def word_of(data: bytes) -> str | None:
    try:
        body = json.loads(data) if len(data) < 4096 else None
    except ValueError:
        return None
    return body.get("error") if isinstance(body, dict) else None


def is_closed(answer: Answer) -> bool:
    """Returns whether office-serve says that FILE could not be opened: nothing was done."""
    return answer.status == 503 and word_of(answer.body) == "closed"


def is_unstated(answer: Answer) -> bool:
    """Returns whether the office that decides too does not take the lines of this gate: nothing was done."""
    return answer.status == 403 and word_of(answer.body) == "token"


def is_lost(status: int, data: bytes) -> bool:
    """Returns whether acts may be done that the answer does not name."""
    return status >= 500 and word_of(data) in ("unknown", "memory", "time", "office")
