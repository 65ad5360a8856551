"""The requests that nginx passes on: one a connection, read whole, answered once."""
import asyncio
import contextlib
import hashlib
import json
import re
import sys
import traceback
from collections.abc import AsyncIterator, Awaitable

from aiohttp import HttpVersion10, HttpVersion11, web
from aiohttp.web_protocol import RequestHandler

from office_gate import guards
from office_gate.deciding import Caller, may_act
from office_gate.errors import Answered
from office_gate.gate import Gate
from office_gate.guards import Lines
from office_gate.office import Answer
from office_gate.reading import Reading

BODY_SECONDS = 60
HEAD_SECONDS = 10
"""nginx sends a head at once, so a connection that brings none is nobody's; it would hold up a stop"""
POSTS = ("/acts", "/run/resume")
MAY = "/may"
"""what nginx asks about a file that it has itself"""
STORED = re.compile(r"/stored\?length=([0-9]{1,18})")
"""what nginx reports once a file of so many bytes is in the vault"""
GETS = ("/records/", "/due/", "/overdue/", "/certificates/", "/catalogue/", "/history", "/since", "/rights", "/alive",
        "/metrics", MAY)
MOST_TOLD = 400
"""so many letters of a path are in the journal"""


class Connection(RequestHandler):
    """A connection. Of bytes that are no request the journal has a line too."""

    def connection_made(self, transport: asyncio.BaseTransport) -> None:
        super().connection_made(transport)
        self.late = self._loop.call_later(HEAD_SECONDS, self.end_if_silent)

    def connection_lost(self, exc: BaseException | None) -> None:
        self.late.cancel()
        super().connection_lost(exc)

    def end_if_silent(self) -> None:
        if self._current_request is None and not self._messages and self.transport is not None:
            self.transport.abort()

    front: "Front"

    def handle_error(self, request: web.BaseRequest, status: int = 500, exc: BaseException | None = None,
                     message: str | None = None) -> web.StreamResponse:
        self.front.note_unreadable()
        return reply(status if status < 500 else 500, {"error": "head" if status < 500 else "gate"})


class Front(web.Server):
    """The server of aiohttp, with one answer a connection."""

    def __init__(self, gate: Gate) -> None:
        super().__init__(self.handle, access_log=None, keepalive_timeout=0, lingering_time=1.0, auto_decompress=False,
                         max_line_size=16384, max_headers=64, max_field_size=16384)
        self.gate = gate
        # answers that are not whole yet, also those whose client went away
        self.under_way: set[asyncio.Future[web.StreamResponse]] = set()

    def __call__(self) -> RequestHandler:
        connection = Connection(self, loop=self._loop, **self._kwargs)
        connection.front = self
        return connection

    def note_unreadable(self) -> None:
        """Bytes that are no request have no name and no path."""
        refusal = self.gate.refuse({"name": "", "request": "no request"}, Answered(400, "head"))
        asyncio.ensure_future(quiet(refusal))

    async def handle(self, request: web.BaseRequest) -> web.StreamResponse:
        # an act goes on if its client goes away
        one = asyncio.ensure_future(self.answer(request))
        self.under_way.add(one)
        one.add_done_callback(self.done)
        try:
            return await asyncio.shield(one)
        except Answered as refused:
            back = reply(refused.status, refused.body())
            if request.raw_path == MAY:
                # nginx passes on no body of what it asked, so it takes the word
                back.headers["Office-Word"] = refused.word
            return back
        except ConnectionError:
            raise
        except Exception:
            traceback.print_exc(file=sys.stderr)
            return reply(500, {"error": "gate"})

    def done(self, one: asyncio.Future[web.StreamResponse]) -> None:
        self.under_way.discard(one)
        if not one.cancelled():
            # without this the loop prints each refusal of a client that went away
            one.exception()

    async def answer(self, request: web.BaseRequest) -> web.StreamResponse:
        lines = Lines(request.raw_headers)
        name, journaled, body = "", False, dict[str, object]()
        try:
            name = guards.name_of(self.gate, lines)
            is_post = request.method == "POST"
            guards.site(self.gate, lines, is_post)
            await self.gate.note_settings()
            caller = Caller(self.gate.access.person(name), lines.one("Office-From")[:64], guards.reason(lines),
                            dict(guards.passed(lines)), has_vault=lines.one("Office-Vault") != "none")
            if match := STORED.fullmatch(request.raw_path):
                return await self.stored(caller, lines, int(match[1]))
            with self.gate.requests.one(name, self.gate.access.requests_at_once):
                method(request)
                if is_post:
                    if request.raw_path == "/acts" and not may_act(caller.person):
                        body["body"] = await self.dropped(request, lines)
                        raise Answered(403, "right")
                    data = await self.body(request, lines) if request.raw_path == "/acts" else b""
                    journaled = True
                    return await self.act(request.raw_path, caller, data)
                if request.raw_path == MAY:
                    return await self.may(caller, lines)
                answer = await Reading(self.gate, caller).answer(request.raw_path)
                await self.gate.note(caller, what(request, lines), answer.status, len(answer.body))
                return passed_back(answer)
        except Answered as refused:
            if not journaled:
                await self.gate.refuse(entry(name, request, lines) | body, refused)
            raise
        except Exception:
            if not journaled:
                await self.gate.refuse(entry(name, request, lines), Answered(500, "gate"))
            raise

    async def act(self, path: str, caller: Caller, data: bytes) -> web.StreamResponse:
        if path == "/acts":
            answer, head = await self.gate.acts(caller, data)
        else:
            answer, head = await self.gate.resume(caller)
        back = passed_back(answer)
        back.headers["Office-Journal"] = str(head)
        return back

    async def body(self, request: web.BaseRequest, lines: Lines) -> bytes:
        """Reads a body whole."""
        length = guards.length(lines)
        async with whole():
            return await request.content.readexactly(length) if length else b""

    async def dropped(self, request: web.BaseRequest, lines: Lines) -> dict[str, object]:
        """Takes a body that nobody reads, so that the client gets the answer. Returns what the journal has of it."""
        left = length = guards.length(lines)
        sha256 = hashlib.sha256()
        async with whole():
            while left:
                data = await request.content.readany()
                if not data:
                    raise asyncio.IncompleteReadError(b"", left)
                sha256.update(data)
                left -= len(data)
        return {"bytes": length, "sha256": sha256.hexdigest()}

    async def may(self, caller: Caller, lines: Lines) -> web.StreamResponse:
        """Answers nginx, which asks before it gives a file, or takes one."""
        verb, path = lines.one("Office-Method"), lines.one("Office-Path")
        guards.site(self.gate, lines, verb == "PUT")
        await Reading(self.gate, caller).may(verb, path)
        back = reply(204, None)
        if verb == "PUT":
            await self.gate.put(caller, f"{verb} {path}")
            back.headers["Office-Unnamed"] = str(self.gate.facts.files.unnamed(caller.person.name))
        else:
            await self.gate.note(caller, f"{verb} {path}", 204, 0)
        return back

    async def stored(self, caller: Caller, lines: Lines, length: int) -> web.StreamResponse:
        """Answers in the place of the vault, which took a file in; alike, whether anybody had put it in before."""
        path = lines.one("Office-Path")
        guards.site(self.gate, lines, True)
        await Reading(self.gate, caller).may("PUT", path)
        digest = path.rpartition("/")[2]
        await self.gate.stored(caller, digest, length)
        return reply(201, {"length": length, "sha256": digest})


@contextlib.asynccontextmanager
async def whole() -> AsyncIterator[None]:
    """Refuses a body that does not come whole, or not in time."""
    try:
        async with asyncio.timeout(BODY_SECONDS):
            yield
    except (asyncio.IncompleteReadError, TimeoutError, web.HTTPException) as error:
        raise Answered(400, "body") from error
    except Exception as error:
        # what aiohttp raises of a connection that ended
        raise Answered(400, "body") from error


async def quiet(writing: Awaitable[object]) -> None:
    with contextlib.suppress(Answered):
        await writing


def what(request: web.BaseRequest, lines: Lines) -> str:
    """What is asked for, as the journal says it: of a question of nginx what nginx was asked for."""
    verb, path = request.method, request.raw_path
    if path == MAY:
        verb, path = lines.first("Office-Method"), lines.first("Office-Path")
    # bytes of a path that are no text are written as such
    return f"{verb} {path}".encode(errors="backslashreplace").decode()[:MOST_TOLD]


def entry(name: str, request: web.BaseRequest, lines: Lines) -> dict[str, object]:
    """What the journal says of a request that came to no decision."""
    return {"name": name, "from": lines.first("Office-From")[:64], "request": what(request, lines)}


def method(request: web.BaseRequest) -> None:
    """Refuses another HTTP than 1.0 and 1.1, a path that is none, and another method than that of the path."""
    path = request.raw_path
    if request.version not in (HttpVersion10, HttpVersion11):
        raise Answered(400, "head")
    if path in POSTS:
        if request.method != "POST":
            raise Answered(405, "method")
    elif not path.startswith(GETS):
        raise Answered(404, "path")
    elif request.method != "GET":
        raise Answered(405, "method")


def reply(status: int, body: object) -> web.Response:
    data = b"" if body is None else json.dumps(body, separators=(",", ":"), sort_keys=True).encode()
    return closed(web.Response(status=status, body=data, content_type=None if body is None else "application/json"))


def passed_back(answer: Answer) -> web.Response:
    back = web.Response(status=answer.status, body=answer.body, headers={"Content-Type": answer.kind})
    for name, value in answer.lines.items():
        back.headers[name] = value
    return closed(back)


def closed(response: web.Response) -> web.Response:
    response.force_close()
    return response
