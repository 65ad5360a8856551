"""Clients over HTTP: what is a request for the log, what is a reading, and what is neither.

Nothing but POST /acts and POST /run/resume becomes an entry. Every other request is passed to the
own office, a POST as PUT, which the office takes nowhere: so it changes nothing.
"""
from __future__ import annotations

import asyncio
import contextlib
import json
import re
import socket
import uuid
from typing import NamedTuple

from office_common import client
from office_common.facts import LIMITS, LONGEST_ACTS

from replica import metrics
from replica.errors import say
from replica.head import Head
from replica.service import ANY, NEWEST, Answer, Service

KINDS = {"/acts": "acts", "/run/resume": "resume"}
READINGS = ("GET", "HEAD", "OPTIONS")
LONGEST_HEAD = LIMITS["head"]
DRAINED = 262_144
SILENT_SECONDS, DRAIN_SECONDS = 60, 0.1
BACKLOG = 1024
STATUSES = {"length": "411 Length Required", "digits": "400 Bad Request",
            "size": "413 Payload Too Large", "coding": "501 Not Implemented",
            "body": "400 Bad Request", "header": "400 Bad Request", "head": "400 Bad Request",
            "host": "400 Bad Request", "key": "422 Unprocessable Content",
            "after": "412 Precondition Failed"}
# the office's own names, where this module needs two for two statuses
NAMES = {"digits": "length"}


class Rejected(Exception):
    """A request is neither an entry nor a reading: the name of its error."""


def message(status: str, content: object, kind: str = "application/json") -> bytes:
    """Returns an answer of this program, in the form of the office's."""
    body = content.encode() if isinstance(content, str) else json.dumps(content, separators=(",", ":")).encode()
    again = "Retry-After: 1\r\n" if status.startswith("503") else ""
    head = (f"HTTP/1.1 {status}\r\nContent-Type: {kind}\r\n"
            f"Content-Length: {len(body)}\r\n{again}Connection: close\r\n\r\n")
    return head.encode() + body


def error_message(name: str) -> bytes:
    return message(STATUSES.get(name, "503 Service Unavailable"), {"error": NAMES.get(name, name)})


def length_of(head: Head) -> int:
    """Returns the bytes of the body of some acts. Rejected where the head does not say it as the office wants it."""
    try:
        return client.length_of(head.lines("Transfer-Encoding"), head.lines("Content-Length"), LONGEST_ACTS)
    except client.WrongLength as wrong:
        raise Rejected("digits" if wrong.status == 400 else wrong.word) from wrong


class ClientRequest(NamedTuple):
    """A request that came whole. With a key it is one for the log."""

    head: Head
    key: str | None = None
    body: bytes = b""


class Connection:
    """One connection: one request, one answer."""

    def __init__(self, service: Service, reader: asyncio.StreamReader, writer: asyncio.StreamWriter) -> None:
        self.service, self.reader, self.writer = service, reader, writer
        writer.transport.set_write_buffer_limits(0)

    async def run(self) -> None:
        """Reads the request, answers it, and reads what the client still sends, so that its answer is not lost."""
        key = None
        try:
            async with asyncio.timeout(SILENT_SECONDS):
                request = await self.read_request()
            answer, key = await self.answer(request), request.key
        except Rejected as error:
            answer = Answer(None, str(error))
        self.writer.write(self.written(answer, key))
        self.writer.write_eof()
        if self.writer.transport.get_write_buffer_size() > 0:
            async with asyncio.timeout(SILENT_SECONDS):
                await self.writer.drain()
        await self.leave()

    async def read_request(self) -> ClientRequest:
        """Returns the request. Of a body no act is looked at."""
        head = await self.head()
        if not head.is_whole:
            raise Rejected("head")
        self.writer.write(head.told)
        if head.command != "POST" or head.target not in KINDS:
            return ClientRequest(head)
        key = head.line("Idempotency-Key") or uuid.uuid4().hex
        if not head.has_host():
            raise Rejected("host")
        if not re.fullmatch("[A-Za-z0-9._~-]{1,64}", key):
            raise Rejected("header")
        try:
            length = length_of(head) if head.target == "/acts" else 0
            return ClientRequest(head, key, await self.reader.readexactly(length))
        except asyncio.IncompleteReadError as error:
            raise Rejected("body") from error

    async def head(self) -> Head:
        """What came, to its first empty line. ConnectionError where nothing came."""
        raw = b""
        try:
            while not raw.endswith((b"\n\n", b"\n\r\n")):
                raw += await self.reader.readuntil(b"\n")
                if len(raw) > LONGEST_HEAD:
                    raise Rejected("head")
        except asyncio.IncompleteReadError as error:
            raise Rejected("head") if raw or error.partial else ConnectionError("nothing came") from error
        except asyncio.LimitOverrunError as error:
            raise Rejected("head") from error
        return Head(raw)

    async def leave(self) -> None:
        left = DRAINED
        with contextlib.suppress(TimeoutError):
            while left > 0:
                async with asyncio.timeout(DRAIN_SECONDS):
                    part = await self.reader.read(65536)
                if not part:
                    return
                left -= len(part)

    def written(self, answer: Answer, key: str | None) -> bytes:
        """Returns the office's bytes, with some lines more in their head, or an error."""
        content = answer.content
        if isinstance(content, str):
            content = error_message(content)
        more = b""
        if answer.position is not None:
            more += b"Office-Position: %d\r\n" % answer.position
        more += b"Office-Age: %s\r\n" % (answer.age or self.service.age()).encode()
        if key is not None:
            more += b"Idempotency-Key: %s\r\n" % key.encode()
        if answer.is_repeated:
            more += b"Office-Repeated: 1\r\n"
        return content.replace(b"\r\n", b"\r\n" + more, 1)

    async def answer(self, request: ClientRequest) -> Answer:
        head, key, body = request
        if key is not None:
            return await self.service.post(key, KINDS[head.target], body)
        if (head.command, head.target) == ("GET", "/replica"):
            return self.state()
        if (head.command, head.target) == ("GET", "/metrics"):
            return Answer(None, message("200 OK", metrics.text(self.service), "text/plain; version=0.0.4"))
        return await self.read(head)

    async def read(self, head: Head) -> Answer:
        """Returns a reading, or what the office refuses."""
        position, wanted = head.line("Office-After"), head.line("Office-Read")
        after = "0" if position is None else position
        if not head.has_host():
            raise Rejected("host")
        if not re.fullmatch("[0-9]{1,15}", after) or wanted not in (None, NEWEST, ANY):
            raise Rejected("header")
        method = head.command if head.command in READINGS else "PUT"
        return await self.service.read(method, head.target, wanted, int(after))

    def state(self) -> Answer:
        """Of this member, with status 503 where it does not answer plain readings."""
        state = self.service.state()
        return Answer(None, message("200 OK" if state["answers"] else "503 Service Unavailable", state))


class Clients:
    """The clients' door of one member, on 127.0.0.1."""

    def __init__(self, port: int, service: Service) -> None:
        """OSError where the port is taken."""
        self.service, self.port = service, socket.create_server(("127.0.0.1", port), backlog=BACKLOG)

    def run(self) -> None:
        """Answers whoever comes. Never returns."""
        asyncio.run(self.serve())

    async def serve(self) -> None:
        server = await asyncio.start_server(self.connected, sock=self.port, limit=LONGEST_HEAD, backlog=BACKLOG)
        await server.serve_forever()

    async def connected(self, reader: asyncio.StreamReader, writer: asyncio.StreamWriter) -> None:
        try:
            await Connection(self.service, reader, writer).run()
        except OSError:  # the client has gone, or is silent: by its key it will be answered
            writer.transport.abort()
        except Exception as error:  # somebody has to hear of it
            say(f"a request has no answer: {error!r}")
        finally:
            writer.close()
