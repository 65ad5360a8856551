"""One connection: what the client sends goes to the program, and the answer goes back, byte for byte. A reading at the
socket gets lines that state who asks, if the office decides that."""
import select
import socket
import struct
import time

from office_serve.stopping import Stop
from office_serve.watching import Watch

BLOCK = 65536
ANSWER_SECONDS = 60
"""a client has as long for the whole answer as the program gives it"""
HEAD_SECONDS = 5
"""a client has as long for the head of a request where readings alone are served, so that it holds up nobody's act"""
ENDS_OF_HEAD = (b"\n\r\n", b"\n\n")


class Way:
    """What was read from one socket and not yet written to the other."""

    def __init__(self, source: socket.socket, sink: socket.socket) -> None:
        self.source, self.sink = source, sink
        self.waiting = b""
        self.beginning = b""
        # whether the head is whole, and the last bytes that may begin its end
        self.has_head = False
        self.last = b""
        self.has_ended = False
        self.is_open = True
        # how a request has to begin, where readings alone are served, and the lines that follow its first line
        self.only = b""
        self.lines = b""
        self.is_refused = False

    def can_read(self) -> bool:
        return not self.has_ended and not self.waiting

    def read(self) -> None:
        try:
            block = self.source.recv(BLOCK)
        except BlockingIOError:
            return
        except OSError:
            block = b""
        self.beginning = (self.beginning + block)[:16]
        self.last += block
        self.has_head = self.has_head or any(end in self.last for end in ENDS_OF_HEAD)
        self.last = self.last[-2:]
        size = min(len(self.only), len(self.beginning))
        self.is_refused = self.beginning[:size] != self.only[:size]
        self.has_ended = not block
        # what nobody takes any more is read to its end nevertheless
        self.waiting = self.with_lines(block) if self.is_open and not self.is_refused else b""

    def with_lines(self, block: bytes) -> bytes:
        """Puts the lines that state who asks behind the first line of a head. They are there before any line of the
        client, so none of these takes their place."""
        line, end, rest = block.partition(b"\n")
        if not self.lines or not end:
            return block
        lines, self.lines = self.lines, b""
        return line + end + lines + rest

    def write(self) -> None:
        try:
            self.waiting = self.waiting[self.sink.send(self.waiting):]
        except BlockingIOError:
            pass
        except OSError:
            self.waiting, self.is_open = b"", False

    def end(self) -> None:
        """Tells the sink that nothing more comes, once it has all."""
        if self.has_ended and not self.waiting and self.is_open:
            self.is_open = False
            try:
                self.sink.shutdown(socket.SHUT_WR)
            except OSError:
                pass


class Passing:
    """Passes one connection to its end. Used once."""

    def __init__(self, client: socket.socket, link: socket.socket, only: bytes = b"", lines: bytes = b"") -> None:
        self.client, self.link = client, link
        self.request, self.answer = Way(client, link), Way(link, client)
        self.request.only, self.request.lines = only, lines
        self.answer_ends: float | None = None
        self.head_ends = time.monotonic() + HEAD_SECONDS if only else None
        for end in (client, link):
            end.setblocking(False)

    def is_answered(self) -> bool:
        return bool(self.answer.beginning)

    def status(self) -> bytes:
        return self.answer.beginning[9:12]

    def run(self, stop: Stop, watch: Watch, pid: int) -> str:
        """Passes all. Returns why it did not come to its end, if the program has to be ended for that."""
        watch.begin()
        while not (self.answer.has_ended and not self.answer.waiting):
            seconds = self.seconds_left(stop)
            if seconds is not None and seconds <= 0:
                break
            if watch.is_hung(pid):
                return f"the program did nothing for {watch.seconds:.0f} seconds with a request under way"
            self.step(stop, watch.step if seconds is None else min(seconds, watch.step))
            if self.request.is_refused:
                return ""
        else:
            return ""
        return "the request under way took longer than may be" if stop.is_asked() and stop.left() == 0 else ""

    def seconds_left(self, stop: Stop) -> float | None:
        """Returns how long may be waited: for the client's head, for its reading, and for the end."""
        if self.is_answered() and self.answer_ends is None:
            self.answer_ends = time.monotonic() + ANSWER_SECONDS
        if self.request.has_head or self.is_answered():
            self.head_ends = None
        of_client = [ends - time.monotonic() for ends in (self.answer_ends, self.head_ends) if ends is not None]
        left = stop.left()
        times = [*of_client, *([] if left is None else [left])]
        return min(times) if times else None

    def step(self, stop: Stop, seconds: float) -> None:
        """Waits until something can be passed, and passes it."""
        wanted = {stop.fileno(): select.POLLIN}
        for way in (self.request, self.answer):
            if way.can_read():
                wanted[way.source.fileno()] = wanted.get(way.source.fileno(), 0) | select.POLLIN
            if way.waiting:
                wanted[way.sink.fileno()] = wanted.get(way.sink.fileno(), 0) | select.POLLOUT
        poll = select.poll()
        for number, events in wanted.items():
            poll.register(number, events)
        ready = {number for number, _ in poll.poll(1000 * seconds + 1)}
        stop.clear()
        for way in (self.request, self.answer):
            if way.can_read() and way.source.fileno() in ready:
                way.read()
            if way.waiting:
                way.write()
        self.request.end()

    def finish(self) -> None:
        """Ends the program's connection. A client that has a part of an answer is reset when it is closed, so that it
        does not take it as whole."""
        self.link.close()
        if self.request.is_refused:
            reply(self.client, "405 Method Not Allowed", "method")
            return
        is_whole = self.answer.has_ended and not self.answer.waiting
        if self.is_answered() and not is_whole:
            self.client.setsockopt(socket.SOL_SOCKET, socket.SO_LINGER, struct.pack("ii", 1, 0))
        elif not self.is_answered() and self.request.beginning:
            reply(self.client, "502 Bad Gateway", "unknown")


def reply(client: socket.socket, status: str, word: str) -> None:
    """Answers in the place of the program, which gave no answer."""
    body = f'{{"error":"{word}"}}'
    head = f"HTTP/1.1 {status}\r\nContent-Type: application/json\r\nContent-Length: {len(body)}\r\n"
    try:
        client.send(f"{head}Connection: close\r\n\r\n{body}".encode())
    except OSError:
        pass
