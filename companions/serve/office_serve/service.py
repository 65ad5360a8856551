"""The life of office-serve: it starts the program, passes one connection after another, and stops."""
import os
import select
import socket
import sys
import time

from office_common.errors import Refused
from office_common.notify import notify, ready

from office_serve import files, listening
from office_serve.lingering import Lingering
from office_serve.passing import Passing, reply
from office_serve.program import Program
from office_serve.stopping import Stop
from office_serve.watching import Watch

TRIES, TRY_SECONDS = 50, 0.1
"""how often a program that has answered 503 is asked whether it goes on"""
READING = b"GET "
"""how each request begins at the socket for readings: the program answers one request a connection"""
CLOSING_USEC = 3600 * 1_000_000
"""so long the watchdog of systemd waits while FILE is closed"""


class Service:
    """An office at a port of 127.0.0.1."""

    def __init__(self, program: Program, places: list[listening.Place], stop_seconds: int, hang_seconds: int) -> None:
        self.program = program
        self.places = places
        self.stop = Stop(stop_seconds)
        self.watch = Watch(program.file, hang_seconds)
        self.listeners: list[socket.socket] = []
        self.lingering = Lingering()

    def run(self) -> None:
        """Serves until somebody asks it to stop, and then closes FILE."""
        files.check(self.program.file)
        self.listeners = listening.listeners(self.places)
        for listener in self.listeners:
            # a client that went away before it was accepted keeps nobody waiting
            listener.setblocking(False)
        try:
            if self.start():
                ready()
                print(f"listening 127.0.0.1:{self.places[0]}", flush=True)
                self.serve()
        finally:
            self.program.stop()
            self.lingering.end()
        notify(f"STOPPING=1\nWATCHDOG_USEC={CLOSING_USEC}")
        for listener in self.listeners:
            listener.close()
        files.close_if_open(self.program.path, self.program.file)

    def start(self) -> bool:
        """Starts the program. If it does not open FILE, those who wait are told so."""
        try:
            files.check(self.program.file)
            return self.program.start(self.stop, self.watch)
        except Refused:
            self.refuse_all()
            raise

    def serve(self) -> None:
        while not self.stop.is_asked():
            if self.program.has_ended() and not self.start():
                return
            for listener in self.waited_for():
                client = None if self.stop.is_asked() else accepted(listener)
                if client is not None:
                    self.pass_on(client, READING if listener.family == socket.AF_UNIX else b"")
            if not self.stop.is_asked() and not self.program.has_ended() and self.watch.is_time():
                self.look()

    def waited_for(self) -> list[socket.socket]:
        """Waits for clients. Returns where some are; nothing if the program ended or somebody asked to stop."""
        ended = self.program.pidfd()
        times = [it for it in (self.lingering.seconds_left(), self.watch.step) if it is not None]
        try:
            ready = select.select([*self.listeners, self.stop, ended, *self.lingering.clients], [], [], min(times))[0]
        finally:
            os.close(ended)
        self.stop.clear()
        self.lingering.read(ready)
        if self.stop.is_asked() or ended in ready:
            return []
        return [it for it in self.listeners if it in ready]

    def look(self) -> None:
        """Finds out whether the program still answers."""
        self.program.is_alive(self.stop, self.watch)
        if self.program.left == 0:
            self.program.wait()

    def pass_on(self, client: socket.socket, only: bytes) -> None:
        """Passes a connection, and starts the program again if it ended with it."""
        while (link := self.program.connect()) is None:
            try:
                is_started = self.start()
            except Refused:
                reply(client, "503 Service Unavailable", "closed")
                self.lingering.add(client)
                raise
            if not is_started:
                client.close()
                return
        passing = Passing(client, link, only, self.program.reader_lines() if only else b"")
        assert self.program.process is not None
        why = passing.run(self.stop, self.watch, self.program.process.pid)
        if why:
            print(f"<3>office-serve: {why}; the program is ended", file=sys.stderr, flush=True)
            self.program.stop()
        passing.finish()
        self.lingering.add(client)
        self.settle(passing.status())

    def settle(self, status: bytes) -> None:
        """Waits until the program either ended or goes on, so that the next client meets one that goes on."""
        if self.stop.is_asked():
            return
        if status == b"503":
            for _ in range(TRIES):
                if self.program.left == 0 or self.program.is_alive(self.stop, self.watch):
                    break
                if self.program.has_ended():
                    return
                time.sleep(TRY_SECONDS)
        if self.program.left == 0:
            self.program.wait()

    def refuse_all(self) -> None:
        """Answers those who wait that the office is closed. Nothing of them came to the program."""
        for listener in self.listeners:
            while (client := accepted(listener)) is not None:
                reply(client, "503 Service Unavailable", "closed")
                self.lingering.add(client)


def accepted(listener: socket.socket) -> socket.socket | None:
    """Accepts a client that waits; None if there is none, or it cannot be accepted."""
    try:
        return listener.accept()[0]
    except BlockingIOError:
        return None
    except OSError as error:
        print(f"office-serve: a connection was not accepted: {error.strerror}", file=sys.stderr)
        time.sleep(TRY_SECONDS)
        return None
