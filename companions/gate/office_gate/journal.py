"""The journal while the gate runs: lines are linked in the order in which they come, and written by one thread.

Who waits for a line has it on the disk. Lines that come while the disk works are written together.
"""
import asyncio
import concurrent.futures
import datetime
import fcntl
import os
import threading
from collections.abc import Callable
from pathlib import Path
from typing import Any

from office_common.files import sync as sync_folder

from office_gate import chain
from office_gate.chain import Head
from office_gate.contents import Contents
from office_gate.errors import Answered, Refused, say

Waiting = tuple[bytes, Head, bool, asyncio.Future[None]]
"""a line and its head, whether it has to be on the disk, and who waits for that"""


def now() -> str:
    return datetime.datetime.now(datetime.UTC).isoformat(timespec="microseconds")


class Journal:
    """A file that only grows. `open` first; then `append` from one event loop."""

    def __init__(self, path: Path, contents: Contents) -> None:
        self.path, self.contents = path, contents
        self.head = chain.START
        self.written = chain.START
        # what goes before what is written next: the LF of a line that lacks it
        self.lead = b""
        # bytes that are no line, of which the next one tells
        self.rest: bytes | None = None
        # the file before this one, which the first line of this one names
        self.before: dict[str, object] | None = None
        # up to which line a head was printed
        self.printed = 0
        self.is_well = True
        # whether the end of the file is known, which the next line follows
        self.is_found = False
        self.file = -1
        self.waiting: list[Waiting] = []
        self.worker: asyncio.Task[None] | None = None
        # set while lines wait until the journal goes on in another file
        self.turning: asyncio.Event | None = None
        self.thread = concurrent.futures.ThreadPoolExecutor(1, "journal")
        # held by whoever uses the file
        self.using = threading.Lock()

    # ---- the file

    def open(self) -> None:
        """Opens the file, and finds the line that the next one follows, in an older file if this one is new."""
        self.file = os.open(self.path, os.O_RDWR | os.O_CREAT | os.O_APPEND | os.O_CLOEXEC, 0o640)
        try:
            fcntl.flock(self.file, fcntl.LOCK_EX | fcntl.LOCK_NB)
        except BlockingIOError:
            raise Refused(3, f"another process writes {self.path}") from None
        # whoever made the file: its lines are on the disk only with its name
        sync_folder(self.path.parent)
        self.follow()

    def follow(self) -> None:
        """Finds the last line, in an older file if this one has none, and what stops left after it."""
        self.is_found = False
        here = os.fstat(self.file)
        files = chain.files_of(self.path)
        goes_on = next((it for it in files if os.path.samestat(it.stat(), here)), self.path)
        head, self.rest = chain.end_of(files, goes_on)
        # older files may have been put away since
        self.head = self.written = max(head, self.written, key=lambda it: it.line)
        is_cut = here.st_size and os.pread(self.file, 1, here.st_size - 1) != b"\n"
        self.lead = b"\n" if is_cut else b""
        self.before = self.file_before(goes_on)
        self.is_found = True

    def file_before(self, path: Path) -> dict[str, object] | None:
        """Names the newest of the other files that have lines, and its size, if this one has no line yet."""
        if path.exists() and chain.first_number(path) != chain.NO_LINE:
            return None
        others = [it for it in chain.files_of(self.path) if it != path]
        return {"file": others[-1].name, "bytes": others[-1].stat().st_size} if others else None

    async def turn(self) -> None:
        """Goes on in the file that now has the name, and prints the head. Lines that come meanwhile wait for that."""
        while self.turning:
            await self.turning.wait()
        self.turning = turning = asyncio.Event()
        try:
            while self.worker:
                await asyncio.wait([self.worker])
            await self.in_thread(self.reopen)
        finally:
            self.turning = None
            turning.set()
        if self.before:
            say(f"{self.path} follows {self.before['file']} of {self.before['bytes']} bytes")
        await self.print_head(is_asked=True)

    def reopen(self) -> None:
        """Goes on in the file that now has the name, as after a rotation."""
        new = os.open(self.path, os.O_RDWR | os.O_CREAT | os.O_APPEND | os.O_CLOEXEC, 0o640)
        if os.path.sameopenfile(new, self.file):
            os.close(new)
            return
        try:
            fcntl.flock(new, fcntl.LOCK_EX | fcntl.LOCK_NB)
            if self.rest is None:
                # what is no line needs no LF at its end: the next line tells of it in the new file too
                self.write(b"", True)
            sync_folder(self.path.parent)
        except OSError:
            os.close(new)
            raise
        self.lead = b""
        os.close(self.file)
        self.file = new
        self.before = self.file_before(self.path)

    def close(self) -> None:
        self.thread.shutdown()
        os.close(self.file)

    # ---- lines

    async def append(self, entry: dict[str, object], is_durable: bool = True) -> Head:
        """Writes a line. It is on the disk when this returns, or at least with the system if it need not be durable.

        Answered 503 `journal` says that the disk did not take it: then nothing may be done.
        """
        while self.turning:
            await self.turning.wait()
        entry = {"at": now(), **entry}
        if not self.is_found:
            self.find()
        if self.rest is not None:
            entry["torn"] = chain.torn(self.rest)
        if self.before is not None:
            entry["after"] = self.before
        data, head = chain.linked(entry, self.head)
        self.rest, self.head = None, head
        self.before = None
        if not is_durable and self.worker is None and self.using.acquire(blocking=False):
            # nothing waits for the disk, and the system takes a line at once: this needs no thread
            self.put(data, head)
            return head
        done: asyncio.Future[None] = asyncio.get_running_loop().create_future()
        self.waiting.append((data, head, is_durable, done))
        if self.worker is None:
            self.worker = asyncio.create_task(self.work())
        await done
        return head

    def find(self) -> None:
        """Looks for the end of the file, without which no line can follow."""
        try:
            self.alone(self.follow)
        except OSError as error:
            say(f"{self.path} is not read: {error}")
            raise Answered(503, "journal") from error

    def put(self, data: bytes, head: Head) -> None:
        """Gives a line to the system, for whoever has the file."""
        try:
            self.write(data, False)
        except OSError as error:
            self.fail([], error)
            raise Answered(503, "journal") from error
        finally:
            self.using.release()
        self.took(head)

    def alone(self, what: Callable[..., Any], *words: object) -> Any:
        """Does something while nobody else uses the file."""
        with self.using:
            return what(*words)

    def took(self, head: Head) -> None:
        """Notes up to which line all is written."""
        self.is_well = True
        self.written = head

    async def print_head(self, is_asked: bool = False) -> None:
        """Prints the last line for the journal of systemd, if it is a new one or somebody asked. It is on the disk then."""
        head = self.written
        if head.line > self.printed or is_asked:
            await self.in_thread(self.sync)
            self.printed = head.line
            say(f"head {head}")

    def sync(self) -> None:
        os.fdatasync(self.file)

    async def work(self) -> None:
        """Writes what waits, all of it at once, until nothing does."""
        while self.waiting:
            batch, self.waiting = self.waiting, []
            data, is_durable = b"".join(it[0] for it in batch), any(it[2] for it in batch)
            try:
                await asyncio.get_running_loop().run_in_executor(self.thread, self.alone, self.write, data,
                                                                 is_durable)
            except Exception as error:
                self.alone(self.fail, batch, error)
                continue
            self.took(batch[-1][1])
            for _, _, _, done in batch:
                if not done.done():
                    done.set_result(None)
        self.worker = None

    def write(self, data: bytes, is_durable: bool) -> None:
        view = memoryview(self.lead + data)
        while view:
            view, self.lead = view[os.write(self.file, view):], b""
        if is_durable:
            os.fdatasync(self.file)

    def fail(self, batch: list[Waiting], error: Exception) -> None:
        """Gives up lines that the disk did not take, and those that were to follow them."""
        say(f"{self.path} is not written: {error}")
        self.is_well = False
        for _, _, _, done in [*batch, *self.waiting]:
            if not done.done():
                done.set_exception(Answered(503, "journal"))
        self.waiting = []
        # What of it is in the file stays: whole lines count, since they are linked; of the others the next line tells.
        try:
            self.follow()
        except OSError as broken:
            say(f"{self.path} is not read: {broken}")

    async def in_thread(self, what: Callable[..., Any], *words: object) -> Any:
        """Does something between two writings."""
        try:
            return await asyncio.get_running_loop().run_in_executor(self.thread, self.alone, what, *words)
        except OSError as error:
            say(f"{self.path.parent}: {error.strerror}")
            raise Answered(503, "journal") from error
