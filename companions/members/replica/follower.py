"""Following the log: every entry goes to the own office, in order, once.

Three rules hold at every moment.

1. Nothing that may change the office reaches it but entries of the log, in order, each once.
2. An answer is given only of an entry that is in the log and was done here.
3. Where it is not known for sure which state FILE is at, FILE is thrown away: the last snapshot,
   then the log after it.
"""
from __future__ import annotations

import contextlib
import hashlib
import sqlite3
import subprocess
import threading
import time
from concurrent.futures import Future
from typing import Iterator

from office_common.files import has_content

from replica.appending import Appender
from replica.blocked import Blocked
from replica.comparison import Comparison
from replica.doing import REFUSED, Doing
from replica.entries import NO_ACTS, Entry
from replica.errors import Fault, Halt, NotTaken, Unclear, say
from replica.joining import groups
from replica.log import Log
from replica.memo import Memo
from replica.office import Office, work_file
from replica.reading import LOOK_SECONDS, Reading
from replica.regular import Regular
from replica.settings import Settings
from replica.snapshots import Snapshots
from replica.waits import Waits

IDLE_SECONDS = 1
"""without entries, until the disk is told that FILE is settled"""
ROOM_SECONDS = 5
"""between two looks at how full etcd is"""
SNAPSHOT_BYTES = 256 * 1024**2
"""of entries, after which a snapshot is due however few they are"""
LONGEST_PAUSE = 30
RECOVERED = (Fault, NotTaken, Unclear, OSError, sqlite3.Error, subprocess.CalledProcessError)


class Follower:
    """One member's place in the log. `run` is for one thread; all else for any."""

    def __init__(self, settings: Settings, log: Log, office: Office, snapshots: Snapshots,
                 appender: Appender) -> None:
        self.settings, self.log, self.appender = settings, log, appender
        appender.position, appender.tell = lambda: self.position, self.appended
        self.office, self.snapshots = office, snapshots
        self.memo: Memo | None = None
        self.moved = Waits()
        """woken whenever one of the next three changes"""
        self.is_answering = False
        self.is_before = False
        """it answers readings alone, of the state before an entry that it cannot do"""
        self.position = 0
        self.why = "it has not started yet"
        self.highest = 0
        self.reported: int | None = None
        self.changed, self.stopping = threading.Event(), threading.Event()
        self.wants_snapshot = False
        self.halting: str | None = None
        self.blocked, self.regular = Blocked(settings.folder), Regular(settings.snapshot_seconds, settings.name)
        self.is_claimed = self.is_untold = False
        self.restores = self.done = 0
        self.doing = Doing(office, log.program, lambda it: None if self.memo is None else self.memo.answer_at(it))
        self.pause = 0.2
        self.looked = 0.0
        self.reading = Reading(log, appender.arrived, snapshots.folder)

    # ---- from the start to the end

    def run(self) -> None:
        """Follows the log until it is asked to stop; each fault leads back to a snapshot.

        Ends with Halt where going on may be wrong. No office runs afterwards.
        """
        while not self.stopping.is_set():
            try:
                self.follow()
            except RECOVERED as error:
                say(f"back to a snapshot: {error}")
                self.why = f"back to a snapshot: {error}"
            finally:
                self.close()
            self.stopping.wait(self.pause)
            self.pause = min(LONGEST_PAUSE, 2 * self.pause)

    def ask_to_stop(self) -> None:
        self.stopping.set()
        self.changed.set()

    def ask_for_snapshot(self) -> None:
        self.wants_snapshot = True
        self.changed.set()

    def ask_to_halt(self, why: str) -> None:
        """Nobody is answered from now on, and the member halts as soon as it can."""
        self.halting = why
        self.set_answering(False)
        self.changed.set()

    def appended(self, first: int, before: int) -> None:
        """New entries of this member are in the log from a position on. Of one that was done here before, etcd has an
        older log than this member: then it halts, and nobody is answered of it."""
        if first <= before:
            self.ask_to_halt(f"entry {first} is new in etcd, and another was done here: an older log was put back")
        self.changed.set()

    def close(self) -> None:
        """Nobody is answered any more, and no office runs."""
        with self.office.lock:
            self.set_answering(False)
            self.set_before(False)
            self.office.stop()
        if self.memo is not None:
            self.memo.close()
            self.memo = None

    def open(self) -> Memo:
        """Opens FILE at the position that is known for sure: as it was, or from a snapshot.

        Fault where FILE does not open: the next call takes a snapshot.
        """
        memo = self.settled_memo()
        was_settled = memo is not None
        if memo is None:
            self.restores += 1
            self.snapshots.restore()
            memo = Memo(self.snapshots.work / "memo.db")
        self.memo, self.position, self.reported = memo, memo.position, None
        self.reading.begin()
        self.start_office(memo)
        say(f"opened at {self.position} {'as it was' if was_settled else 'from a snapshot'}")
        return memo

    def start_office(self, memo: Memo) -> None:
        """Opens FILE. What the opening writes is not synced, so FILE is not settled before."""
        memo.settle(False)
        self.office.start()

    def settle(self, memo: Memo) -> None:
        """Afterwards the disk has FILE as it is, and then that it is settled."""
        if not memo.settled:
            self.office.sync()
            memo.settle(True)

    def settled_memo(self) -> Memo | None:
        """Returns the memo of `work` where FILE is surely at its position, and no snapshot is beyond it."""
        try:
            memo = Memo(self.snapshots.work / "memo.db")
        except sqlite3.Error:
            return None
        newest = max(self.snapshots.positions(), default=0)
        is_file = has_content(work_file(self.settings.folder))
        if memo.settled and is_file and memo.position >= newest:
            return memo
        memo.close()
        return None

    # ---- following

    def follow(self) -> None:
        """Does entries as they come. Returns once it is asked to stop, FILE settled."""
        memo = self.open()
        comparison = Comparison(self.log, self.settings.compare_every)
        goal: int | None = None
        last, size, is_due = time.monotonic(), 0, False
        while not self.stopping.is_set():
            self.look_for_halt()
            with self.office.lock:
                if self.office.has_ended():
                    self.start_office(memo)
            if goal is None:
                goal = self.end_of_log(memo)
            entries = self.entries_to_do()
            for group in groups(entries):
                self.do(memo, group, comparison)
                last, size = time.monotonic(), size + sum(len(it.body) for it in group)
                is_due = is_due or size > SNAPSHOT_BYTES or any(self.is_snapshot_at(it.position) for it in group)
                if is_due and self.may_pause(size) or self.stopping.is_set():
                    break
            if self.is_snapshot_now(is_due, size):
                size, is_due = 0, False
                self.snapshots.take(self.position, self.at_rest(memo))
            self.report(memo, comparison)
            self.decide(goal, comparison.is_split)
            if not entries:
                if time.monotonic() - last > IDLE_SECONDS:
                    self.settle(memo)
                self.changed.wait(LOOK_SECONDS)
                self.changed.clear()
        self.settle(memo)

    def look_for_halt(self) -> None:
        """Halt where a client's thread or a snapshot's has found a reason."""
        why = self.halting or self.snapshots.halting
        if why is not None:
            raise Halt(why)

    def end_of_log(self, memo: Memo) -> int | None:
        """Where the log ends now; None where this machine does not know yet.

        Halt where it is not the log that FILE was made by.
        """
        try:
            end = self.log.end()
        except (NotTaken, Unclear):
            return None
        if end.epoch != memo.epoch or end.is_sure and end.tail < self.position:
            raise Halt("the log in etcd is not the one that is followed here")
        return end.tail

    def entries_to_do(self) -> list[Entry]:
        """Returns the next entries, up to one that may not be done now. A refused one is of the kind `refused`."""
        held = self.blocked.held()
        if held == self.position + 1 and self.may_do(held):
            self.blocked.release()
            held = None
        return [it._replace(kind=REFUSED) if it.position in self.log.refused else it
                for it in self.reading.after(self.position) if held is None or it.position < held]

    def may_do(self, position: int) -> bool:
        """Returns whether an entry that failed may be tried, or is refused. A promise is taken back before."""
        try:
            if position in self.log.refused:
                return True
            if self.blocked.is_waiting():
                return self.blocked.is_time_to_look() and self.log.look_for_refusal(position)
            self.log.withdraw(position)
            return True
        except (NotTaken, Unclear):
            return False

    def do(self, memo: Memo, group: list[Entry], comparison: Comparison) -> None:
        """Gives entries to the office, as one list where they can be joined, and remembers their answers.

        Where an answer is not the one that each office gives, nobody is answered any more before
        anybody else can ask the office: FILE may have half of the entry.
        """
        self.doing.look_at(group)
        memo.settle(False)
        with self.office.lock:
            self.set_before(False)
            try:
                for part, answers in self.doing.answers(group):
                    self.remember(memo, part, answers, comparison)
            except BaseException as error:
                self.set_answering(False)
                if self.doing.was_alone(group):
                    self.blocked.failed(memo.position + 1, str(error))
                raise
            self.move()

    def remember(self, memo: Memo, group: list[Entry], answers: list[bytes], comparison: Comparison) -> None:
        """Remembers the answers to entries that were done."""
        chain = memo.chain
        for entry, answer in zip(group, answers):
            chain = hashlib.sha256(chain.encode() + answer).hexdigest()
            comparison.note(entry.position, chain)
        memo.advance([(it.position, it.key, answer) for it, answer in zip(group, answers)], chain)
        self.done += len(group)
        for entry in group:
            self.blocked.done(entry.position)
            self.regular.note(entry)

    def move(self) -> None:
        """Clients may have the answers up to the memo's position now."""
        assert self.memo is not None
        with self.moved.lock:
            self.position = self.memo.position
            self.highest = max(self.highest, self.position)
            self.moved.wake()

    # ---- snapshots and reports

    def is_snapshot_at(self, position: int) -> bool:
        return (position - self.settings.snapshot_at) % self.settings.snapshot_every == 0

    def may_pause(self, size: int) -> bool:
        """Whether a snapshot may begin now. A member that recovers answers first; one that makes a snapshot begins no
        other, nor soon after the last one, unless somebody asks for it or many bytes came since."""
        is_soon = self.regular.is_soon(self.settings.snapshot_pause) and size <= SNAPSHOT_BYTES
        return self.is_answering and not self.snapshots.is_under_way() and (self.wants_snapshot or not is_soon)

    def is_snapshot_now(self, is_due: bool, size: int) -> bool:
        """Returns whether one begins now: by the entries, by SIGHUP or by the time."""
        if not self.may_pause(size):
            return False
        if not is_due and not self.wants_snapshot:
            if not self.regular.is_due(self.log.is_full):
                return False
            if self.position <= max(self.snapshots.positions(), default=0):
                if self.regular.may_ask() and self.appender.is_idle():
                    key = f"snapshot-{self.settings.name}-{self.position}"
                    self.appender.append(key, "acts", NO_ACTS, True).result()
                return False
        self.wants_snapshot = False
        self.regular.taken()
        return True

    @contextlib.contextmanager
    def at_rest(self, memo: Memo) -> Iterator[None]:
        """Within it nobody changes the files of `work`."""
        with self.office.lock, memo.at_rest():
            yield

    def report(self, memo: Memo, comparison: Comparison) -> None:
        """Reports answers and snapshots to the others, as far as etcd takes it now."""
        try:
            if not self.is_claimed:
                self.log.claim()
                self.is_claimed = True
            comparison.look()
            promised = self.blocked.promise()
            if promised is not None or self.is_untold:
                self.is_untold = True
                self.log.report_blocked(self.blocked.promised or 0)
                self.is_untold = False
            oldest = self.snapshots.positions()[-1]
            if oldest != self.reported:
                until, is_all = self.log.report_snapshot(oldest)
                self.forget(memo, until - self.settings.keys_kept)
                if is_all:
                    self.reported = oldest
            if time.monotonic() - self.looked > ROOM_SECONDS:
                self.looked = time.monotonic()
                self.log.look_for_room()
        except (NotTaken, Unclear):
            pass

    def forget(self, memo: Memo, until: int) -> None:
        """Drops keys and answers of old entries, here and in etcd."""
        while old := memo.oldest(until, 100):
            self.log.drop_keys([key for _, key in old])
            memo.forget(old[-1][0])

    # ---- answering

    @property
    def is_reading(self) -> bool:
        """Returns whether readings are answered; acts are only while `is_answering`."""
        return self.is_answering or self.is_before

    def decide(self, goal: int | None, is_split: bool) -> None:
        """A member answers where it has done all that was in the log as it opened FILE, and all
        that it ever answered, and its answers are not in question."""
        is_there = goal is not None and self.position >= max(goal, self.highest)
        is_before = self.blocked.held() == self.position + 1 and self.position >= self.highest
        if is_split:
            self.why = "the members' answers differ"
        elif is_before:
            self.why = self.blocked.why()
        elif not is_there:
            self.why = "it follows the log"
        else:
            self.pause, self.why = 0.2, ""
        self.set_answering(is_there and not is_before and not is_split)
        self.set_before(is_before and not is_split)

    def set_answering(self, is_answering: bool) -> None:
        with self.moved.lock:
            if self.is_answering != is_answering:
                self.is_answering = is_answering
                say(f"{'answers from' if is_answering else 'stops answering at'} {self.position}")
            self.moved.wake()

    def set_before(self, is_before: bool) -> None:
        with self.moved.lock:
            if self.is_before != is_before:
                self.is_before = is_before
                say(f"{'reads the state at' if is_before else 'no longer reads at'} {self.position}")
            self.moved.wake()

    def reached(self, position: int, reading: bool = False) -> Future[bool]:
        """Is told True once this member answers, or at least readings, and has done the entry at a position."""
        return self.moved.until(
            lambda: self.position >= position and (self.is_reading if reading else self.is_answering))

    def newest_answer(self, position: int, key: str) -> bytes | None:
        """What one of the last entries was answered here. It waits for nothing."""
        memo = self.memo
        return None if memo is None else memo.newest_answer(position, key)

    def answer(self, position: int, key: str) -> bytes | None:
        """What the entry was answered here, if that is remembered. It may wait until a copy is made."""
        memo = self.memo
        try:
            return None if memo is None else memo.answer(position, key)
        except sqlite3.Error:
            return None
