"""The log in etcd: one sequence of entries that all members read in the same order.

Below /office/LOG/ etcd has

    epoch               which log this is: a random text, written once by `found`
    tail                the position of the last entry, 0 at first
    first               the first position that is still there
    log/POSITION        an entry: a line of JSON with its head, then the body of the request
    keys/KEY            the position of the entry with this key, and what it asked for
    members/NAME        the older snapshot of each member
    machines/NAME       the machine and folder that have this name
    blocked/NAME        the entry that a member cannot do, and has promised not to do
    refused/POSITION    the entry by which this one was refused: nobody does it
    chain/POSITION/NAME a hash over all answers of a member up to there
    waits/NAME          a member that came too late for the end that it knew, and how many seconds it needs to append

What is dropped is compacted too, so that etcd gives no earlier revision of it either.
"""
from __future__ import annotations

import base64
import hashlib
import pathlib
import socket
import threading
from typing import NamedTuple, Sequence

from replica.arrived import Arrived
from replica.entries import Entry, entry_at
from replica.errors import Halt, NotTaken, Unclear, say
from replica.etcd import Etcd, Part, Row, absent, drop, get, has, put
from replica.settings import Settings

READ_AT_ONCE, DROPPED_AT_ONCE = 32, 1000
MACHINE_ID = pathlib.Path("/etc/machine-id")


class Request(NamedTuple):
    """What goes into the log: the key, the entry's value, and a digest of what is asked for."""

    key: str
    value: bytes
    digest: str


class Appended(NamedTuple):
    """What became of a request: its position, or the error that its client gets; and whether an earlier one put it there."""

    position: int | None
    error: str | None = None
    is_repeated: bool = False


class End(NamedTuple):
    """Where a log ends: surely, or as far as this machine knows."""

    is_sure: bool
    epoch: str
    tail: int


def machine_of(folder: pathlib.Path) -> str:
    """Returns the machine and the folder of a member, as no other member has them. The machine's id is not told."""
    own = MACHINE_ID.read_text("ascii") if MACHINE_ID.exists() else socket.gethostname()
    digest = hashlib.sha256(b"office-member " + own.encode()).hexdigest()
    return f"{digest[:16]} {folder.resolve()}"


class Log:
    """The log of one office, as one member uses it."""

    def __init__(self, settings: Settings, etcd: Etcd, program: str) -> None:
        self.etcd, self.member, self.program = etcd, settings.name, program
        self.name = settings.log
        self.top = f"/office/{settings.log}/"
        self.quota = settings.etcd_quota
        self.last, self.is_full = 0, False
        """where the log ends, as far as this member knows"""
        self.awaited: dict[str, float] = {}
        """members that have waited for their turn since this one appended last, and how many seconds each needs"""
        self.refused: set[int] = set()
        """positions of entries that are known to be refused"""
        self.machine = machine_of(settings.folder)
        self.compacted: int | None = None
        """up to where the log was dropped as etcd was compacted last, by this process"""

    def entry_key(self, position: int) -> str:
        return f"{self.top}log/{position:016d}"

    def chain_key(self, position: int) -> str:
        return f"{self.top}chain/{position:016d}"

    def refused_key(self, position: int) -> str:
        return f"{self.top}refused/{position:016d}"

    # ---- what a request needs

    def try_append(self, requests: Sequence[Request], wants: float) -> tuple[int | None, dict[str, tuple[int, str]]]:
        """One transaction: the requests have the next positions, and this gives the first of them.

        Otherwise none of them is there now by this call. If the log ends where this member thought, it gives the
        positions and digests of those whose keys are in it; else it knows the end now, and the others know that it
        `wants` so many seconds for its turn. One thread of a member appends at a time, and no key is there twice.
        """
        before, tail, waits = self.last, self.top + "tail", self.top + "waits/"
        keys = [self.top + "keys/" + it.key for it in requests]
        last = before + len(requests)
        puts = [get(waits, self.top + "waits0"), drop(waits, self.top + "waits0"), put(tail, str(last))]
        for position, (request, key) in enumerate(zip(requests, keys), before + 1):
            puts += [put(self.entry_key(position), request.value), put(key, f"{position} {request.digest}")]
        late = [put(waits + self.member, str(wants))] if wants else []
        done, rows = self.etcd.transact([has(tail, str(before)), *map(absent, keys)], puts, [get(tail), *late])
        if done:
            self.last = max(self.last, last)
            self.awaited = {key[len(waits):]: float(told) for key, told in rows[0] if key != waits + self.member}
            return before + 1, {}
        if not rows[0]:
            raise NotTaken(f"there is no log {self.top} in etcd")
        self.last = int(rows[0][0][1])
        return None, self.found_keys(requests) if self.last == before else {}

    def found_keys(self, requests: Sequence[Request]) -> dict[str, tuple[int, str]]:
        """Returns the positions and digests of the requests whose keys are in the log. NotTaken: no majority tells."""
        try:
            _, rows = self.etcd.transact([], [get(self.top + "keys/" + it.key) for it in requests])
        except Unclear as error:
            raise NotTaken(str(error)) from error
        found = {}
        for it, row in zip(requests, rows):
            if row:
                position_text, digest = row[0][1].decode().split()
                found[it.key] = int(position_text), digest
        return found

    def tail(self) -> int:
        """Returns the last position at this moment, through the quorum."""
        _, rows = self.etcd.transact([], [get(self.top + "tail")])
        if not rows[0]:
            raise NotTaken(f"there is no log {self.top} in etcd")
        return int(rows[0][0][1])

    # ---- what following the log needs

    def end(self) -> End:
        """Where the log ends; without a quorum, where it ends on this machine."""
        keys = [self.top + "epoch", self.top + "tail"]
        try:
            _, rows = self.etcd.transact([], [get(key) for key in keys])
            is_sure = True
        except (NotTaken, Unclear):
            _, rows = self.etcd.transact([], [get(key, local=True) for key in keys], local=True)
            is_sure = False
        if rows[0] and rows[1]:
            return End(is_sure, rows[0][0][1].decode(), int(rows[1][0][1]))
        if is_sure:
            raise Halt(f"there is no log {self.top} in etcd")
        raise Unclear("this machine's etcd has no log yet")

    def after(self, position: int) -> tuple[list[Entry], int]:
        """Returns the next entries that this machine's etcd has, and where the log ends there."""
        _, (rows, tail, refused) = self.etcd.transact(
            [], [get(self.entry_key(position + 1), self.top + "log0", True, READ_AT_ONCE),
                 get(self.top + "tail", local=True),
                 get(self.refused_key(position + 1), self.top + "refused0", True)], local=True)
        self.refused.update(int(key[-16:]) for key, _ in refused)
        return [entry_at(*row) for row in rows], int(tail[0][1]) if tail else 0

    # ---- entries that no member can do

    def report_blocked(self, position: int) -> None:
        """Reports that this member cannot do an entry, and does not do it before it has taken that back."""
        self.reported([put(self.top + "blocked/" + self.member, str(position))])

    def withdraw(self, position: int) -> bool:
        """Takes that report back, so that the entry may be tried. False where it was refused meanwhile."""
        is_free, _ = self.etcd.transact([absent(self.refused_key(position))],
                                        [drop(self.top + "blocked/" + self.member)])
        if not is_free:
            self.refused.add(position)
        return is_free

    def look_for_refusal(self, position: int) -> bool:
        """Returns whether this machine's etcd knows that an entry was refused."""
        _, rows = self.etcd.transact([], [get(self.refused_key(position), local=True)], local=True)
        if rows[0]:
            self.refused.add(position)
        return bool(rows[0])

    def watch(self, arrived: Arrived, changed: threading.Event) -> None:
        """Tells of new entries as this machine's etcd has them, and of those that are refused. Never returns."""
        def notify(rows: list[tuple[str, str]]) -> None:
            entries = []
            for key, value in rows:
                kind = key[len(self.top):-16]
                if kind == "refused/":
                    self.refused.add(int(key[-16:]))
                elif kind == "log/":
                    self.last = max(self.last, int(key[-16:]))
                    if arrived.is_new(int(key[-16:])):
                        entries.append(entry_at(key, base64.b64decode(value)))
            arrived.add(entries)
            for entry in entries:
                self.awaited.pop(entry.member, None)
            if not rows:
                arrived.has_missed = True
            if entries or not rows:
                changed.set()

        self.etcd.watch(self.top + "log/", self.top + "refused0", notify)

    def look_for_room(self) -> None:
        """Takes no entry while three quarters of etcd are in use.

        So there is always room to report snapshots, by which the log is dropped. etcd counts anew
        only when it writes: where no entry is taken, a key is written first.
        """
        was = self.is_full
        if was:
            self.etcd.transact([], [put(self.top + "room", self.member)])
        self.is_full = self.etcd.size_in_use() > self.quota * 3 // 4
        if was != self.is_full:
            say("etcd is nearly full: no entry is taken" if self.is_full else "etcd has room again")

    # ---- what members report to each other

    def found(self, epoch: str) -> bool:
        """Begins the log, unless there is one of this name."""
        top = self.top
        done, _ = self.etcd.transact(
            [absent(top + "epoch")],
            [put(top + "epoch", epoch), put(top + "tail", "0"), put(top + "first", "1")])
        return done

    def claim(self) -> None:
        """Takes the own name. Halt where another machine has it, and was not struck off."""
        machine, member = self.top + "machines/" + self.member, self.top + "members/" + self.member
        is_mine, rows = self.etcd.transact([has(machine, self.machine)], [], [get(machine), get(member)])
        if is_mine:
            return
        holder = rows[0][0][1].decode() if rows[0] else None
        if holder is not None and rows[1]:
            raise Halt(f"another member has the name {self.member}: {holder}; this one is {self.machine}")
        conditions = [absent(machine)] if holder is None else [has(machine, holder), absent(member)]
        if not self.etcd.transact(conditions, [put(machine, self.machine)])[0]:
            raise NotTaken(f"somebody takes the name {self.member} just now")

    def reported(self, operations: Sequence[Part]) -> list[list[Row]]:
        """What these operations read, done under the own name."""
        is_mine, rows = self.etcd.transact(
            [has(self.top + "machines/" + self.member, self.machine)], operations)
        if not is_mine:
            self.claim()
            raise NotTaken(f"the name {self.member} was not this member's any more")
        return rows

    def report_snapshot(self, position: int) -> tuple[int, bool]:
        """Reports the own older snapshot, and drops what every member has in its older one, some entries at a time, so
        that no act waits long for it.

        Gives the position up to which the log is dropped, and whether that is all.
        """
        top = self.top
        rows = self.reported([put(top + "members/" + self.member, str(position)),
                              get(top + "members/", top + "members0"), get(top + "first")])
        least, first = min(int(value) for _, value in rows[1]), int(rows[2][0][1])
        until = min(least, first + DROPPED_AT_ONCE - 1)
        if until >= first:
            self.etcd.transact(
                [has(top + "first", str(first))],
                [put(top + "first", str(until + 1)),
                 drop(self.entry_key(0), self.entry_key(until + 1)),
                 drop(top + "chain/", self.chain_key(until)),
                 drop(top + "refused/", self.refused_key(until + 1))])
        if until < least:
            return until, False
        self.compact(least)
        return least, True

    def compact(self, least: int) -> None:
        """Lets etcd forget what was dropped, by whomever: that member may have had no answer, or may have ended."""
        if self.compacted != least:
            revision, _ = self.etcd.read([get(self.top + "first")])
            self.etcd.compact(revision)
            self.compacted = least

    def drop_keys(self, keys: Sequence[str]) -> None:
        """From now on a request with one of these keys is a new request."""
        self.etcd.transact([], [drop(self.top + "keys/" + key) for key in keys])

    def report_chain(self, position: int, chain: str) -> tuple[list[str], int]:
        """Reports the hash over the own answers; gives those of all members there, and how many
        members there are."""
        here = self.chain_key(position)
        rows = self.reported([put(f"{here}/{self.member}", chain), get(here + "/", here + "0"),
                              get(self.top + "members/", self.top + "members0")])
        return [value.decode() for _, value in rows[1]], len(rows[2])
