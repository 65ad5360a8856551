"""Doing entries: the office gets them, joined where they can be, and each has its answer.

Fault: an answer is not the one that each office at this state gives, so FILE may have half of an entry.
"""
from __future__ import annotations

from typing import Callable, Iterator

from replica.entries import Entry
from replica.errors import Fault, Halt
from replica.joining import join
from replica.office import Office, follows_from_log, status_of

KINDS = {"acts": "/acts", "resume": "/run/resume"}
REFUSE, REFUSED = "refuse", "refused"
"""an entry by which another one was refused, and what that one is taken for then"""
HEAD = "HTTP/1.1 %s\r\nContent-Type: application/json\r\nContent-Length: %d\r\nConnection: close\r\n\r\n%s"


def own_answer(status: str, body: str) -> bytes:
    return (HEAD % (status, len(body), body)).encode()


NOT_DONE = own_answer("422 Unprocessable Content", '{"error":"refused"}')
"""to an entry that was refused"""


class Doing:
    """How entries reach one office; for one thread, which has the office's lock."""

    def __init__(self, office: Office, program: str, answered: Callable[[int], bytes | None]) -> None:
        """`answered` gives what an earlier entry was answered here, if that is remembered."""
        self.office, self.program, self.answered = office, program, answered
        self.alone = 0
        """entries up to here go alone, since a joined list failed"""
        self.joined_entries = 0

    def look_at(self, group: list[Entry]) -> None:
        """Halt where this member does not know what an entry asks for, or not by which program."""
        for entry in group:
            if entry.program != self.program:
                raise Halt(f"entry {entry.position} is for another program: {entry.program}")
            if entry.kind not in (*KINDS, REFUSE, REFUSED):
                raise Halt(f"entry {entry.position} is of an unknown kind: {entry.kind}")

    def answers(self, group: list[Entry]) -> Iterator[tuple[list[Entry], list[bytes]]]:
        """Some entries at a time, in their order, with the answers to them, once they are done."""
        joined = self.joined(group)
        if joined is not None:
            yield group, joined
            return
        for entry in group:
            yield [entry], [self.answer(entry)]

    def answer(self, entry: Entry) -> bytes:
        """Returns the answer to one entry, by the office, or by the log alone where it refuses something."""
        if entry.kind == REFUSED:
            return NOT_DONE
        if entry.kind == REFUSE:
            if self.answered(int(entry.body)) not in (None, NOT_DONE):
                raise Halt(f"entry {int(entry.body)} was refused, and was done here")
            return own_answer("200 OK", f'{{"refused":{int(entry.body)}}}')
        answer = self.asked(KINDS[entry.kind], entry.body if entry.kind == "acts" else None)
        if not follows_from_log(answer):
            raise Fault(f"entry {entry.position}: {answer[-100:]!r}")
        return answer

    def was_alone(self, group: list[Entry]) -> bool:
        """Returns whether a failure was that of one entry. Otherwise these entries go alone from now on."""
        if len(group) == 1 or group[0].position <= self.alone:
            return True
        self.alone = group[-1].position
        return False

    def joined(self, group: list[Entry]) -> list[bytes] | None:
        """Returns the answer to each entry of a group that goes as one list; None where the entries have to go alone.

        Of a list that the office cannot read it has done nothing (400).
        """
        joined = None if group[0].position <= self.alone else join(group)
        if joined is None:
            return None
        answer = self.asked("/acts", joined.body)
        if status_of(answer) == 400 and follows_from_log(answer):
            return None
        answers = joined.cut(answer)
        if answers is None or not all(map(follows_from_log, answers)):
            raise Fault(f"entries {group[0].position} to {group[-1].position} together: {answer[-100:]!r}")
        self.joined_entries += len(group)
        return answers

    def asked(self, path: str, body: bytes | None) -> bytes:
        """What the office answers. An office that ended before is started first."""
        try:
            return self.office.ask("POST", path, body)
        except ConnectionRefusedError:
            # nothing was sent, and FILE has all entries to the position
            self.office.start()
            return self.office.ask("POST", path, body)
