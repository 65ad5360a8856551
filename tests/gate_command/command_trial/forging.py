"""Requests with forged field lines, from a seed: each begins as a good one, and is changed once or twice."""
from __future__ import annotations

import json
import random
from collections.abc import Callable, Sequence
from typing import NamedTuple

from command_trial.served import DAY, SECRET

Lines = list[tuple[bytes, bytes]]
"""field lines as they are written, each with what stands before its value and its value"""
LATER, EARLIER = "2026-06-02", "2026-05-31"
NAMES = ("keeper", "keeper", "keeper", "keeper", "reader", "guest", "twin", "filer")
LOOKALIKES = ("Keeper", "KEEPER", "ｋｅｅｐｅｒ", "keepeʳ", "twin text", "TWIN TEXT", "Twin Text", "ﬁler", "ﬁLER", "Guest",
              "кeeper", "keeper.", "kee per", "kee\u00a0per", "keeper\u200b", "g\u00e4st", "ga\u0308st", "x" * 200, "x" * 201,
              "ﷺ" * 6, "ﷺ" * 10, "keeper,keeper", '"keeper"', "*", "null", "keeper\u0085")
BAD_DAYS = ("2026-02-30", "26-11-30", "", "2026-6-1", "2026-06-01T00:00:00Z", "20260601", "0000-01-01", "3000-01-01",
            "2026-13-01", "2026-06-31", "２０２６-06-01", "2026-06-01 ", "x", "-2026-06-01", "2026-06-1", "+2026-06-01")
MARKS = (b"\n", b"\r", b"\0", b"\t", b"\x7f", b"\x01", b"\x0b", b"\xff", b"\xc3", b"\x80")
"""bytes within a value"""


class Forged(NamedTuple):
    """A request: what it asks for, its field lines, and what follows the body."""

    code: str
    method: bytes
    path: bytes
    head: bytes
    body: bytes
    after: bytes

    def data(self) -> bytes:
        return self.head + self.body + self.after


def forged_one(lines: Lines, at: int, dice: random.Random, value: Callable[[bytes], bytes]) -> None:
    """Changes the value of a line."""
    before, old = lines[at]
    lines[at] = (before, value(old))


def drop(lines: Lines, at: int, dice: random.Random) -> None:
    del lines[at]


def double(lines: Lines, at: int, dice: random.Random) -> None:
    """Puts a second line of that name anywhere: with the same value or another one, in this case or another one."""
    before, value = lines[at]
    others = [value, b"", b"keeper", SECRET.encode(), DAY.encode(), value + b"x", value.upper()]
    lines.insert(dice.randrange(len(lines) + 1), (dice.choice([before, before.upper(), before.lower(), before.title()]),
                                                  dice.choice([value, dice.choice(others)])))


def recase(lines: Lines, at: int, dice: random.Random) -> None:
    """Writes the name of a line in another case, which makes no difference."""
    before, value = lines[at]
    lines[at] = (bytes(dice.choice([it, it ^ 32]) if 65 <= it & ~32 <= 90 else it for it in before), value)


def rename(lines: Lines, at: int, dice: random.Random) -> None:
    """Gives a line a name that is another one."""
    before, value = lines[at]
    name = before.partition(b":")[0]
    other = dice.choice([name.replace(b"-", b"_"), name + b"2", name[:-1], b"X-" + name, name.replace(b"O", b"0"),
                         name.replace(b"Office", b"Office "), name + b" ", name + b"\t", b" " + name,
                         "Оffice".encode() + name[6:], b"", name.replace(b"-", b"")])
    lines[at] = (other + b":", value)


def pad(lines: Lines, at: int, dice: random.Random) -> None:
    """Puts spaces and tabs around a value, which makes no difference."""
    def value(old: bytes) -> bytes:
        return dice.choice([b" ", b"\t", b"  \t ", b""]) + old + dice.choice([b" ", b"\t", b" \t  ", b""])
    forged_one(lines, at, dice, value)


def fold(lines: Lines, at: int, dice: random.Random) -> None:
    """Goes on with a value on the next line."""
    def value(old: bytes) -> bytes:
        place = dice.randrange(len(old) + 1)
        return old[:place] + dice.choice([b"\r\n ", b"\n ", b"\r\n\t", b"\n\t"]) + old[place:]
    forged_one(lines, at, dice, value)


def mark(lines: Lines, at: int, dice: random.Random) -> None:
    """Puts a byte into a value, a line feed with something that looks like a line after it."""
    def value(old: bytes) -> bytes:
        place = dice.randrange(len(old) + 1)
        byte = dice.choice(MARKS)
        more = dice.choice([b"", b"Office-Name: keeper", b"X: y\r\n", b"Office-Day: 2026-06-01\r\n"]) if byte == b"\n" else b""
        return old[:place] + byte + more + old[place:]
    forged_one(lines, at, dice, value)


def replace(lines: Lines, at: int, dice: random.Random) -> None:
    """Takes another value: empty, a prefix, one letter more, another case, another text of that line."""
    name = lines[at][0].lower()
    texts: Sequence[str] = (*BAD_DAYS, LATER, EARLIER) if b"day" in name else LOOKALIKES

    def value(old: bytes) -> bytes:
        at = dice.randrange(max(len(old), 1))
        if b"token" not in name and dice.random() < 0.8:
            return dice.choice(texts).encode()
        return dice.choice([b"", old[:-1], old + b"0", old.swapcase(), old[:at] + b"!" + old[at + 1:], old[1:], old + b"\n",
                            b'"' + old + b'"', old[::-1], b"0" * 32, SECRET.encode() * 2])
    forged_one(lines, at, dice, value)


def shift(lines: Lines, at: int, dice: random.Random) -> None:
    """Puts the value of a line into another line."""
    other = dice.randrange(len(lines))
    lines[at], lines[other] = (lines[at][0], lines[other][1]), (lines[other][0], lines[at][1])


CHANGES: tuple[Callable[[Lines, int, random.Random], None], ...] = (drop, double, double, recase, rename, pad, fold, mark,
                                                                    replace, replace, replace, shift)
PATHS = ((b"GET", b"/records/1"), (b"GET", b"/certificates/1"), (b"GET", f"/due/{DAY}".encode()), (b"POST", b"/run/resume"))


def filed(code: str) -> bytes:
    """Writes a list whose one act leaves a row of its own."""
    return json.dumps([{"act": "add-schedule", "day": DAY, "code": code, "trigger": "added", "unit": "days", "count": 0,
                        "offset": "none", "action": "destroy"}]).encode()


def forge(number: int, dice: random.Random) -> Forged:
    """Makes a request: an act of a code of its own, or a reading."""
    code = f"S{number}"
    is_act = dice.random() < 0.8
    method, path = (b"POST", b"/acts") if is_act else dice.choice(PATHS)
    body = filed(code) if is_act else b""
    names = LOOKALIKES if dice.random() < 0.2 else NAMES
    lines: Lines = [(b"Office-Token:", b" " + SECRET.encode()), (b"Office-Name:", b" " + dice.choice(names).encode()),
                    (b"Office-Day:", b" " + dice.choice([DAY, DAY, DAY, LATER, EARLIER]).encode())]
    for _ in range(dice.choice([0, 1, 1, 1, 2, 2, 3])):
        if lines:
            dice.choice(CHANGES)(lines, dice.randrange(len(lines)), dice)
    dice.shuffle(lines)
    for other in ((b"Host:", b" office"), (b"Content-Length:", b" %d" % len(body)), (b"Accept:", b" */*")):
        lines.insert(dice.randrange(len(lines) + 1), other)
    end = dice.choice([b"\r\n", b"\r\n", b"\r\n", b"\n"])
    head = method + b" " + path + b" HTTP/1.1" + end + b"".join(before + value + end for before, value in lines) + end
    after = b""
    if dice.random() < 0.1:
        # a second request in the same connection, which nobody reads
        after = forge_good(f"{code}-second").data()
    return Forged(code, method, path, head, body, after)


def forge_good(code: str) -> Forged:
    """Makes a request whose lines are all good."""
    body = filed(code)
    head = (f"POST /acts HTTP/1.1\r\nHost: office\r\nOffice-Token: {SECRET}\r\nOffice-Name: keeper\r\nOffice-Day: {DAY}\r\n"
            f"Content-Length: {len(body)}\r\n\r\n").encode()
    return Forged(code, b"POST", b"/acts", head, body, b"")
