"""Joining: the lists of acts of several entries go to the office as one list, and its answer is cut apart again.

How acts are cut into lists changes neither their answers nor what FILE has afterwards (`law_of_one_log`). A list is
joined only if it is surely one: each body is an array by itself, so no two of them make something else together. The
office takes a joined list whole or not at all: of one that it cannot read nothing is done, and each entry goes alone.
"""
from __future__ import annotations

import json
import re
from typing import Iterator, Sequence

from replica.entries import Entry

LONGEST = 262_144
"""bytes of a joined list; an entry that is longer goes alone"""
SPACES = " \t\n\r"
HEAD = re.compile(rb"HTTP/1\.1 (200 OK|409 Conflict)(\r\n(?:[^\r\n]+\r\n)*Content-Length: )(\d+)(\r\n.*)", re.S)
# what is wrong with a text that is no array, in the words of Python's library
WRONG = (ValueError, RecursionError)


def acts_in(body: bytes) -> tuple[bytes, int] | None:
    """What is between the brackets of a list, and how many acts; None if the body is not surely a list."""
    try:
        text = body.decode().strip(SPACES)
        acts = json.loads(text)
    except WRONG:
        return None
    return (text[1:-1].encode(), len(acts)) if isinstance(acts, list) else None


def groups(entries: Sequence[Entry]) -> Iterator[list[Entry]]:
    """Gives the entries in their order, those that may be joined together."""
    group: list[Entry] = []
    size = 0
    for entry in entries:
        is_free = entry.kind == "acts" and len(entry.body) <= LONGEST
        if group and not (is_free and size + len(entry.body) <= LONGEST):
            yield group
            group, size = [], 0
        group, size = [*group, entry], size + len(entry.body)
        if not is_free:
            yield group
            group, size = [], 0
    if group:
        yield group


class Joined:
    """One list of the acts of several entries."""

    def __init__(self, parts: Sequence[tuple[bytes, int]]) -> None:
        self.counts = [count for _, count in parts]
        self.body = b"[" + b",".join(inner for inner, count in parts if count) + b"]"

    def cut(self, answer: bytes) -> list[bytes] | None:
        """Returns the answer to each entry alone, byte for byte; None if this is not the answer to so many acts."""
        head, _, body = answer.partition(b"\r\n\r\n")
        lines = HEAD.fullmatch(head + b"\r\n")
        answers = None if lines is None else answers_in(body)
        if lines is None or answers is None or len(answers) != sum(self.counts):
            return None
        responses, at = [], 0
        for count in self.counts:
            mine, at = answers[at:at + count], at + count
            is_refused = any("refused" in json.loads(it) for it in mine)
            own = b"[" + b",".join(mine) + b"]"
            responses.append(b"HTTP/1.1 %s%s%d%s\r\n%s" % (
                b"409 Conflict" if is_refused else b"200 OK", lines[2], len(own), lines[4], own))
        return responses


def answers_in(body: bytes) -> list[bytes] | None:
    """Returns the bytes of each answer in an array of them."""
    decoder, text, at = json.JSONDecoder(), body.decode("latin-1"), 1
    answers = []
    try:
        while text[at:at + 1] == "{":
            _, end = decoder.raw_decode(text, at)
            answers.append(text[at:end].encode("latin-1"))
            at = end + 1 if text[end:end + 1] == "," else end
    except WRONG:
        return None
    return answers if text[:1] == "[" and text[at:] == "]" and text[at - 1:at] != "," else None


def join(group: Sequence[Entry]) -> Joined | None:
    """Returns the entries of a group as one list, or None if one of them has to go alone."""
    if len(group) < 2:
        return None
    parts = []
    for entry in group:
        acts = acts_in(entry.body)
        if acts is None:
            return None
        parts.append(acts)
    return Joined(parts)
