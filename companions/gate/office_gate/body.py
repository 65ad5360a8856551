"""The one reading of a request's body: what is read here is written anew, and the office gets nothing else.

So no spelling means one thing to the gate and another to the office: escapes, white space and members that are twice
there are gone, or refused, before anybody decides.
"""
import json
import re
from collections.abc import AsyncIterator
from dataclasses import dataclass
from typing import Any, NoReturn, TypeGuard

from office_gate.errors import Answered
from office_gate.pace import Pace, each

MOST_BYTES = 1_048_576
MOST_VALUES = 150_000
"""the values of one list: more take too long to read, and the shortest acts that fit into `MOST_BYTES` have fewer"""
MOST_OF_ACT = 5_000
"""the values of one act, whose longest texts have fewer commas"""
Json = dict[str, Any]
"""an object of JSON, as an act, or a line of the journal"""
WHITE = re.compile(r"[ \t\n\r]*")
HIDING = re.compile("[\x7f-\x9f\u061c\u200e\u200f\u2028-\u202e\u2066-\u2069\ud800-\udfff]")
"""controls, marks of direction, separators of lines and lone surrogates, which change how a terminal shows a line"""


@dataclass(slots=True, unsafe_hash=True)
class Number:
    """A number as it was written, if Python would write it otherwise. Whether it is a good one the office decides."""

    text: str


def number(text: str) -> int | Number:
    """Reads a whole number. Of one that is too long to be any the text is kept, and of -0, which has a sign."""
    return int(text) if len(text) < 16 and text != "-0" else Number(text)


def no_constant(_: str) -> NoReturn:
    raise ValueError("no number of JSON")


def members(pairs: list[tuple[str, object]]) -> dict[str, object]:
    """Makes an object of its members, each of which is there once."""
    values = dict(pairs)
    if len(values) < len(pairs):
        raise Answered(400, "double")
    return values


DECODER = json.JSONDecoder(parse_int=number, parse_float=Number, parse_constant=no_constant, object_pairs_hook=members)
ENCODER = json.JSONEncoder(ensure_ascii=False, separators=(",", ":"))


def value_of(text: str) -> object:
    """Reads JSON. ValueError and RecursionError say that it is none, or too deep."""
    if text.startswith("\ufeff"):
        raise ValueError("a byte order mark")
    return DECODER.decode(text)


def text_of(value: object) -> str:
    """Writes what was read, without white space."""
    try:
        return ENCODER.encode(value)
    except TypeError:
        return text_with_numbers(value)


def text_with_numbers(value: object) -> str:
    """Returns the same of what has numbers that only their text writes as they were."""
    if isinstance(value, Number):
        return value.text
    if isinstance(value, dict):
        return "{" + ",".join(f"{json.dumps(name, ensure_ascii=False)}:{text_with_numbers(it)}"
                              for name, it in value.items()) + "}"
    if isinstance(value, list):
        return "[" + ",".join(map(text_with_numbers, value)) + "]"
    return json.dumps(value, ensure_ascii=False)


def line_of(value: object) -> str:
    """Writes a line of the journal: what could change how a terminal shows it is escaped."""
    return HIDING.sub(lambda hiding: f"\\u{ord(hiding[0]):04x}", text_of(value))


# ---- a list of acts

def most_values(text: str, begin: int, end: int) -> int:
    """Returns how many values a text of JSON has at most, by the marks that come before each of them."""
    return sum(text.count(mark, begin, end) for mark in ",[{")


def white(text: str, at: int) -> int:
    """Returns the first place from there on that is no white space."""
    space = WHITE.match(text, at)
    return space.end() if space else at


class Counting:
    """A reader of acts, which refuses one with more values than acts have. Each number and object costs it a call."""

    def __init__(self) -> None:
        self.left = MOST_OF_ACT
        self.decoder = json.JSONDecoder(parse_int=self.number, parse_float=self.real, parse_constant=no_constant,
                                        object_pairs_hook=self.members)

    def count(self, values: int) -> None:
        """Counts values of the act that is being read."""
        self.left -= values
        if self.left < 0:
            raise Answered(413, "work", values=MOST_OF_ACT)

    def number(self, text: str) -> int | Number:
        self.count(1)
        return number(text)

    def real(self, text: str) -> Number:
        self.count(1)
        return Number(text)

    def members(self, pairs: list[tuple[str, object]]) -> dict[str, object]:
        self.count(1)
        return members(pairs)

    def act(self, text: str, begin: int) -> tuple[object, int]:
        """Returns the value that begins there, and the place after it."""
        self.left = MOST_OF_ACT
        value, end = self.decoder.raw_decode(text, begin)
        self.left = MOST_OF_ACT
        self.count(most_values(text, begin, end))
        return value, end


async def values_of(text: str) -> AsyncIterator[object]:
    """Gives the values of a list, and yields to other requests between two of them. ValueError: it is no list."""
    if most_values(text, 0, len(text)) > MOST_VALUES:
        raise Answered(413, "work", values=MOST_VALUES)
    pace, counting, at = Pace(), Counting(), white(text, 0)
    mark = text[at:at + 1]
    if mark != "[":
        raise ValueError("no list")
    at = white(text, at + 1)
    if text[at:at + 1] == "]":
        mark, at = "]", at + 1
    while mark != "]":
        value, at = counting.act(text, at)
        # what cannot be written anew, such as half of a surrogate pair, is no text either
        text_of(value).encode()
        yield value
        await pace.rest()
        at = white(text, at)
        mark = text[at:at + 1]
        if mark not in (",", "]"):
            raise ValueError("no list")
        at = white(text, at + 1) if mark == "," else at + 1
    if white(text, at) != len(text):
        raise ValueError("more than a list")


async def list_of(body: bytes) -> list[object]:
    """Reads a list. A body that is none is refused here."""
    try:
        return [value async for value in values_of(body.decode())]
    except (ValueError, RecursionError) as error:
        raise Answered(400, "json") from error


def is_act(value: object) -> TypeGuard[Json]:
    return isinstance(value, dict) and type(value.get("act")) is str


def acts_of(values: list[object]) -> list[Json]:
    """Returns the acts of a list. Each place has to be an object with a kind."""
    acts: list[Json] = []
    for place, value in enumerate(values):
        if not is_act(value):
            raise Answered(400, "act", place=place, refused=2)
        acts.append(value)
    return acts


async def bytes_of(acts: list[Json]) -> bytes:
    """Writes a list as the office gets it."""
    data = f"[{','.join([text_of(act) async for _, act in each(acts)])}]".encode()
    if len(data) > MOST_BYTES:
        raise Answered(413, "size")
    return data


def number_in(act: Json, name: str) -> int | None:
    """Returns the number of a thing that a member names, or None if it names none."""
    value = act.get(name)
    return value if type(value) is int and 0 <= value < 10**10 else None
