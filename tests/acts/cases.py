"""A table of lists: every member of every act wrong, missing and strange, lists that read, texts that are no list."""
from __future__ import annotations

import json
from collections.abc import Iterator
from typing import Any

DAY = "2024-01-02"
# an act of each kind that reads
ACTS: list[dict[str, Any]] = [
    {"act": "add-schedule", "day": DAY, "code": "D1", "trigger": "added", "unit": "years", "count": 2, "offset": "none",
     "action": "destroy"},
    {"act": "add-class", "day": DAY, "code": "FIN", "title": "Finance", "schedule": "D1"},
    {"act": "set-class-schedule", "day": DAY, "class": "FIN", "schedule": "D1"},
    {"act": "add-aggregation", "day": DAY, "ref": "2024", "title": "Letters", "parent": 1, "class": "FIN"},
    {"act": "close-aggregation", "day": DAY, "aggregation": 1},
    {"act": "add-record", "day": DAY, "ref": "2024/1", "title": "Letter", "originated": DAY, "aggregation": 1,
     "class": "FIN", "schedule": "D1", "content": "YWJj"},
    {"act": "set-record-schedule", "day": DAY, "record": 1, "schedule": "D1"},
    {"act": "reclassify", "day": DAY, "target": "record:1", "class": "FIN"},
    {"act": "place-hold", "day": DAY, "code": "H-1", "reason": "a lawsuit", "by": "court"},
    {"act": "hold-on", "day": DAY, "hold": "H-1", "target": "class:FIN"},
    {"act": "hold-off", "day": DAY, "hold": "H-1", "target": "aggregation:1"},
    {"act": "lift-hold", "day": DAY, "hold": "H-1"},
    {"act": "confirm", "day": DAY, "record": 1, "action": "destroy", "by": "registrar"},
    {"act": "review", "day": DAY, "record": 1, "schedule": "D1", "by": "registrar"},
    {"act": "receipt", "day": DAY, "record": 1, "digest": "0123456789abcdef" * 4, "by": "archive"},
    {"act": "event", "day": DAY, "record": 1, "occurred": DAY, "by": "lessee"},
    {"act": "open-run", "day": DAY, "by": "registrar"},
    {"act": "run-step"},
]
OF_KIND: dict[str, dict[str, Any]] = {it["act"]: it for it in ACTS}
LONGEST = {"days": 182_500, "weeks": 26_000, "months": 6_000, "years": 500}
NUMBERS = [0, -1, 1.0, 4_294_967_296, "1", True, [1]]
# values of which none is of the member's form; each act with the member takes the next one
WRONG: dict[str, list[Any]] = {
    "act": ["add-records", "Add-Record", "", 1, None, ["run-step"]],
    "day": ["31.12.2020", "2023-02-29", "3000-01-01", "2024-1-2", "0000-01-01", 20240102, None, " 2024-01-02",
            "2024-01-02T00:00"],
    "originated": ["12/31/2020", ""],
    "occurred": ["2023-06-31", "30.6.2023", "3000-01-01", 20230630, None, ["2023-06-30"]],
    "code": ["CCTV_72", "A" * 17, "", 7, "Ä1"],
    "class": ["A" * 17, "FIN 1", {}, ""],
    "schedule": ["D_1", "A" * 17, 1, "", "D1 "],
    "hold": ["H 1", "H" * 17, None],
    "title": ["", "x" * 201, "a\nb", None],
    "ref": ["é" * 101, "a\tb", 2024],
    "reason": ["", "\x7f"],
    "by": ["", "\u0085", 1, None, "x" * 201],
    "aggregation": NUMBERS,
    "parent": ["1", 0, 1.5],
    "record": NUMBERS,
    "trigger": ["create", "Added", "lastaddition", None],
    "unit": ["hours", "year", 1],
    "count": [500.5, -1, "2", None, True, 2.0],
    "offset": ["from-month-13", "from-month-0", "year", 1],
    "action": ["delete", "Destroy", None],
    "digest": ["0123456789ABCDEF" * 4, "ab", "g" * 64, None],
    "target": ["class:FIN_1", "record:01", "record:0", "records:1", "aggregation:4294967296", "FIN", 1],
    "content": ["YWJj\nYWJj", "YWJ", "YWJj=", "YQ", "YR==", "-_-_", "a lease", None, 5, "YWJj" * 87_382],
}
MORE_WRONG: list[Any] = [
    *(OF_KIND["add-schedule"] | {"unit": unit, "count": most + 1} for unit, most in LONGEST.items()),
    OF_KIND["add-schedule"] | {"unit": "hours", "count": "2"},
    OF_KIND["reclassify"] | {"target": "class:FIN"},
    1, "run-step", None, [], {},
]
OFFSETS = ["month", "quarter", *(f"from-month-{n}" for n in range(1, 13))]
GOOD = [
    *ACTS,
    *(OF_KIND["add-schedule"] | {"unit": unit, "count": most} for unit, most in LONGEST.items()),
    *(OF_KIND["add-schedule"] | {"trigger": it} for it in ("origin", "closed", "last-addition", "review", "event")),
    *(OF_KIND["add-schedule"] | {"action": it, "count": 0} for it in ("keep", "review", "transfer")),
    *(OF_KIND["add-schedule"] | {"offset": it} for it in OFFSETS),
    OF_KIND["add-class"] | {"code": "A" * 16, "title": "é" * 100},
    OF_KIND["add-aggregation"] | {"parent": None, "class": None, "ref": "\u00a0"},
    {name: it for name, it in OF_KIND["add-aggregation"].items() if name not in ("parent", "class")},
    OF_KIND["close-aggregation"] | {"aggregation": 4_294_967_295},
    OF_KIND["add-record"] | {"originated": "0001-01-01", "class": None, "schedule": None, "content": ""},
    OF_KIND["add-record"] | {"originated": "2999-12-31", "content": "YWJj" * 87_381 + "YQ=="},
    OF_KIND["hold-on"] | {"target": "record:4294967295"},
    OF_KIND["review"] | {"schedule": None},
    *(OF_KIND["event"] | {"record": 4_294_967_295, "occurred": it} for it in ("0001-01-01", "2999-12-31")),
]
MANY = json.dumps(ACTS).encode()
TEXTS = {
    "a byte order mark": b"\xef\xbb\xbf" + MANY,
    "UTF-16": json.dumps(ACTS).encode("utf-16"),
    "no UTF-8": '["é"]'.encode("latin-1"),
    "nothing": b"",
    "an object": b'{"act":"run-step"}',
    "two values": b"[] []",
    "a comma too many": b'[{"act":"run-step"},]',
    "single quotes": b"[{'act':'run-step'}]",
    "a remark": b"[] // none",
    "a line break in a text": b'[{"act":"run-\nstep"}]',
    "not a number": b"[NaN]",
    "too large a number": b"[1e400]",
    "half a pair": b'["\\ud800"]',
    "127 deep": b"[" * 127 + b"]" * 127,
    "128 deep": b"[" * 128 + b"]" * 128,
    "an empty list": b"[]",
    "spaces around": b"\r\n [ ] \t\n",
    "a whole number of 20 digits": b"[18446744073709551616]",
    "a name twice": b'[{"act":"open-run","by":"A","day":"2024-01-02","by":1}]',
    "escapes": b'[{"act":"run\\u002dstep"}]',
}


def listed(*acts: object) -> bytes:
    return json.dumps(acts, ensure_ascii=False, indent=1).encode()


def lists() -> Iterator[tuple[str, bytes]]:
    """The table: a name, and the bytes of a list."""
    turns = dict.fromkeys(WRONG, 0)
    for kind, act in OF_KIND.items():
        for name in act:
            value = WRONG[name][turns[name] % len(WRONG[name])]
            turns[name] += 1
            yield f"{kind}: {name} is wrong", listed(ACTS[-1], act | {name: value})
            yield f"{kind}: {name} is missing", listed({it: act[it] for it in act if it != name})
            yield f"{kind}: {name} has capitals", listed({it.upper() if it == name else it: act[it] for it in act})
        yield f"{kind}: a strange member", listed(act, act | {"note": "x"})
    for name, values in WRONG.items():
        act = next(it for it in ACTS if name in it)
        yield from ((f"{name} is {str(value)[:30]!r}", listed(act | {name: value})) for value in values)
    yield from ((f"more: {str(it)[:60]}", listed(*ACTS, it)) for it in MORE_WRONG)
    yield from TEXTS.items()
    yield "all that reads", listed(*GOOD)
