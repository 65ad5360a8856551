"""Forged field lines: none does an act that it should not, and each gets the answer that the oracle expects."""
from __future__ import annotations

import collections
import os
import pathlib
import random

from command_trial import forging, stating
from command_trial.served import Answer, Gated, answer_in
from kit.judging import judge, same

COUNT, SEED = int(os.environ.get("COUNT", "1500")), int(os.environ.get("SEED", "1"))
BATCH, OF_ONE = 250, 5000
"""requests after which the acts that are done are compared, and those of one office, which takes 1,000 schedules"""
DONE = "SELECT code FROM schedules UNION SELECT code FROM schedules2"
OTHERS = ("classes", "aggregations", "records", "holds", "runs", "certificates", "events")
LEAST = 20
"""each kind of answer comes so often, or the generator does not reach what it should"""


def forged(folder: pathlib.Path) -> None:
    dice = random.Random(SEED)
    kinds: collections.Counter[str] = collections.Counter()
    for begin in range(0, COUNT, OF_ONE):
        with Gated(folder / f"office{begin}", stating.SETTINGS) as gated:
            kinds.update(kinds_at(gated, range(begin, min(begin + OF_ONE, COUNT)), dice))
    print(f"seed {SEED}, {COUNT} requests: {dict(kinds.most_common())}")
    judge("each kind of answer comes", COUNT < 1000 or all(kinds[it] >= LEAST for it in (
        "400 head", "403 token", "403 name", "403 right", "403 future", "200")), dict(kinds))


def kinds_at(gated: Gated, numbers: range, dice: random.Random) -> list[str]:
    """Sends requests to an office, judges their answers and what they did, and returns the kinds of the answers."""
    expected, kinds = set[str](), list[str]()
    for number in numbers:
        it = forging.forge(number, dice)
        wanted, answer = stating.answer_to(it), answer_in(gated.raw(it.data()))
        same(f"request {number}: {it.data()!r}", answer, wanted)
        kinds.append(kind_of(wanted))
        if wanted.status == 200 and it.path == b"/acts":
            expected.add(it.code)
        if (number + 1) % BATCH == 0 or number + 1 == numbers.stop:
            same(f"the acts that are done, after {number + 1} requests", set(gated.column(DONE)), expected)
    same("nothing else is in FILE", [gated.column(f"SELECT count(*) FROM {it}")[0] for it in OTHERS], [0] * len(OTHERS))
    same("nothing is printed", gated.errors(), "")
    return kinds


def kind_of(answer: Answer) -> str:
    """Names the kind of an answer."""
    return f"{answer.status} {answer.body['error']}" if isinstance(answer.body, dict) and "error" in answer.body \
        else str(answer.status)
