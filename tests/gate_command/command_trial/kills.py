"""Kills with requests under way: FILE opens again, and has each act that was answered and none that was denied."""
from __future__ import annotations

import json
import os
import pathlib
import random
import threading
import time

from command_trial.filed import SETTINGS, fill
from command_trial.served import DAY, Act, Answer, Gated, answer_in, request, stated
from kit.judging import judge, same

KILLS, CLIENTS, SEED = int(os.environ.get("KILLS", "4")), 4, 5
LEAST, MOST = 0.3, 1.2
"""seconds until a kill"""
UNSENT = Answer(0, b"")
FIRST = {"A", "B", "D0", "T0"}
"""the aggregations and schedules of the office that each part begins with"""


def aggregation(ref: str) -> Act:
    return {"act": "add-aggregation", "day": DAY, "ref": ref, "title": "t", "class": "BLDG1"}


def schedule(code: str) -> Act:
    return {"act": "add-schedule", "day": DAY, "code": code, "trigger": "added", "unit": "days", "count": 0,
            "offset": "none", "action": "destroy"}


def names(gated: Gated) -> set[str]:
    """Returns the aggregations and schedules that are in FILE."""
    return {*gated.column("SELECT ref FROM aggregations"), *gated.column("SELECT code FROM schedules2")}


class Client(threading.Thread):
    """A client that sends lists until its requests are refused. Each adds two aggregations, or one and a denied schedule.

    An office has room for as many aggregations as the fastest program adds here.
    """

    def __init__(self, gated: Gated, name: str) -> None:
        super().__init__()
        self.gated, self.name = gated, name
        self.done: set[str] = set()
        self.denied: set[str] = set()
        self.unknown: set[str] = set()
        self.wrong: list[Answer] = []
        self.start()

    def run(self) -> None:
        number = 0
        while True:
            number += 1
            codes = [f"{self.name}-{number}{letter}" for letter in "AB"]
            is_whole = number % 3 != 0
            acts = [aggregation(codes[0]), aggregation(codes[1]) if is_whole else schedule(codes[1])]
            try:
                answer = answer_in(self.gated.raw(request("POST", "/acts", json.dumps(acts).encode(), stated("registry"))))
            except OSError:
                # nothing of it was sent
                return
            self.note(codes, is_whole, answer)
            if answer == UNSENT:
                return

    def note(self, codes: list[str], is_whole: bool, answer: Answer) -> None:
        """Notes which acts of a list are done, denied or unknown by its answer."""
        if answer == UNSENT:
            self.unknown.update(codes if is_whole else [])
        elif is_whole and answer.status == 200 and [list(it) for it in answer.body] == [["number"]] * 2:
            self.done.update(codes)
        elif not is_whole and answer.status == 403 and answer.body["answers"] == []:
            # a kind that the name may not do is denied before the first act of the list
            self.denied.update(codes)
        else:
            self.wrong.append(answer)


def kills(folder: pathlib.Path) -> None:
    dice = random.Random(SEED)
    with Gated(folder / "office", SETTINGS) as gated:
        fill(gated)
        done, unknown, denied = set(FIRST), set[str](), set[str]()
        for kill in range(KILLS):
            clients = [Client(gated, f"K{kill}-{at}") for at in range(CLIENTS)]
            time.sleep(dice.uniform(LEAST, MOST))
            gated.served.process.kill()
            gated.served.process.wait()
            for client in clients:
                client.join()
                done |= client.done
                unknown |= client.unknown
                denied |= client.denied
                same(f"kill {kill}: each answer is whole", client.wrong, [])
            gated.end()
            gated.start()
            there = names(gated)
            same(f"kill {kill}: acts that were answered are there", done - there, set())
            same(f"kill {kill}: nothing else is there", there - done - unknown, set())
            judge(f"kill {kill}: the office goes on", gated.get("auditor", "/records/1").status == 200)
        judge("acts were done and denied", len(done) > len(FIRST) + KILLS and len(denied) > KILLS, (len(done), len(denied)), always=True)
        print(f"seed {SEED}: {KILLS} kills, {len(done)} acts done, {len(denied)} denied, {len(unknown)} without an answer")
