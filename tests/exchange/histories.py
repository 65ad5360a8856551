"""Random offices: each leaves, comes back row for row, leaves again byte for byte, and goes on like the first."""
from __future__ import annotations

import base64
import datetime
import json
import os
import pathlib
import random
from collections.abc import Callable, Iterator
from typing import Any

from kit.commands import office
from kit.judging import judge, same as equal
from place import back, digest, export, files_in, names_in, rows

HISTORIES = int(os.environ.get("HISTORIES", "2"))
SCHEDULES = (("A1", "added", "years", 1, "none", "destroy"), ("C2", "closed", "months", 6, "month", "destroy"),
             ("L1", "last-addition", "weeks", 9, "none", "destroy"), ("ORIGIN", "origin", "years", 2, "from-month-1", "transfer"),
             ("REVIEW", "review", "years", 1, "none", "review"), ("E1", "event", "days", 90, "quarter", "destroy"),
             ("K", "added", "days", 0, "none", "keep"), ("N", "added", "days", 0, "none", "destroy"))
TITLES = ("Akte", "Klasse \"ä\", 'x'", "日本 \u2028 \\n", "a;b,c|d", "\U0001f4c1 ordner", "x" * 200, " ", "-", "null", "é" * 100)
Act = dict[str, Any]


class History:
    """Acts of a random office, refused ones among them."""

    def __init__(self, rng: random.Random) -> None:
        self.rng, self.day = rng, datetime.date(2010, 1, 4)
        self.aggregations = self.records = self.holds = 0
        self.digests: dict[int, str] = {}

    def act(self, kind: str, **members: object) -> Act:
        return {"act": kind, "day": self.day.isoformat(), **members}

    def number(self, most: int) -> int:
        return self.rng.randint(1, max(1, most))

    def code(self) -> str:
        return f"K{self.rng.randrange(8)}"

    def schedule(self) -> str:
        return str(self.rng.choice(SCHEDULES)[0])

    def ago(self, days: int) -> str:
        return (self.day - datetime.timedelta(days=self.rng.randrange(days))).isoformat()

    def target(self) -> str:
        return self.rng.choice([f"record:{self.number(self.records)}", f"aggregation:{self.number(self.aggregations)}",
                                f"class:{self.code()}"])

    def plan(self) -> Iterator[Act]:
        for code, trigger, unit, count, offset, action in SCHEDULES:
            yield self.act("add-schedule", code=code, trigger=trigger, unit=unit, count=count, offset=offset, action=action)
        for at, row in enumerate(SCHEDULES):
            yield self.act("add-class", code=f"K{at}", title=self.rng.choice(TITLES), schedule=row[0])
        for at in range(5):
            yield self.aggregation(None if at < 3 else at - 2, self.code() if at < 3 else None)
        for at in range(4):
            yield self.act("place-hold", code=f"H{at}", reason=self.rng.choice(TITLES), by="L")

    def aggregation(self, parent: int | None, code: str | None) -> Act:
        self.aggregations += 1
        return self.act("add-aggregation", ref=f"A/{self.aggregations}", title=self.rng.choice(TITLES), parent=parent,
                        **{"class": code})

    def record(self) -> Act:
        content = b"" if self.rng.random() < .1 else self.rng.choice([
            f"content {self.rng.randrange(40)}".encode(), self.rng.randbytes(self.rng.randrange(3000))])
        self.records += 1
        self.digests[self.records] = digest(content)
        return self.act("add-record", ref=f"r/{self.records}", title=self.rng.choice(TITLES), originated=self.ago(2000),
                        aggregation=self.number(self.aggregations), schedule=self.rng.choice([None, None, None, self.schedule()]),
                        content=base64.b64encode(content).decode(), **{"class": self.rng.choice([None, None, self.code()])})

    def run_steps(self, most: int) -> list[Act]:
        return [{"act": "run-step"}] * self.rng.randint(1, most)

    def one(self) -> list[Act]:
        """Returns the acts of one turn."""
        record = self.number(self.records)
        turns: list[tuple[int, Callable[[], list[Act]]]] = [
            (10, lambda: [self.aggregation(self.rng.choice([None, self.number(self.aggregations)]),
                                           self.rng.choice([self.code(), self.code(), None]))]),
            (28, lambda: [self.record()]),
            (4, lambda: [self.act("close-aggregation", aggregation=self.number(self.aggregations))]),
            (4, lambda: [self.act("event", record=record, occurred=self.ago(400), by="E")]),
            (4, lambda: [self.act("review", record=record, by="R", schedule=self.rng.choice([None, self.schedule()]))]),
            (2, lambda: [self.act("place-hold", code=f"H{self.rng.randrange(9)}", reason="Klage", by="L")]),
            (6, lambda: [self.act("hold-on", hold=f"H{self.rng.randrange(9)}", target=self.target())]),
            (2, lambda: [self.act("lift-hold", hold=f"H{self.rng.randrange(9)}")]),
            (2, lambda: [self.act("reclassify", target=self.rng.choice([f"record:{record}", "aggregation:2"]),
                                  **{"class": self.code()})]),
            (1, lambda: [self.act("set-class-schedule", schedule=self.schedule(), **{"class": self.code()})]),
            (2, lambda: [self.act("set-record-schedule", record=record, schedule=self.rng.choice([None, self.schedule()]))]),
            (24, lambda: [self.act("confirm", record=record, action=self.rng.choice(["destroy", "destroy", "transfer"]),
                                   by=self.rng.choice("PQ"))]),
            (4, lambda: [self.act("open-run", by=self.rng.choice(TITLES)), *self.run_steps(40)]),
            (4, lambda: self.run_steps(10)),
            (5, lambda: [self.act("receipt", record=record, digest=self.digests.get(record, "0" * 64), by="Archiv")])]
        return self.rng.choices([turn for _, turn in turns], [weight for weight, _ in turns])[0]()

    def acts(self) -> list[Act]:
        """Returns the acts of the whole history."""
        every = list(self.plan())
        for _ in range(self.rng.randint(150, 420)):
            self.day += datetime.timedelta(days=self.rng.choice([0, 0, 0, 1, 3, 20, 60]))
            every += self.one()
        return every


def office_of(folder: pathlib.Path, seed: int) -> pathlib.Path:
    """Makes a random office."""
    (folder / "acts.json").write_text(json.dumps(History(random.Random(seed)).acts()))
    done = office("apply", folder / "office.db", folder / "acts.json")
    judge(f"history {seed} is done", done.status == 1 and done.error == "", done.error, is_quiet=True)
    return folder / "office.db"


LATER = [{"act": "open-run", "day": "2040-01-01", "by": "Z"}, *[{"act": "run-step"}] * 60,
         {"act": "add-record", "day": "2040-01-01", "ref": "new", "title": "new", "originated": "2040-01-01",
          "aggregation": 1, "class": None, "schedule": None, "content": ""}]


def same(folder: pathlib.Path) -> None:
    ended = 0
    for seed in range(HISTORIES):
        place = folder / str(seed)
        place.mkdir()
        file, bag, again = office_of(place, seed), place / "bag", place / "back.db"
        before = rows(file)
        ended += sum(row[8] == "ended" for row in before["records"])
        done = export(file, bag)
        judge(f"office {seed} leaves", done.status == 0 and done.error == "", done)
        done = back(bag, again)
        judge(f"office {seed} comes back", done.status == 0, done)
        equal(f"its rows ({seed})", rows(again), before)
        equal(f"what is beside it ({seed})", names_in(place),
              sorted({"acts.json", "back.db", "bag", "office.db", "office.db-wal"} & {*names_in(place), "back.db", "bag"}))
        done = export(again, place / "bag2")
        judge(f"office {seed} leaves again", done.status == 0, done)
        equal(f"its bag ({seed})", files_in(place / "bag2"), files_in(bag))
        done = export(again, bag)
        judge(f"a bag that is there is compared ({seed})", done.status == 0 and "the same" in done.out, done)
        (place / "later.json").write_text(json.dumps(LATER))
        answers = [office("apply", each, place / "later.json") for each in (file, again)]
        judge(f"both offices go on alike ({seed})", answers[0] == answers[1] and answers[0].status in (0, 1), answers)
    judge("records ended in these histories", ended > 0, ended)
