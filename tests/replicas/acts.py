"""Random acts of all eighteen kinds, about what the office answered before."""
from __future__ import annotations

import base64
import datetime
import hashlib
import json
import random
import threading
from typing import Any

Act = dict[str, Any]

FIRST_DAY = datetime.date(2024, 1, 2)
TRIGGERS = ["origin", "added", "closed", "last-addition", "review", "event"]
UNITS = ["days", "weeks", "months", "years"]
OFFSETS = ["none", "month", "quarter", *(f"from-month-{it}" for it in range(1, 13))]
ACTIONS = ["keep", "review", "transfer", "destroy"]
# how often an act is of a kind, beside the acts of a due list
KINDS = {"add-schedule": 2, "add-class": 3, "set-class-schedule": 2, "add-aggregation": 6,
         "close-aggregation": 1, "add-record": 30, "set-record-schedule": 4, "reclassify": 3,
         "place-hold": 1, "hold-on": 3, "hold-off": 2, "lift-hold": 0.5, "confirm": 5, "review": 2,
         "receipt": 1, "event": 4, "open-run": 1, "run-step": 3}
# what a new office is given first, so that all that follows has something to begin with
BEGIN: list[Act] = [
    {"act": "add-schedule", "day": "2024-01-02", "code": f"Z-{action}", "trigger": "added",
     "unit": "days", "count": 0, "offset": "none", "action": action} for action in ACTIONS] + [
    {"act": "add-class", "day": "2024-01-02", "code": "FIN", "title": "Finance",
     "schedule": "Z-destroy"},
    {"act": "add-aggregation", "day": "2024-01-02", "ref": "A", "title": "A", "class": "FIN"}]
FEW, FRESH = 40, 0.15
"""records that are new each time at first, and the chance of a new one afterwards"""
NOT_ACTS = [b"", b"{}", b"[", b"nothing", b'[{"act":"nope"}]', b"\xff\xfe[]", b"[]x", b'"[]"',
            b'[{"act":"run-step"},{"act":"run-step","x":1}]', b'[{"act":"event","day":"x"}]']


class Maker:
    """What clients know of the office together, and acts about it. For any number of threads."""

    def __init__(self) -> None:
        self.lock = threading.Lock()
        self.day = FIRST_DAY
        self.schedules = [f"Z-{action}" for action in ACTIONS]
        self.classes, self.holds, self.aggregations = ["FIN"], ["H1"], [1]
        self.digests: dict[int, str] = {}
        self.sent: list[int] = []
        self.targets: list[tuple[str, str]] = []
        self.asked: list[Act] = []
        self.count = 0

    def today(self, source: random.Random) -> str:
        """The day of an act. Days go on seldom: a late client's acts are refused then."""
        if source.random() < 0.002:
            self.day += datetime.timedelta(days=source.choice([1, 1, 1, 7, 30]))
        return self.day.isoformat()

    def again(self, source: random.Random) -> Act | None:
        """Most often a record that was asked for before, so that the office does not grow fast."""
        if not self.asked or len(self.asked) < FEW or source.random() < FRESH:
            return None
        return {**source.choice(self.asked), "day": self.today(source)}

    def unique(self) -> int:
        self.count += 1
        return self.count

    def some_record(self, source: random.Random) -> int:
        return source.choice(list(self.digests)[-200:]) if self.digests else 1

    def some_target(self, source: random.Random) -> str:
        return source.choice([f"record:{self.some_record(source)}",
                              f"record:{self.some_record(source)}",
                              f"aggregation:{source.choice(self.aggregations)}",
                              f"class:{source.choice(self.classes)}"])

    def record(self, source: random.Random) -> Act:
        """A new record, most often due at once under its own schedule."""
        again = self.again(source)
        if again is not None:
            return again
        content = source.randbytes(source.choice([0, 3, 40, 700, 700, 5000]))
        number = self.unique()
        made = {"act": "add-record", "day": self.today(source), "ref": f"R/{number}",
                "title": source.choice(["Letter", "Gebühren", "a \"text\" \\"]),
                "originated": (self.day - datetime.timedelta(days=source.randint(0, 900))).isoformat(),
                "aggregation": source.choice(self.aggregations[-30:]),
                "class": source.choice([None, None, source.choice(self.classes)]),
                "schedule": source.choice([None, "Z-destroy", "Z-transfer", "Z-review",
                                           source.choice(self.schedules)]),
                "content": base64.b64encode(content).decode()}
        self.asked.append(made)
        return made

    def act(self, kind: str, source: random.Random) -> Act:
        """One act of a kind; the office may refuse it."""
        day, number = self.today(source), self.some_record(source)
        by = source.choice(["registrar", "Ö. Lindqvist"])
        members: dict[str, Act] = {
            "add-schedule": {"code": f"S{source.randint(1, 25)}", "trigger": source.choice(TRIGGERS),
                             "unit": source.choice(UNITS), "count": source.randint(0, 2),
                             "offset": source.choice(OFFSETS), "action": source.choice(ACTIONS)},
            "add-class": {"code": f"C{source.randint(1, 25)}", "title": "Class",
                          "schedule": source.choice(self.schedules)},
            "set-class-schedule": {"class": source.choice(self.classes),
                                   "schedule": source.choice(self.schedules)},
            "add-aggregation": {"ref": f"A/{source.randint(1, 60)}", "title": "Aggregation",
                                "parent": source.choice([None, source.choice(self.aggregations)]),
                                "class": source.choice([None, *self.classes])},
            "close-aggregation": {"aggregation": source.choice(self.aggregations)},
            "set-record-schedule": {"record": number,
                                    "schedule": source.choice([None, *self.schedules])},
            "reclassify": {"target": source.choice([f"record:{number}",
                                                    f"aggregation:{source.choice(self.aggregations)}"]),
                           "class": source.choice([None, *self.classes])},
            "place-hold": {"code": f"H{source.randint(1, 25)}", "reason": "a lawsuit", "by": by},
            "hold-on": {"hold": source.choice(self.holds), "target": self.some_target(source)},
            "lift-hold": {"hold": source.choice(self.holds)},
            "confirm": {"record": number, "action": source.choice(ACTIONS[1:]), "by": by},
            "review": {"record": number, "schedule": source.choice([None, *self.schedules]), "by": by},
            "event": {"record": number, "by": by,
                      "occurred": (self.day - datetime.timedelta(days=source.randint(-1, 60))).isoformat()},
            "open-run": {"by": by},
        }
        if kind == "run-step":
            return {"act": kind}
        if kind == "add-record":
            return self.record(source)
        if kind == "hold-off":
            hold, target = source.choice(self.targets or [("H1", "class:FIN")])
            return {"act": kind, "day": day, "hold": hold, "target": target}
        if kind == "receipt":
            number = source.choice(self.sent[-50:] or [1])
            return {"act": kind, "day": day, "record": number, "by": by,
                    "digest": self.digests.get(number, "0" * 64)}
        return {"act": kind, "day": day, **members[kind]}

    def acts(self, source: random.Random, count: int) -> list[Act]:
        """A list of acts of any kinds."""
        with self.lock:
            kinds = source.choices(list(KINDS), list(KINDS.values()), k=count)
            return [self.act(kind, source) for kind in kinds]

    def marked(self, source: random.Random) -> Act:
        """An act that no other list has: an event with a name of its own."""
        with self.lock:
            return {**self.act("event", source), "by": f"client {self.unique()}"}

    def disposal(self, source: random.Random, due: list[dict[str, Any]]) -> list[Act]:
        """What a registrar does about a due list: reviews, confirmations, a run, receipts."""
        with self.lock:
            rows = source.sample(due, min(len(due), source.randint(1, 5)))
            day, made = self.today(source), []
            for row in rows:
                if row["action"] == "review":
                    made.append({"act": "review", "day": day, "record": row["record"],
                                 "schedule": "Z-destroy", "by": "registrar"})
                else:
                    made.append({"act": "confirm", "day": day, "record": row["record"],
                                 "action": row["action"], "by": "registrar"})
            made += [self.act("receipt", source) for _ in range(min(2, len(self.sent)))]
            made.append({"act": "open-run", "day": day, "by": "registrar"})
            return made + [{"act": "run-step"}] * source.randint(0, len(rows))

    def things(self, source: random.Random) -> list[Act]:
        """The begin of a round of all kinds: a hold and what it is placed on, two records."""
        with self.lock:
            number, day = self.unique(), self.day.isoformat()
            made: list[Act] = [
                {"act": "add-schedule", "day": day, "code": f"D{number}", "trigger": "event",
                 "unit": "days", "count": 0, "offset": "none", "action": "destroy"},
                {"act": "add-class", "day": day, "code": f"K{number}", "title": "A class",
                 "schedule": f"D{number}"},
                {"act": "add-aggregation", "day": day, "ref": f"K/{number}", "title": "A year",
                 "class": "FIN"},
                {"act": "place-hold", "day": day, "code": f"L{number}", "reason": "a lawsuit",
                 "by": "counsel"}]
            for schedule in ("Z-transfer", "Z-review"):
                made.append({**self.record(source), "ref": f"K/{number}/{schedule}", "day": day,
                             "aggregation": 1, "schedule": schedule})
            return made

    def uses(self, made: list[Act], numbers: list[int]) -> list[Act]:
        """What follows on these, whose answers had these numbers: every other kind but a receipt."""
        schedule, kind, _, hold = (act.get("code", "") for act in made[:4])
        aggregation, sent, reviewed = numbers
        with self.lock:
            day, target = self.day.isoformat(), f"record:{reviewed}"
            acts: list[Act] = [
                {"act": "set-class-schedule", "class": kind, "schedule": "Z-destroy"},
                {"act": "close-aggregation", "aggregation": aggregation},
                {"act": "hold-on", "hold": hold, "target": target},
                {"act": "hold-off", "hold": hold, "target": target},
                {"act": "lift-hold", "hold": hold},
                {"act": "event", "record": reviewed, "occurred": day, "by": "lessee"},
                {"act": "review", "record": reviewed, "schedule": schedule, "by": "registrar"},
                {"act": "set-record-schedule", "record": reviewed, "schedule": schedule},
                {"act": "reclassify", "target": target, "class": kind},
                {"act": "confirm", "record": sent, "action": "transfer", "by": "registrar"},
                {"act": "open-run", "by": "registrar"}]
            for act in acts:
                act["day"] = day
            acts += [{"act": "run-step"}, {"act": "run-step"}]
            return acts

    def learn(self, acts: list[Act], answers: list[dict[str, Any]]) -> None:
        """What was answered, for the acts that follow."""
        with self.lock:
            for act, answer in zip(acts, answers):
                if "refused" in answer:
                    continue
                kind = act["act"]
                if kind == "add-record":
                    content = base64.b64decode(act["content"])
                    self.digests[answer["number"]] = hashlib.sha256(content).hexdigest()
                elif kind == "add-aggregation":
                    self.aggregations.append(answer["number"])
                elif kind == "add-schedule":
                    self.schedules.append(act["code"])
                elif kind == "add-class":
                    self.classes.append(act["code"])
                elif kind == "place-hold":
                    self.holds.append(act["code"])
                elif kind == "hold-on":
                    self.targets.append((act["hold"], act["target"]))
                elif answer.get("outcome") == "sent":
                    self.sent.append(answer["record"])


def as_body(acts: list[Act]) -> bytes:
    return json.dumps(acts, ensure_ascii=False).encode()
