"""Random acts, whose numbers and codes are mostly there."""
import base64
import json
import random

from gate_trial.world import today

KINDS = ("add-schedule", "add-class", "set-class-schedule", "add-aggregation", "close-aggregation", "add-record",
         "set-record-schedule", "reclassify", "place-hold", "hold-on", "hold-off", "lift-hold", "confirm", "review",
         "open-run", "run-step", "receipt", "event")
WEIGHTS = (3, 3, 3, 8, 2, 34, 4, 5, 4, 6, 4, 2, 14, 4, 3, 5, 3, 5)
CODES = [f"C{it}" for it in range(30)]


class Acts:
    """Makes requests. What it learns of answers makes the next ones likelier to be accepted."""

    def __init__(self, chance: random.Random) -> None:
        self.chance = chance
        self.records = self.aggregations = self.made = 0
        self.day = today()

    def request(self) -> tuple[str, bytes]:
        """Returns a path and a body."""
        if self.chance.random() < 0.03:
            return "/run/resume", b""
        count = 1 if self.chance.random() < 0.9 else self.chance.randint(2, 5)
        return "/acts", json.dumps([self.act() for _ in range(count)]).encode()

    def learn(self, body: bytes, said: bytes) -> None:
        for act, answer in zip(json.loads(body), json.loads(said)):
            if act["act"] == "add-record":
                self.records = max(self.records, answer.get("number", 0))
            elif act["act"] == "add-aggregation":
                self.aggregations = max(self.aggregations, answer.get("number", 0))

    def act(self) -> dict:
        kind = self.chance.choices(KINDS, WEIGHTS)[0]
        found = {"act": kind, **getattr(self, kind.replace("-", "_"))()}
        if kind != "run-step":
            found["day"] = self.day if self.chance.random() < 0.98 else "2001-01-01"
        return found

    def code(self) -> str:
        return self.chance.choice(CODES)

    def record(self) -> int:
        return self.chance.randint(max(1, self.records - 60), max(1, self.records + 1))

    def aggregation(self) -> int:
        return self.chance.randint(max(1, self.aggregations - 30), max(1, self.aggregations + 1))

    def target(self) -> str:
        return self.chance.choice([f"record:{self.record()}", f"aggregation:{self.aggregation()}",
                                   f"class:{self.code()}"])

    def maybe(self, code: str) -> str | None:
        return code if self.chance.random() < 0.5 else None

    def new(self) -> str:
        self.made += 1
        return f"ref {self.made}" if self.chance.random() < 0.95 else f"ref {self.chance.randint(1, self.made)}"

    # ---- the kinds

    def add_schedule(self) -> dict:
        return {"code": self.code(), "trigger": self.chance.choice(["origin", "added", "closed", "event",
                                                                    "last-addition"]),
                "unit": "days", "count": self.chance.choice([0, 0, 0, 3]), "offset": "none",
                "action": self.chance.choice(["destroy", "destroy", "transfer", "review", "keep"])}

    def add_class(self) -> dict:
        return {"code": self.code(), "title": "title", "schedule": self.code()}

    def set_class_schedule(self) -> dict:
        return {"class": self.code(), "schedule": self.code()}

    def add_aggregation(self) -> dict:
        parent = self.aggregation() if self.chance.random() < 0.4 else None
        return {"ref": self.new(), "title": "t\u00e9\"\\", "parent": parent, "class": None if parent else self.code()}

    def close_aggregation(self) -> dict:
        return {"aggregation": self.aggregation()}

    def add_record(self) -> dict:
        content = self.chance.randbytes(self.chance.choice([0, 3, 200, 5000]))
        return {"ref": self.new(), "title": "t", "originated": self.day, "aggregation": self.aggregation(),
                "class": self.maybe(self.code()), "schedule": self.maybe(self.code()),
                "content": base64.b64encode(content).decode()}

    def set_record_schedule(self) -> dict:
        return {"record": self.record(), "schedule": self.maybe(self.code())}

    def reclassify(self) -> dict:
        kind = self.chance.choice(["record", "aggregation"])
        number = self.record() if kind == "record" else self.aggregation()
        return {"target": f"{kind}:{number}", "class": self.code()}

    def place_hold(self) -> dict:
        return {"code": self.code(), "reason": "reason"}

    def hold_on(self) -> dict:
        return {"hold": self.code(), "target": self.target()}

    hold_off = hold_on

    def lift_hold(self) -> dict:
        return {"hold": self.code()}

    def confirm(self) -> dict:
        return {"record": self.record(), "action": self.chance.choice(["destroy", "destroy", "transfer"])}

    def review(self) -> dict:
        return {"record": self.record(), "schedule": self.maybe(self.code())}

    def open_run(self) -> dict:
        return {}

    def run_step(self) -> dict:
        return {}

    def receipt(self) -> dict:
        return {"record": self.record(), "digest": "0" * 64}

    def event(self) -> dict:
        return {"record": self.record(), "occurred": self.day}
