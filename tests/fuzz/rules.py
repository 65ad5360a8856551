"""The office as docs/MODEL.md and docs/CALENDAR.md tell it, in plain Python: what each act is answered, and what is told of the office then.

An act is an object as it was read of JSON, whose members are of their forms (`wire.acts_of`). Nothing here knows of files or of HTTP.
"""
import base64
import calendar
import datetime
import hashlib
import json

from fuzz.runs import Runs

EPOCH = datetime.date(1970, 1, 1)
FIRST_DAY = "0001-01-01"
MOST = {"schedules": 1_000, "classes": 1_000, "aggregations": 50_000, "records": 200_000, "holds": 1_000, "targets": 1_000, "runs": 10_000}


def compact(value):
    """A value as JSON, as the office writes it."""
    return json.dumps(value, separators=(",", ":"), sort_keys=True, ensure_ascii=False).encode()


def day_number(day):
    """The number of a day in a file."""
    return (datetime.date.fromisoformat(day) - EPOCH).days


def day_text(number):
    return (EPOCH + datetime.timedelta(days=number)).isoformat()


def plus(day, unit, count):
    """A day and a period."""
    if unit in ("days", "weeks"):
        return day + datetime.timedelta(days=count * (7 if unit == "weeks" else 1))
    months = day.year * 12 + day.month - 1 + count * (12 if unit == "years" else 1)
    year, month = months // 12, months % 12 + 1
    return datetime.date(year, month, min(day.day, calendar.monthrange(year, month)[1]))


def offset_from(day, offset):
    """The least day, not before that one, that the offset asks for."""
    if offset == "none":
        return day
    months = {"month": range(1, 13), "quarter": (1, 4, 7, 10)}.get(offset) or (int(offset.removeprefix("from-month-")),)
    firsts = (datetime.date(year, month, 1) for year in (day.year, day.year + 1) for month in months)
    return min(it for it in firsts if it >= day)


def thing_of(target):
    """The kind and the code or number that a target names."""
    kind, _, name = target.partition(":")
    return (kind, name if kind == "class" else int(name))


class Office(Runs):
    def __init__(self):
        self.day = FIRST_DAY
        self.schedules, self.classes, self.holds = {}, {}, {}
        self.aggregations, self.records, self.runs = [], [], []
        self.refs, self.aggregation_refs = {}, set()
        self.entries, self.certificates = [], {}

    # ---- what is read of it

    def above(self, number):
        """An aggregation and all that contain it."""
        found = []
        while number:
            found.append(number)
            number = self.aggregations[number - 1]["parent"]
        return found

    def class_above(self, number):
        return next((it for it in (self.aggregations[n - 1]["class"] for n in self.above(number)) if it), None)

    def class_of(self, record):
        return record["class"] or self.class_above(record["aggregation"])

    def plan_of(self, record):
        return record["schedule"] or self.classes[self.class_of(record)]["schedule"]

    def action_of(self, record):
        return self.schedules[self.plan_of(record)]["action"]

    def start_of(self, record):
        home = self.aggregations[record["aggregation"] - 1]
        return {
            "origin": record["originated"],
            "added": record["added"],
            "closed": home["closed"],
            "last-addition": home["last"],
            "review": (record["review"] or record["added"]),
            "event": self.event_day(record),
        }[self.schedules[self.plan_of(record)]["trigger"]]

    def event_day(self, record):
        """The day on which a record's event occurred."""
        return record["event"] and record["event"]["occurred"]

    def due_of(self, record):
        plan, start = self.schedules[self.plan_of(record)], self.start_of(record)
        if plan["action"] == "keep" or start is None:
            return None
        ended = plus(datetime.date.fromisoformat(start), plan["unit"], plan["count"])
        return offset_from(ended, plan["offset"]).isoformat()

    def counts(self, record):
        confirmed = record["confirmed"]
        return confirmed is not None and (confirmed["action"], confirmed["due"]) == (self.action_of(record), self.due_of(record))

    def covering(self, record):
        """The least code of the holds that cover a record."""
        targets = {("record", record["number"]), ("class", self.class_of(record))} | {("aggregation", n) for n in self.above(record["aggregation"])}
        return min((code for code, hold in self.holds.items() if not hold["lifted"] and not targets.isdisjoint(hold["targets"])), default=None)

    def is_due(self, record, day):
        due = self.due_of(record)
        return due is not None and due <= day

    def record_told(self, record):
        ending = next((it for it in self.entries if it["record"] == record["number"] and it["outcome"] in ("destroyed", "transferred")), None)
        return {
            "added": record["added"], "aggregation": record["aggregation"], "class": self.class_of(record), "confirmed": record["confirmed"],
            "digest": record["digest"], "due": self.due_of(record), "ended": ending and {"outcome": ending["outcome"], "run": ending["run"]},
            "event": self.event_day(record), "held": self.covering(record), "length": record["length"], "number": record["number"],
            "originated": record["originated"], "ref": record["ref"], "schedule": self.plan_of(record), "status": record["status"],
            "title": record["title"],
        }

    def due_told(self, day):
        rows = sorted(((self.due_of(it), it["number"]) for it in self.records if it["status"] == "here" and self.is_due(it, day)))
        return [self.due_row(self.records[number - 1], due) for due, number in rows]

    def overdue_rows(self, day, days):
        """What is here, was to be confirmed so many days after its due day, before the day, and is not."""
        rows = []
        for it in self.records:
            due = self.due_of(it) if it["status"] == "here" and not self.counts(it) else None
            if due is not None:
                late = (datetime.date.fromisoformat(due) + datetime.timedelta(days=days)).isoformat()
                rows += [(late, it["number"], due)] if late < day else []
        return [self.overdue_row(self.records[number - 1], due, late) for late, number, due in sorted(rows)]

    def overdue_row(self, record, due, late):
        row = {**self.due_row(record, due), "deadline": late}
        del row["confirmed"]
        return row

    def due_row(self, record, due):
        return {
            "action": self.action_of(record), "class": self.class_of(record), "confirmed": self.counts(record), "due": due,
            "held": self.covering(record), "record": record["number"], "ref": record["ref"], "schedule": self.plan_of(record),
        }

    # ---- why an act is refused: the first condition that holds

    def number_missing(self, things, number):
        return number is not None and number > len(things)

    def code_missing(self, things, code):
        return code is not None and code not in things

    def target_missing(self, target):
        kind, name = thing_of(target)
        return name not in self.classes if kind == "class" else name > len(self.aggregations if kind == "aggregation" else self.records)

    def status_of(self, number):
        return self.records[number - 1]["status"] if number <= len(self.records) else None

    def target_status(self, target):
        kind, name = thing_of(target)
        return self.status_of(name) if kind == "record" else None

    def status_conditions(self, status):
        return [(13, status == "ended"), (14, status in ("sent", "received"))]

    def full(self, name):
        return (6, len(getattr(self, name)) >= MOST[name])

    def add_schedule_conditions(self, act):
        return [(4, act["code"] in self.schedules), self.full("schedules")]

    def add_class_conditions(self, act):
        return [(4, act["code"] in self.classes), (5, act["schedule"] not in self.schedules), self.full("classes")]

    def set_class_schedule_conditions(self, act):
        return [(5, act["class"] not in self.classes or act["schedule"] not in self.schedules)]

    def add_aggregation_conditions(self, act):
        parent, code = act.get("parent"), act.get("class")
        missing = self.number_missing(self.aggregations, parent)
        above = self.above(parent) if parent and not missing else []
        return [
            (4, act["ref"] in self.aggregation_refs), (5, missing or self.code_missing(self.classes, code)), self.full("aggregations"),
            (7, bool(above) and self.aggregations[parent - 1]["closed"] is not None), (9, len(above) >= 8), (10, parent is None and code is None),
        ]

    def close_aggregation_conditions(self, act):
        number = act["aggregation"]
        if number > len(self.aggregations):
            return [(5, True)]
        return [(7, self.aggregations[number - 1]["closed"] is not None),
                (8, any(it["parent"] == number and it["closed"] is None for it in self.aggregations))]

    def add_record_conditions(self, act):
        number = act["aggregation"]
        missing = number > len(self.aggregations)
        return [
            (4, act["ref"] in self.refs),
            (5, missing or self.code_missing(self.classes, act.get("class")) or self.code_missing(self.schedules, act.get("schedule"))),
            self.full("records"), (7, not missing and self.aggregations[number - 1]["closed"] is not None),
        ]

    def set_record_schedule_conditions(self, act):
        status = self.status_of(act["record"])
        return [(5, status is None or self.code_missing(self.schedules, act.get("schedule"))), *self.status_conditions(status)]

    def reclassify_conditions(self, act):
        kind, number = thing_of(act["target"])
        missing, code = self.target_missing(act["target"]), act.get("class")
        root = kind == "aggregation" and not missing and self.aggregations[number - 1]["parent"] is None
        return [
            (5, missing or self.code_missing(self.classes, code)), (10, root and code is None),
            (11, not missing and self.leaves_held_class(kind, number, code)), *self.status_conditions(self.target_status(act["target"])),
        ]

    def leaves_held_class(self, kind, number, code):
        """Whether the class would change and a hold in force has the old one as a target."""
        thing = (self.aggregations if kind == "aggregation" else self.records)[number - 1]
        container = thing["parent"] if kind == "aggregation" else thing["aggregation"]
        inherited = self.class_above(container) if container else None
        old = thing["class"] or inherited
        return old != (code or inherited) and any(not it["lifted"] and ("class", old) in it["targets"] for it in self.holds.values())

    def place_hold_conditions(self, act):
        return [(4, act["code"] in self.holds), self.full("holds")]

    def hold_on_conditions(self, act):
        hold, target = self.holds.get(act["hold"]), thing_of(act["target"])
        return [
            (4, bool(hold) and target in hold["targets"]), (5, hold is None or self.target_missing(act["target"])),
            (6, bool(hold) and len(hold["targets"]) >= MOST["targets"]), (12, bool(hold) and hold["lifted"]),
            (13, self.target_status(act["target"]) == "ended"),
        ]

    def hold_off_conditions(self, act):
        hold = self.holds.get(act["hold"])
        return [(5, hold is None or thing_of(act["target"]) not in hold["targets"]), (12, bool(hold) and hold["lifted"])]

    def lift_hold_conditions(self, act):
        hold = self.holds.get(act["hold"])
        return [(5, hold is None), (12, bool(hold) and hold["lifted"])]

    def due_conditions(self, act, is_wrong, *missing):
        """Those of a confirmation and of a review, which is wrong by the plan's action."""
        status = self.status_of(act["record"])
        if status is None or any(missing):
            return [(5, True)]
        record = self.records[act["record"] - 1]
        return [*self.status_conditions(status), (15, not self.is_due(record, act["day"])), (16, is_wrong(self.action_of(record)))]

    def confirm_conditions(self, act):
        return self.due_conditions(act, lambda planned: act["action"] != planned or planned == "review")

    def review_conditions(self, act):
        return self.due_conditions(act, lambda planned: planned != "review", self.code_missing(self.schedules, act.get("schedule")))

    def open_run_conditions(self, act):
        return [self.full("runs"), (17, self.running() is not None)]

    def run_step_conditions(self, act):
        return [(18, self.running() is None)]

    def receipt_conditions(self, act):
        status = self.status_of(act["record"])
        return [(5, status is None), (13, status == "ended"), (19, status is not None and status != "sent"),
                (20, status is not None and self.records[act["record"] - 1]["digest"] != act["digest"])]

    def event_conditions(self, act):
        status = self.status_of(act["record"])
        return [(5, status is None), *self.status_conditions(status), (21, act["occurred"] > act["day"])]

    def refusal(self, act):
        """The number of an act's refusal, none where it is accepted."""
        if self.same_record(act):
            return None
        dated = [(1, "day" in act and act["day"] < self.day)]
        conditions = getattr(self, act["act"].replace("-", "_") + "_conditions")(act)
        return next((number for number, holds in dated + conditions if holds), None)

    def same_record(self, act):
        """The number of the record that was added before with all that is asked now."""
        number = self.refs.get(act["ref"]) if act["act"] == "add-record" else None
        if number is None:
            return None
        new, there = self.record_of(act), self.records[number - 1]
        return number if all(new[it] == there[it] for it in ("title", "originated", "aggregation", "length", "digest")) else None

    # ---- what an accepted act does

    def answer(self, act):
        """Does an act: its answer."""
        same = self.same_record(act)
        if same is not None:
            return {"number": same, "same": True}
        refused = self.refusal(act)
        if refused is not None:
            return {"refused": refused}
        self.day = act.get("day", self.day)
        return getattr(self, act["act"].replace("-", "_"))(act) or {"done": True}

    def is_changed_by(self, act):
        return self.same_record(act) is None and self.refusal(act) is None

    def add_schedule(self, act):
        self.schedules[act["code"]] = act

    def add_class(self, act):
        self.classes[act["code"]] = {"schedule": act["schedule"]}

    def set_class_schedule(self, act):
        self.classes[act["class"]]["schedule"] = act["schedule"]

    def add_aggregation(self, act):
        self.aggregations.append({"ref": act["ref"], "parent": act.get("parent"), "class": act.get("class"), "closed": None, "last": None})
        self.aggregation_refs.add(act["ref"])
        return {"number": len(self.aggregations)}

    def close_aggregation(self, act):
        self.aggregations[act["aggregation"] - 1]["closed"] = act["day"]

    def record_of(self, act):
        content = base64.b64decode(act["content"])
        return {
            "number": len(self.records) + 1, "ref": act["ref"], "title": act["title"], "originated": act["originated"], "added": act["day"],
            "aggregation": act["aggregation"], "class": act.get("class"), "schedule": act.get("schedule"), "length": len(content),
            "digest": hashlib.sha256(content).hexdigest(), "content": content, "status": "here", "review": None, "confirmed": None,
            "event": None,
        }

    def add_record(self, act):
        self.records.append(self.record_of(act))
        self.refs[act["ref"]] = len(self.records)
        self.aggregations[act["aggregation"] - 1]["last"] = act["day"]
        return {"number": len(self.records)}

    def set_record_schedule(self, act):
        self.records[act["record"] - 1]["schedule"] = act.get("schedule")

    def reclassify(self, act):
        kind, number = thing_of(act["target"])
        (self.aggregations if kind == "aggregation" else self.records)[number - 1]["class"] = act.get("class")

    def place_hold(self, act):
        self.holds[act["code"]] = {"lifted": False, "targets": set()}

    def hold_on(self, act):
        self.holds[act["hold"]]["targets"].add(thing_of(act["target"]))

    def hold_off(self, act):
        self.holds[act["hold"]]["targets"].remove(thing_of(act["target"]))

    def lift_hold(self, act):
        self.holds[act["hold"]]["lifted"] = True

    def confirm(self, act):
        record = self.records[act["record"] - 1]
        record["confirmed"] = {"action": act["action"], "by": act["by"], "day": act["day"], "due": self.due_of(record)}

    def review(self, act):
        record = self.records[act["record"] - 1]
        record["review"] = act["day"]
        record["schedule"] = act.get("schedule") or record["schedule"]

    def receipt(self, act):
        self.records[act["record"] - 1]["status"] = "received"

    def event(self, act):
        self.records[act["record"] - 1]["event"] = {it: act[it] for it in ("occurred", "day", "by")}
